//! The films of the test vectors, in order. All of them are fixed: random thicknesses come from a
//! small generator with a fixed seed.

use crate::coefficient_film::convert;
use crate::coefficient_vectors;
use crate::film::{file_length, write, Film};
use crate::peak_vectors;
use crate::report::reported_run;
use crate::samples::{equal_step_samples, film_f, journal, made, HIGHEST};
use crate::step_vectors;
use crate::weight_vectors;

/// A name and the bytes of a file, accepted or not.
pub type Vector = (String, Vec<u8>);

/// Bytes that replace those at an offset of a file.
pub(crate) type Patch<'a> = (usize, &'a [u8]);

/// Every vector; the names carry their place in the order, so new ones come last.
pub fn all() -> Vec<Vector> {
    let mut list = List(Vec::new());
    cuts(&mut list);
    strays(&mut list);
    lengths(&mut list);
    values(&mut list);
    two_faults(&mut list);
    not_dominant(&mut list);
    around_film_f(&mut list);
    one_cell(&mut list);
    sizes(&mut list);
    peaks(&mut list);
    overs(&mut list);
    slow(&mut list);
    largest(&mut list);
    for (name, bytes) in equal_step_samples() {
        list.add(&format!("sample-{name}"), bytes);
    }
    coefficient_vectors::add(&mut list);
    step_vectors::add(&mut list);
    coefficient_vectors::add_beside_steps(&mut list);
    peak_vectors::add(&mut list);
    weight_vectors::add(&mut list);
    list.0
}

pub(crate) struct List(Vec<Vector>);

impl List {
    pub(crate) fn add(&mut self, name: &str, bytes: Vec<u8>) {
        let number = self.0.len() + 1;
        self.0.push((format!("{number:03}-{name}"), bytes));
    }

    pub(crate) fn film(&mut self, name: &str, film: &Film) {
        self.add(name, write(film));
    }

    /// Film F with some of its bytes replaced.
    fn patched(&mut self, name: &str, patches: &[Patch]) {
        self.add(name, patched(patches));
    }
}

fn patched(patches: &[Patch]) -> Vec<u8> {
    patch(write(&film_f()), patches)
}

pub(crate) fn patch(mut bytes: Vec<u8>, patches: &[Patch]) -> Vec<u8> {
    for (at, patch) in patches {
        bytes[*at..at + patch.len()].copy_from_slice(patch);
    }
    bytes
}

/// Marsaglia's xorshift generator of 64 bits.
pub(crate) struct Generator(pub(crate) u64);

impl Generator {
    pub(crate) fn next(&mut self) -> u64 {
        self.0 ^= self.0 << 13;
        self.0 ^= self.0 >> 7;
        self.0 ^= self.0 << 17;
        self.0
    }

    pub(crate) fn within(&mut self, low: i64, high: i64) -> i64 {
        low + (self.next() % (high - low + 1) as u64) as i64
    }

    /// A film of random thicknesses from `low` to `high`.
    pub(crate) fn rough(&mut self, shape: (usize, usize), low: u8, high: u8, wedge: i32) -> Film {
        let thickness: Vec<u8> = (0..(shape.0 + 2) * (shape.1 + 2))
            .map(|_| self.within(low.into(), high.into()) as u8)
            .collect();
        made(shape, HIGHEST, wedge, |r, c| {
            thickness[r * (shape.1 + 2) + c]
        })
    }
}

/// Refusal 1: the file ends in each header and in each body, and just after each field.
fn cuts(list: &mut List) {
    let whole = write(&film_f());
    list.add("empty", Vec::new());
    for length in [
        1, 2, 3, 4, 5, 7, 8, 11, 12, 14, 15, 18, 19, 21, 22, 33, 34, 36, 37, 40,
    ] {
        list.add(&format!("cut-{length}"), whole[..length].to_vec());
    }
    // One or two bytes are no header: 1 comes before the tag is looked at.
    list.add("cut-1-stray-tag", vec![0x07]);
    list.add("cut-2-stray-tag", vec![0xff, 0xff]);
    list.add("cut-6-stray-tag", [&whole[..5], &[0x09]].concat());
    list.add("cut-36-stray-tag", [&whole[..34], &[0x00, 0x00]].concat());
    let plain = write(&plain_pad());
    list.add("cut-weights-5x7", plain[..50].to_vec());
    list.add("cut-last-5x7", plain[..plain.len() - 1].to_vec());
}

/// A pad of 5 × 7, thin enough for quick runs.
pub(crate) fn plain_pad() -> Film {
    made((5, 7), 10_000, 100_000, |_, c| 20 - 2 * c as u8)
}

/// Refusal 2: a tag that is not the next one, or bytes after field 05.
fn strays(list: &mut List) {
    let whole = write(&film_f());
    for (name, at, tag) in [
        ("tag-00-first", 0, 0x00),
        ("tag-02-first", 0, 0x02),
        ("tag-ff-first", 0, 0xff),
        ("tag-03-second", 5, 0x03),
        ("tag-04-third", 12, 0x04),
        ("tag-03-fourth", 19, 0x03),
        ("tag-06-fifth", 34, 0x06),
    ] {
        list.patched(name, &[(at, &[tag])]);
    }
    list.add("field-01-twice", [&whole[..5], &whole].concat());
    let swapped = [&whole[..12], &whole[19..34], &whole[12..19], &whole[34..]];
    list.add("fields-swapped", swapped.concat());
    list.add("byte-00-after", [&whole[..], &[0x00]].concat());
    list.add("film-after-film", [&whole[..], &whole[..]].concat());
    let mut generator = Generator(0x0123_4567_89ab_cdef);
    let mut long = whole;
    long.resize_with(10_000, || generator.next() as u8);
    list.add("bytes-10000", long);
}

/// Refusal 3: a body length that is wrong for its tag, also where the body would be cut.
fn lengths(list: &mut List) {
    for (name, at, length) in [
        ("length-01-0", 0, 0x0000_u16),
        ("length-01-1", 0, 0x0001),
        ("length-01-3", 0, 0x0003),
        ("length-01-turned", 0, 0x0200),
        ("length-02-3", 5, 0x0003),
        ("length-02-turned", 5, 0x0400),
        ("length-03-2", 12, 0x0002),
        ("length-03-5", 12, 0x0005),
        ("length-03-65535", 12, 0xffff),
        ("length-04-11", 19, 0x000b),
        ("length-04-13", 19, 0x000d),
        ("length-04-268", 19, 0x010c),
        ("length-05-0", 34, 0x0000),
        ("length-05-8", 34, 0x0008),
    ] {
        list.patched(name, &[(at + 1, &length.to_be_bytes())]);
    }
}

/// Refusals 4 to 8: each number just outside its range and far outside it.
fn values(list: &mut List) {
    for (name, at, number) in [
        ("rows-0", 3, 0),
        ("rows-33", 3, 33),
        ("rows-255", 3, 255),
        ("columns-0", 4, 0),
        ("columns-33", 4, 33),
        ("columns-255", 4, 255),
    ] {
        list.patched(name, &[(at, &[number])]);
    }
    list.patched("rows-and-columns-0", &[(3, &[0, 0])]);
    for ceiling in [0_u32, 16_777_217, 0x8000_0000, u32::MAX] {
        list.patched(
            &format!("ceiling-{ceiling}"),
            &[(8, &ceiling.to_be_bytes())],
        );
    }
    list.patched("weight-0-first", &[(15, &[0, 0])]);
    list.patched("weight-0-last", &[(17, &[0, 0])]);
    list.patched("weight-0-both", &[(15, &[0, 0, 0, 0])]);
    for (name, at, number) in [
        ("thickness-0", 27, 0),
        ("thickness-129", 28, 129),
        ("thickness-255-ring", 29, 255),
        ("thickness-0-first-corner", 22, 0),
        ("thickness-129-last-corner", 33, 129),
    ] {
        list.patched(name, &[(at, &[number])]);
    }
    list.patched("thickness-two", &[(25, &[200]), (24, &[0])]);
    for (name, wedge) in [
        ("wedge-high", 1_000_000_001_i32),
        ("wedge-highest", i32::MAX),
        ("wedge-low", -1_000_000_001),
        ("wedge-lowest", i32::MIN),
    ] {
        list.patched(name, &[(37, &wedge.to_be_bytes())]);
    }
    let mut film = plain_pad();
    film.weights[34] = 0;
    list.film("weight-0-last-5x7", &film);
    film = plain_pad();
    film.thickness[9 * 3 + 5] = 130;
    list.film("thickness-130-5x7", &film);
    film = plain_pad();
    film.wedge = 1_500_000_000;
    list.film("wedge-high-5x7", &film);
}

/// Two faults at once: the one that is tested first is reported.
fn two_faults(list: &mut List) {
    let faults: [(&str, &[Patch]); 9] = [
        ("two-tag-length", &[(5, &[0x09, 0x00, 0x07])]),
        ("two-rows-ceiling", &[(3, &[0]), (8, &[0, 0, 0, 0])]),
        ("two-columns-tag", &[(4, &[33]), (5, &[0x07])]),
        ("two-ceiling-length", &[(8, &[0, 0, 0, 0]), (13, &[0, 9])]),
        ("two-weight-tag", &[(17, &[0, 0]), (19, &[0x08])]),
        ("two-weight-thickness", &[(15, &[0, 0]), (22, &[0])]),
        (
            "two-thickness-wedge",
            &[(33, &[0]), (37, &[0x7f, 0xff, 0xff, 0xff])],
        ),
        (
            "two-wedge-unheld",
            &[(15, &[0xff, 0xff]), (37, &[0x7f, 0xff, 0xff, 0xff])],
        ),
        ("two-weight-unheld", &[(15, &[0xff, 0xff, 0, 0])]),
    ];
    for (name, patches) in faults {
        list.patched(name, patches);
    }
    let mut bytes = patched(&[(33, &[0])]);
    bytes.push(0);
    list.add("two-thickness-after", bytes);
    bytes = patched(&[(15, &[0xff, 0xff])]);
    bytes.push(5);
    list.add("two-after-unheld", bytes);
    bytes = patched(&[(17, &[0, 0])]);
    bytes.truncate(30);
    list.add("two-weight-cut", bytes);
    bytes = patched(&[(35, &[0, 5])]);
    bytes.truncate(38);
    list.add("two-length-cut", bytes);
    bytes = patched(&[(22, &[0])]);
    bytes.truncate(33);
    list.add("two-cut-thickness", bytes);
}

/// Refusal 9: at cell 0, at later cells, and one step from being held.
fn not_dominant(list: &mut List) {
    list.patched("unheld-0", &[(17, &[0xff, 0xff])]);
    list.patched("unheld-1", &[(15, &[0xff, 0xff])]);
    let film = exact_row_sum();
    list.film("held-by-1", &film);
    let mut film = film;
    film.weights[1] += 1;
    list.film("unheld-by-1", &film);

    // Equal weights leave a row sum of exactly 0 in every cell that has no ring neighbour.
    for shape in [(3, 3), (4, 9), (9, 4), (32, 32)] {
        let mut film = made(shape, 1_000, 1_000, |_, _| 2);
        film.weights = vec![7; film.cells()];
        list.film(&format!("unheld-flat-{}x{}", shape.0, shape.1), &film);
    }
    // The least weights less 1 in one cell: that cell is no longer held, and it is the only one.
    for cell in [0, 12, 17, 34] {
        let mut film = made((5, 7), 1_000, 1_000, |r, c| {
            if (1..6).contains(&r) && (1..8).contains(&c) {
                9
            } else {
                1
            }
        });
        film.weights[cell] -= 1;
        list.film(&format!("unheld-cell-{cell}"), &film);
    }
}

/// Two cells inside a ring of 1, with a weighted row sum of exactly 1 in the first.
fn exact_row_sum() -> Film {
    let cube = |sum: u64| sum * sum * sum;
    for (a, b) in (2..9).flat_map(|a| (2..9).map(move |b| (a, b))) {
        let link = cube(a + b);
        let diagonal = link + 3 * cube(a + 1);
        for first in 2..5_000 {
            if (first * diagonal - 1) % link == 0 {
                let second = (first * diagonal - 1) / link;
                let mut film = made((1, 2), 5_000, 7_777, |r, c| match (r, c) {
                    (1, 1) => a as u8,
                    (1, 2) => b as u8,
                    _ => 1,
                });
                film.weights = vec![first as u16, second as u16];
                return film;
            }
        }
    }
    unreachable!("the first pairs already have such weights")
}

/// Film F and its neighbours: other ceilings, wedges, weights and corners.
fn around_film_f(list: &mut List) {
    list.film("film-f", &film_f());
    for ceiling in [4_u32, 3, 1, 16_777_216] {
        list.patched(
            &format!("film-f-ceiling-{ceiling}"),
            &[(8, &ceiling.to_be_bytes())],
        );
    }
    for (name, wedge) in [
        ("film-f-wedge-0", 0_i32),
        ("film-f-wedge-1", 1),
        ("film-f-wedge-down", -100),
        ("film-f-wedge-10000", 10_000),
    ] {
        list.patched(
            name,
            &[(37, &wedge.to_be_bytes()), (8, &5_000_u32.to_be_bytes())],
        );
    }
    // A low byte of 0 is no weight of 0.
    list.patched("film-f-weights-256", &[(15, &[1, 0, 1, 0])]);
    list.patched("film-f-weights-65535", &[(15, &[0xff; 4])]);
    let corners: [Patch; 4] = [(22, &[128]), (25, &[77]), (30, &[5]), (33, &[128])];
    list.patched("film-f-corners", &corners);
}

/// One cell, where the required pressure is one quotient: 51 is its diagonal.
fn one_cell(list: &mut List) {
    let cell = |ceiling, wedge| made((1, 1), ceiling, wedge, |_, c| if c == 0 { 2 } else { 1 });
    let full = 51 * HIGHEST as i32;
    list.film("one-cell-exact", &cell(100, 510));
    list.film("one-cell-above-exact", &cell(100, 511));
    list.film("one-cell-full", &cell(HIGHEST, full));
    list.film("one-cell-above-full", &cell(HIGHEST, full + 1));
    list.film("one-cell-ceiling-1", &cell(1, 51));
    list.film("one-cell-over-1", &cell(1, 52));
    list.film("one-cell-highest", &cell(HIGHEST, 1_000_000_000));
    list.film("one-cell-lowest", &cell(HIGHEST, -1_000_000_000));
    let thick = made((1, 1), HIGHEST, -1_000_000_000, |_, c| {
        if c == 2 {
            128
        } else {
            1
        }
    });
    list.film("one-cell-thick", &thick);
}

/// All kinds of shapes, with rough films and both signs of the wedge.
fn sizes(list: &mut List) {
    let mut generator = Generator(0x9e37_79b9_7f4a_7c15);
    let shapes: [(usize, usize, u8, u8, i32); 22] = [
        (1, 2, 1, 9, 12_345),
        (2, 1, 1, 9, -23_456),
        (2, 2, 1, 128, 1_000_000_000),
        (1, 3, 1, 5, 999),
        (3, 1, 1, 5, 999),
        (1, 32, 3, 11, 54_321),
        (32, 1, 3, 11, 54_321),
        (2, 32, 20, 40, -9_000_000),
        (32, 2, 20, 40, 9_000_000),
        (3, 3, 1, 4, 77),
        (3, 3, 100, 128, 1_000_000_000),
        (3, 3, 100, 128, -1_000_000_000),
        (4, 4, 1, 20, 200_000),
        (5, 7, 2, 6, 3_000),
        (7, 5, 2, 6, -3_000),
        (6, 6, 10, 10, 1_000_000),
        (8, 8, 1, 12, 40_000),
        (17, 4, 5, 15, 77_777),
        (4, 17, 5, 15, -77_777),
        (10, 11, 30, 60, 50_000_000),
        (16, 16, 6, 12, 250_000),
        (31, 3, 1, 7, 5_000),
    ];
    for (number, (rows, columns, low, high, wedge)) in shapes.into_iter().enumerate() {
        let film = generator.rough((rows, columns), low, high, wedge);
        let sign = if wedge < 0 { "down-" } else { "" };
        let letter = (b'a' + number as u8) as char;
        list.film(&format!("size-{sign}{rows}x{columns}-{letter}"), &film);
    }
    // Weights at their largest, and a run that is the same for all weights that hold the film.
    let mut film = plain_pad();
    list.film("weights-least", &film);
    let largest = *film.weights.iter().max().expect("35 cells");
    for weight in &mut film.weights {
        *weight *= u16::MAX / largest;
    }
    list.film("weights-large", &film);
}

/// Peaks: none, equal ones, and one at the ceiling.
fn peaks(list: &mut List) {
    list.film(
        "zero-wedge-0",
        &made((4, 5), 9, 0, |r, c| (2 + r + c) as u8),
    );
    list.film(
        "zero-diverging",
        &made((4, 5), 9, 1_000, |_, c| 3 + c as u8),
    );
    list.film(
        "zero-converging-down",
        &made((4, 5), 9, -1_000, |_, c| 13 - c as u8),
    );
    // Wide slacks where nothing rises: 127 × 10⁹ beside 0.
    list.film(
        "zero-wide-slack",
        &made((2, 3), 1, 1_000_000_000, |_, c| if c < 3 { 1 } else { 128 }),
    );
    // Rows mirror each other, so the peak stands twice; the lower row's cell is named.
    list.film(
        "tie-rows-4x5",
        &made((4, 5), 9_999, 50_000, |_, c| 14 - 2 * c as u8),
    );
    list.film(
        "tie-rows-2x1",
        &made((2, 1), 9_999, 50_000, |_, c| 4 - c as u8),
    );
    list.film(
        "tie-rows-6x3",
        &made((6, 3), 9_999, 9_876, |_, c| 8 - c as u8),
    );
    // A source of −1 everywhere: each cell needs 1 and no more.
    list.film("tie-all-1", &made((2, 2), 5, 1, |_, c| [3, 2, 2, 1][c]));
    // Thickness turned: the law runs across the rows, so no cell has a source.
    list.film(
        "zero-rows-law",
        &made((7, 3), 50, 1_000_000, |r, _| 20 - r as u8),
    );
    let mut film = plain_pad();
    film.ceiling = peak(&film);
    list.film("peak-at-ceiling", &film);
    film.ceiling -= 1;
    list.film("peak-above-ceiling", &film);
    let mut film = made((3, 5), HIGHEST, 70_500_000, |_, c| 6 - c.min(5) as u8);
    list.film("peak-millions", &film);
    film.wedge = -film.wedge;
    list.film("peak-millions-down", &film);
}

/// The greatest pressure of the reported run.
fn peak(film: &Film) -> u32 {
    let (_, field) = reported_run(&convert(film));
    field.into_iter().max().expect("at least one cell")
}

/// Over at the first cell, at the last one, and in between where r and c differ.
fn overs(list: &mut List) {
    // One ring thickness gives one source: every other cell's is 0.
    let single = |shape, at: (usize, usize)| {
        made(
            shape,
            40,
            1_000_000,
            move |r, c| {
                if (r, c) == at {
                    4
                } else {
                    5
                }
            },
        )
    };
    list.film("over-last-3x4", &single((3, 4), (3, 5)));
    list.film("over-last-4x3", &single((4, 3), (4, 4)));
    list.film("over-row-end-5x2", &single((5, 2), (4, 3)));
    list.film(
        "over-first-3x4",
        &made(
            (3, 4),
            40,
            1_000_000,
            |r, c| {
                if (r, c) == (1, 0) {
                    6
                } else {
                    5
                }
            },
        ),
    );
    let mut generator = Generator(0x2545_f491_4f6c_dd1d);
    for shape in [(2, 9), (9, 2), (6, 4), (4, 6), (7, 12)] {
        let mut film = generator.rough(shape, 2, 9, 90_000);
        film.ceiling = peak(&film) - 1;
        list.film(&format!("over-late-{}x{}", shape.0, shape.1), &film);
        film.ceiling /= 2;
        list.film(&format!("over-early-{}x{}", shape.0, shape.1), &film);
    }
}

/// A small pad made to be slow: thickness `pad` inside two thin courses of 1, and on the left a
/// ring of `left`, which gives the first column its source.
pub(crate) struct SlowPad {
    shape: (usize, usize),
    pad: u8,
    left: u8,
}

impl SlowPad {
    fn law(&self, r: usize, c: usize) -> u8 {
        if (2..self.shape.0).contains(&r) && (2..self.shape.1).contains(&c) {
            self.pad
        } else if c == 0 {
            self.left
        } else {
            1
        }
    }

    pub(crate) fn film(&self, wedge: i32) -> Film {
        made(self.shape, HIGHEST, wedge, |r, c| self.law(r, c))
    }

    /// With the columns turned round: the source lies at the right, and a falling wedge lifts.
    fn turned(&self, wedge: i32) -> Film {
        made(self.shape, HIGHEST, wedge, |r, c| {
            self.law(r, self.shape.1 + 1 - c)
        })
    }
}

pub(crate) fn slow_pad(shape: (usize, usize), pad: u8, left: u8) -> SlowPad {
    SlowPad { shape, pad, left }
}

/// Small films whose runs are long: they end by the budget, near it, or on its last visit.
fn slow(list: &mut List) {
    let films = [
        ("slow-done-3x3", slow_pad((3, 3), 90, 2).film(100_000_000)),
        ("slow-done-4x5", slow_pad((4, 5), 40, 2).film(600_000_000)),
        ("stopped-3x4", slow_pad((3, 4), 80, 2).film(600_000_000)),
        ("stopped-4x5", slow_pad((4, 5), 70, 2).film(100_000_000)),
        ("stopped-5x5", slow_pad((5, 5), 50, 2).turned(-10_000_000)),
        // Found by search. The first is Done on the budget's last visit. The second wants one
        // visit more: it is Stopped although no slack is negative.
        ("last-visit-done", slow_pad((3, 4), 86, 3).film(479_534_439)),
        (
            "last-visit-quiet",
            slow_pad((4, 4), 73, 2).turned(-31_364_951),
        ),
        ("last-visit-over", over_on_last_visit()),
    ];
    for (name, film) in &films {
        list.film(name, film);
    }
}

/// The budget's last visit is the last cell's here, and it carries the peak: a ceiling just below
/// what that visit wants makes it answer Over instead of Stopped.
fn over_on_last_visit() -> Film {
    let mut film = slow_pad((5, 5), 50, 2).turned(-100_000_000);
    film.ceiling = peak(&film) - 1;
    film
}

/// Films of the largest shapes.
fn largest(list: &mut List) {
    let mut generator = Generator(0xd1b5_4a32_d192_ed03);
    list.film(
        "large-31x32",
        &generator.rough((31, 32), 20, 40, 30_000_000),
    );
    list.film(
        "large-down-32x31",
        &generator.rough((32, 31), 60, 128, -1_000_000_000),
    );
    let flat = made((32, 32), HIGHEST, 1_000_000_000, |_, c| {
        if c == 33 {
            1
        } else {
            128
        }
    });
    list.film("large-flat-32x32", &flat);
    let bytes = write(&flat);
    assert_eq!(bytes.len(), file_length(32, 32, false));
    list.add("large-byte-after", [&bytes[..], &[0x05]].concat());
    list.add("large-cut-3228", bytes[..3_228].to_vec());
    let mut weak = journal();
    weak.wedge = 1_000;
    weak.ceiling = 5_000;
    list.film("journal-weak", &weak);
    weak.wedge = -1_000;
    list.film("journal-turned", &weak);
}
