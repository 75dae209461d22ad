//! The test vectors of grid steps (document 02, W2), after those of W1.

use crate::coefficient_film::convert;
use crate::film::{file_length, write, Film, Steps};
use crate::samples::{film_f, film_f_steps, made, step_samples, stepped, unequal_pad, HIGHEST};
use crate::vectors::{patch, plain_pad, Generator, List, Patch};

// Where field 0A of film F lies, and its two numbers.
const STEPS: usize = 41;
const ALONG: usize = 44;
const ACROSS: usize = 45;
const END: usize = 46;

/// A field 0A as it should be.
const FIELD: &[u8] = &[0x0a, 0x00, 0x02, 0x02, 0x03];

/// Bytes that are no tag of an optional field here: those of no field, of fields before, and of later ones.
const OTHERS: [u8; 9] = [0x00, 0x04, 0x05, 0x06, 0x09, 0x0b, 0x0c, 0x0d, 0xff];

/// Adds them to the list, in order.
pub(crate) fn add(list: &mut List) {
    around_film_f(list);
    one_cell(list);
    sizes(list);
    cuts(list);
    lengths(list);
    values(list);
    places(list);
    bytes_behind(list);
    two_faults(list);
    dominance(list);
    largest(list);
    for (name, bytes) in step_samples() {
        list.add(&format!("sample-{name}"), bytes);
    }
    converted(list);
}

impl List {
    /// Film F with a field 0A of 2 and 3, and some of its bytes replaced.
    fn stepped(&mut self, name: &str, patches: &[Patch]) {
        self.add(name, patch(whole(), patches));
    }
}

/// Film F's file with its field 0A.
fn whole() -> Vec<u8> {
    let bytes = [&write(&film_f())[..], FIELD].concat();
    assert_eq!(bytes.len(), END);
    bytes
}

/// Film F's file without it.
fn plain() -> Vec<u8> {
    write(&film_f())
}

/// Film F with any steps.
fn film_f_with(along: u32, across: u32) -> Film {
    let mut film = film_f();
    film.steps = Some(Steps { along, across });
    film
}

/// Film F with its steps, other wedges and other ceilings. Steps 1 1 give film F's report.
fn around_film_f(list: &mut List) {
    for (along, across) in [(1, 1), (2, 3), (4, 1), (1, 4), (4, 4), (3, 2)] {
        let film = film_f_with(along, across);
        list.film(&format!("steps-{along}-{across}"), &film);
    }
    let mut film = film_f_with(2, 3);
    film.ceiling = 5_000;
    for (name, wedge) in [
        ("steps-2-3-wedge-0", 0),
        ("steps-2-3-wedge-100000", 100_000),
        ("steps-2-3-wedge-down", -100_000),
    ] {
        film.wedge = wedge;
        list.film(name, &film);
    }
    film = film_f_with(2, 3);
    film.ceiling = 1;
    list.film("steps-2-3-over", &film);
}

/// One cell, where the required pressure is one quotient: 4 × (27 + 8) + 3 × (8 + 8) = 188 is its
/// diagonal.
fn one_cell(list: &mut List) {
    let cell = |wedge| {
        let film = made((1, 1), 100, wedge, |_, c| if c == 0 { 2 } else { 1 });
        stepped(&film, (4, 3))
    };
    list.film("steps-one-cell-exact", &cell(1_880));
    list.film("steps-one-cell-above-exact", &cell(1_881));
}

/// All kinds of shapes, with rough films and all kinds of steps; one pad with several.
fn sizes(list: &mut List) {
    let mut generator = Generator(0x3c6e_f372_fe94_f82b);
    let films = [
        (1, 2, 1, 9, -12_345, (3, 1)),
        (2, 1, 1, 9, 23_456, (1, 3)),
        (2, 2, 1, 128, 1_000_000_000, (4, 4)),
        (1, 32, 3, 11, 154_321, (4, 1)),
        (1, 32, 3, 11, 154_321, (1, 4)),
        (32, 1, 3, 11, 154_321, (4, 1)),
        (32, 1, 3, 11, -154_321, (2, 4)),
        (3, 3, 100, 128, 1_000_000_000, (1, 4)),
        (5, 7, 2, 6, 3_000, (2, 3)),
        (7, 5, 2, 6, -3_000, (3, 2)),
        (17, 4, 5, 15, 177_777, (2, 1)),
        (4, 17, 5, 15, -177_777, (1, 2)),
        (16, 16, 6, 12, 250_000, (3, 4)),
        (31, 3, 1, 7, 5_000, (4, 3)),
        (32, 32, 20, 40, 30_000_000, (2, 3)),
    ];
    for (rows, columns, low, high, wedge, steps) in films {
        let film = stepped(&generator.rough((rows, columns), low, high, wedge), steps);
        let sign = if wedge < 0 { "down-" } else { "" };
        let (along, across) = steps;
        list.film(
            &format!("steps-{along}-{across}-{sign}{rows}x{columns}"),
            &film,
        );
    }
    // The same pad: given steps 1 1 change its length alone, and each pair of them is a film of its own.
    for (along, across) in [(1, 1), (2, 2), (4, 1), (1, 4)] {
        let film = stepped(&plain_pad(), (along, across));
        list.film(&format!("steps-{along}-{across}-pad"), &film);
    }
}

/// Refusal 1: the file ends in the header or in the body. The tag alone is a field that is cut.
fn cuts(list: &mut List) {
    list.add("steps-0a-alone", whole()[..STEPS + 1].to_vec());
    for length in [43, 44, 45] {
        list.add(&format!("steps-cut-{length}"), whole()[..length].to_vec());
    }
    let pad = write(&stepped(&plain_pad(), (4, 1)));
    list.add("steps-0a-alone-5x7", pad[..pad.len() - 4].to_vec());
    list.add("steps-cut-last-5x7", pad[..pad.len() - 1].to_vec());
}

/// Refusal 3: a length that is not 2, also where the body has it, or where the body is cut.
fn lengths(list: &mut List) {
    for length in [0_u16, 1, 3, 0x0200, 0xffff] {
        let bytes = length.to_be_bytes();
        list.stepped(&format!("steps-length-{length}"), &[(STEPS + 1, &bytes)]);
    }
    for (name, field) in [
        ("steps-length-0-whole", &[0x0a, 0x00, 0x00][..]),
        ("steps-length-1-whole", &[0x0a, 0x00, 0x01, 0x01]),
        ("steps-length-3-whole", &[0x0a, 0x00, 0x03, 1, 1, 1]),
        ("steps-length-4-cut", &[0x0a, 0x00, 0x04, 0x01]),
    ] {
        list.add(name, [&plain()[..], field].concat());
    }
}

/// Refusal 15: each step just outside its range and far outside it, and both.
fn values(list: &mut List) {
    for (along, across) in [
        (0, 3),
        (2, 0),
        (0, 0),
        (5, 3),
        (2, 5),
        (5, 5),
        (255, 3),
        (2, 255),
        (255, 255),
        (0, 5),
        (5, 0),
    ] {
        let film = film_f_with(along, across);
        list.film(&format!("steps-{along}-{across}-refused"), &film);
    }
    let mut pad = plain_pad();
    for (name, along, across) in [
        ("steps-along-0-5x7", 0, 1),
        ("steps-across-5-5x7", 1, 5),
        ("steps-along-128-5x7", 128, 9),
    ] {
        pad.steps = Some(Steps { along, across });
        list.film(name, &pad);
    }
}

/// Refusal 2: a field 0A that is repeated or stands before field 05. There its header comes first, as
/// for any required field.
fn places(list: &mut List) {
    let bytes = plain();
    let put = |at: usize, field: &[u8]| [&bytes[..at], field, &bytes[at..]].concat();
    list.add("steps-twice", [&whole()[..], FIELD].concat());
    let unlike = [&whole()[..], &[0x0a, 0x00, 0x02, 0x00, 0x05]].concat();
    list.add("steps-twice-unlike", unlike);
    list.add("steps-first", put(0, FIELD));
    list.add("steps-after-03", put(19, FIELD));
    list.add("steps-after-04", put(34, FIELD));
    list.add("steps-for-05", [&bytes[..34], FIELD].concat());
    list.add("steps-for-05-alone", [&bytes[..34], &FIELD[..1]].concat());
    list.add("steps-for-05-cut", [&bytes[..34], &FIELD[..2]].concat());
    // A wedge number of two bytes, or steps with the tag of the wedge number.
    list.add("steps-as-05", [&bytes[..34], &[5, 0, 2, 2, 3]].concat());
    list.add(
        "steps-after-05-as-05",
        [&bytes[..], &[5, 0, 2, 2, 3]].concat(),
    );
}

/// Refusal 2: bytes that follow field 05, or field 0A, by one or as a whole field.
fn bytes_behind(list: &mut List) {
    for byte in OTHERS {
        let bytes = [&plain()[..], &[byte]].concat();
        list.add(&format!("steps-none-then-{byte:02x}"), bytes);
    }
    for byte in OTHERS.into_iter().chain([0x0a]) {
        let bytes = [&whole()[..], &[byte]].concat();
        list.add(&format!("steps-then-{byte:02x}"), bytes);
    }
    let floors: &[u8] = &[0x0b, 0, 8, 0, 0, 0, 0, 0, 0, 0, 0];
    list.add("steps-none-then-field-0b", [&plain()[..], floors].concat());
    list.add("steps-then-field-0b", [&whole()[..], floors].concat());
    list.add("steps-then-film", [&whole()[..], &whole()[..]].concat());
    // The tag of the steps behind a stray byte doesn't count.
    let behind = [&plain()[..], &[0x00], FIELD].concat();
    list.add("steps-behind-00", behind);
    let mut generator = Generator(0x510e_527f_ade6_82d1);
    let mut long = whole();
    long.resize_with(10_000, || generator.next() as u8);
    list.add("steps-bytes-10000", long);
}

/// Two faults at once: the one that is tested first is reported.
fn two_faults(list: &mut List) {
    const UNHELD: Patch = (15, &[0xff, 0xff]);
    const BAD_WEDGE: Patch = (37, &[0x7f, 0xff, 0xff, 0xff]);
    const BAD_STEP: Patch = (ACROSS, &[5]);
    let faults: [(&str, &[Patch]); 8] = [
        ("two-step-unheld", &[UNHELD, BAD_STEP]),
        ("two-wedge-step", &[BAD_WEDGE, (ALONG, &[0])]),
        ("two-wedge-steps-length", &[BAD_WEDGE, (STEPS + 2, &[3])]),
        ("two-wedge-steps-tag", &[BAD_WEDGE, (STEPS, &[0x0b])]),
        ("two-thickness-step", &[(33, &[0]), BAD_STEP]),
        ("two-steps-length-step", &[(STEPS + 2, &[1]), (ALONG, &[0])]),
        ("two-steps-length-unheld", &[UNHELD, (STEPS + 2, &[1])]),
        ("two-steps-tag-step", &[(STEPS, &[0x05]), BAD_STEP]),
    ];
    for (name, patches) in faults {
        list.stepped(name, patches);
    }
    let bad = |patches: &[Patch], length: usize, behind: &[u8]| {
        [&patch(whole(), patches)[..length], behind].concat()
    };
    list.add("two-step-after", bad(&[BAD_STEP], END, &[0x00]));
    list.add("two-step-after-0a", bad(&[(ALONG, &[0])], END, FIELD));
    // The first step is out of its range, but the second is not there.
    list.add("two-step-cut", bad(&[(ALONG, &[0])], ACROSS, &[]));
    list.add("two-unheld-steps-after", bad(&[UNHELD], END, &[0x0a]));
    list.add("two-unheld-0a-alone", bad(&[UNHELD], STEPS + 1, &[]));
    list.add("two-wedge-0a-alone", bad(&[BAD_WEDGE], STEPS + 1, &[]));
}

/// Weights hold a film or not by its steps. In film F's second cell the links within the row give
/// 35 × its weight − 27 × the other, and those between rows 16 × its weight.
fn dominance(list: &mut List) {
    let cases = [
        // −11 and 32.
        ("steps-none-held", [3, 2], None),
        ("steps-4-1-unheld", [3, 2], Some((4, 1))),
        ("steps-1-4-held", [3, 2], Some((1, 4))),
        // −19 and 16.
        ("steps-none-unheld", [2, 1], None),
        ("steps-1-1-unheld", [2, 1], Some((1, 1))),
        ("steps-1-2-held", [2, 1], Some((1, 2))),
        // 3 × −421 + 1264 is 1, and 3 × −432 + 1296 is 0.
        ("steps-3-1-held-by-1", [118, 79], Some((3, 1))),
        ("steps-3-1-unheld-by-1", [121, 81], Some((3, 1))),
        // In the first cell 152 − 27 × 7 is −37, beside 54.
        ("steps-none-held-0", [1, 7], None),
        ("steps-4-1-unheld-0", [1, 7], Some((4, 1))),
        ("steps-4-3-held-0", [1, 7], Some((4, 3))),
    ];
    for (name, weights, steps) in cases {
        let mut film = film_f();
        film.weights = weights.to_vec();
        film.steps = steps.map(|(along, across)| Steps { along, across });
        list.film(name, &film);
    }
    // The least weights less 1 in one cell: that cell is no longer held, and it is the only one.
    // A thick pad in a thin ring has none of 1.
    let thick = made((5, 7), 1_000, 1_000, |r, c| {
        if (1..6).contains(&r) && (1..8).contains(&c) {
            9
        } else {
            1
        }
    });
    for cell in [0, 17] {
        let mut film = stepped(&thick, (1, 4));
        film.weights[cell] -= 1;
        list.film(&format!("steps-unheld-cell-{cell}"), &film);
    }
}

/// The longest files of gauged films, 3,234 bytes, and the largest links: the cube of 256, four times.
fn largest(list: &mut List) {
    let flat = |shape: (usize, usize)| {
        let film = made(shape, HIGHEST, 1_000_000_000, |_, c| {
            if c == shape.1 + 1 {
                1
            } else {
                128
            }
        });
        stepped(&film, (4, 4))
    };
    list.film("steps-4-4-flat-3x3", &flat((3, 3)));
    let mut large = flat((32, 32));
    list.film("steps-4-4-flat-32x32", &large);
    let bytes = write(&large);
    assert_eq!(bytes.len(), file_length(32, 32, true));
    list.add("steps-large-cut-3233", bytes[..3_233].to_vec());
    list.add("steps-large-byte-after", [&bytes[..], &[0x0a]].concat());
    large.steps = Some(Steps {
        along: 4,
        across: 5,
    });
    list.film("steps-large-across-5", &large);
}

/// Films with steps as coefficients; their reports are those of the gauged films.
fn converted(list: &mut List) {
    let mut generator = Generator(0x9b05_688c_2b3e_6c1f);
    list.coefficients("converted-film-f-steps", &convert(&film_f_steps()));
    list.coefficients("converted-unequal-pad", &convert(&unequal_pad()));
    for (rows, columns, steps) in [(1, 32, (4, 1)), (32, 1, (3, 2)), (5, 7, (1, 4))] {
        let film = stepped(&generator.rough((rows, columns), 3, 11, 54_321), steps);
        list.coefficients(
            &format!("converted-steps-{rows}x{columns}"),
            &convert(&film),
        );
    }
    let thick = made((2, 2), HIGHEST, 1_000_000_000, |_, c| {
        if c == 3 {
            127
        } else {
            128
        }
    });
    list.coefficients("converted-steps-2x2", &convert(&stepped(&thick, (4, 4))));
}
