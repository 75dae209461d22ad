//! The test vectors of films without weights (document 02, W5), after those of W3. A report shows no
//! weight: what they tell is which films have some, where the other fields then lie, and in which order the
//! tests come.

use crate::coefficient_film::{self, convert, CoefficientFilm};
use crate::coefficient_vectors::{at_wider_limits, rough};
use crate::film::{write, Film, Steps};
use crate::samples::{
    film_f, film_f_steps, made, no_weights, stepped, stopped_thickness, thick_middle, unweighted,
    unweighted_mesh, weight_samples, Faces, HIGHEST,
};
use crate::vectors::{patch, slow_pad, Generator, List, Patch};
use crate::Whole;

// Where the fields of film F's file lie where it has no weights: those behind field 03 are 4 bytes earlier.
const LENGTH_OF_WEIGHTS: usize = 13;
const THICKNESSES: usize = 15;
const WEDGE: usize = 30;
const END: usize = 37;

// The same of film F's coefficient file.
const DIAGONALS: usize = 15;
const RIGHTS: usize = 26;
const SOURCES: usize = 48;
const COEFFICIENTS_END: usize = 67;

/// Adds them to the list, in order.
pub(crate) fn add(list: &mut List) {
    around_film_f(list);
    pads(list);
    coefficient_films(list);
    greatest_weights(list);
    thick_cells(list);
    last_visits(list);
    budget_used(list);
    lengths(list);
    cuts(list);
    offsets(list);
    coefficient_offsets(list);
    two_faults(list);
    for (name, bytes) in weight_samples() {
        list.add(&format!("sample-{name}"), bytes);
    }
}

/// The same film with its weights to be found.
fn without(mut film: Film) -> Film {
    film.weights.clear();
    film
}

fn mesh_without(mut film: CoefficientFilm) -> CoefficientFilm {
    film.weights.clear();
    film
}

/// Film F's file with an empty field 03.
fn gauged() -> Vec<u8> {
    let bytes = write(&without(film_f()));
    assert_eq!(bytes.len(), END);
    bytes
}

/// Film F's coefficient file with an empty field 03.
fn coefficients() -> Vec<u8> {
    let bytes = coefficient_film::write(&mesh_without(convert(&film_f())));
    assert_eq!(bytes.len(), COEFFICIENTS_END);
    bytes
}

/// Film F by either kind of file; and which reader the report takes. The tag after field 03 is at 19 where
/// film F has its weights and at 15 where it has none: a 06 at the other of these places is no tag.
fn around_film_f(list: &mut List) {
    list.add("unweighted-film-f", gauged());
    list.film("unweighted-film-f-steps", &without(film_f_steps()));
    list.add("unweighted-film-f-coefficients", coefficients());
    list.add("unweighted-06-at-19", patch(gauged(), &[(19, &[6])]));
    let weights: Patch = (15, &[6, 0, 6, 0]);
    list.add("weights-1536", patch(write(&film_f()), &[weights]));
}

/// A pad of 9 in a ring of 1: its weights are far from equal.
fn thick_pad(ceiling: u32, wedge: i32) -> Film {
    made((5, 7), ceiling, wedge, |r, c| {
        if (1..6).contains(&r) && (1..8).contains(&c) {
            9
        } else {
            1
        }
    })
}

fn pads(list: &mut List) {
    // Its report is that of the file with the found weights in place.
    let thick = thick_pad(HIGHEST, 100_000);
    list.film("unweighted-thick-5x7", &without(thick.clone()));
    list.film("weighted-thick-5x7", &thick);
    // Neither the film's ceiling nor its sources are those of the search.
    list.film("unweighted-ceiling-1-5x7", &without(thick_pad(1, 0)));
    let mut generator = Generator(0x1f83_d9ab_fb41_bd6b);
    let large = generator.rough((32, 32), 20, 40, 30_000_000);
    list.film("unweighted-rough-32x32", &without(large));
    let steps = stepped(&generator.rough((16, 16), 6, 12, 250_000), (4, 1));
    list.film("unweighted-steps-4-1-16x16", &without(steps));
    // The run has a budget of its own, which it uses up.
    let slow = slow_pad((4, 5), 70, 2).film(100_000_000);
    list.film("unweighted-stopped-4x5", &without(slow));
}

fn coefficient_films(list: &mut List) {
    let mut generator = Generator(0x5be0_cd19_137e_2179);
    let film = mesh_without(rough(&mut generator, (7, 5)));
    list.coefficients("unweighted-mesh-7x5", &film);
    // Products with weights pass 32 bits.
    let film = mesh_without(at_wider_limits((8, 8), -1_000_000_000));
    list.coefficients("unweighted-limits-8x8", &film);
    // One cell's diagonal is less than its links.
    let mut film = unweighted_mesh((3, 4), 100, |_, _| Faces {
        loss: 5,
        right: 60,
        up: 70,
        source: -1,
    });
    film.coefficients.diagonals[6] = 100;
    list.coefficients("unweighted-none-3x4", &film);
}

/// Two neighbours of a row or a column, the first at index `at`, among cells that have no links. The two
/// need no pressure, so that the reported run is short.
fn pair(shape: (usize, usize), at: usize, diagonals: [Whole; 2], link: Whole) -> CoefficientFilm {
    let mut film = unweighted_mesh(shape, 100, |_, _| Faces {
        loss: 10,
        right: 0,
        up: 0,
        source: -70,
    });
    let coefficients = &mut film.coefficients;
    coefficients.diagonals[at..at + 2].copy_from_slice(&diagonals);
    coefficients.sources[at..at + 2].fill(0);
    let links = match shape.1 {
        1 => &mut coefficients.ups,
        _ => &mut coefficients.rights,
    };
    links[at] = link;
    film
}

/// Of two cells with link L and diagonals L and L + 1 the first wants one more than the second has, and
/// the second as much as the first, so that both rise by 1 a round. They end with L + 2 and L + 1, where the
/// second row sum is (L + 1)² − L × (L + 2) = 1.
fn greatest_weights(list: &mut List) {
    let first = |link: Whole| pair((1, 2), 0, [link, link + 1], link);
    let last = |link: Whole| pair((2, 1), 0, [link + 1, link], link);
    list.coefficients("unweighted-65535-first", &first(65_533));
    list.coefficients("unweighted-65536-first", &first(65_534));
    list.coefficients("unweighted-65536-last", &last(65_534));
}

/// A thick cell inside thin ones: 100 is the greatest thickness that has weights. Unequal steps let 101
/// have some, equal ones do not.
fn thick_cells(list: &mut List) {
    list.film("unweighted-thick-100", &thick_middle(100));
    let mut film = no_weights();
    for (along, across) in [(4, 1), (2, 2)] {
        film.steps = Some(Steps { along, across });
        list.film(
            &format!("unweighted-thick-101-steps-{along}-{across}"),
            &film,
        );
    }
}

/// Searches that end on the budget's last visit, or one visit later. In 7 × 9 cells that visit is the
/// fourth of round 63,493: 63 × 63,492 + 4.
fn last_visits(list: &mut List) {
    // As above: the last raise is the first cell's in round L + 2, and then 63 visits are quiet.
    let done = |at: usize| pair((7, 9), at, [63_490, 63_491], 63_490);
    list.coefficients("unweighted-done-on-last", &done(3));
    list.coefficients("unweighted-done-too-late", &done(4));
    // The first diagonal is less than the link by 2: once the second cell has half the link, 61,450, the
    // first wants two more than that one has, and so it wants 65,536 in round 61,450 + 2,043.
    let over = |at: usize| pair((7, 9), at, [122_899, 122_902], 122_901);
    list.coefficients("unweighted-over-on-last", &over(3));
    list.coefficients("unweighted-over-too-late", &over(4));
}

/// Refusal 17: weights that climb for longer than the budget lasts. It ends within a round of 1,024 cells,
/// and with a round of 800.
fn budget_used(list: &mut List) {
    let thick = unweighted((32, 32), HIGHEST, 100_000_000, stopped_thickness);
    list.film("unweighted-long-32x32", &thick);
    // Nothing is lost at the rim, so that no weights hold it, however great.
    let closed = unweighted_mesh((25, 32), HIGHEST, |_, _| Faces {
        loss: 0,
        right: 1_000,
        up: 999,
        source: -1,
    });
    list.coefficients("unweighted-closed-25x32", &closed);
}

/// Refusal 3: lengths that are neither 0 nor that of film F's two weights, one of them with a low byte of 0.
/// Behind an empty field the weights that are still there are no tag.
fn lengths(list: &mut List) {
    for length in [1_u16, 3, 6, 0x0400, 0] {
        let bytes = length.to_be_bytes();
        let file = patch(write(&film_f()), &[(LENGTH_OF_WEIGHTS, &bytes)]);
        list.add(&format!("length-03-{length}"), file);
    }
}

/// Refusal 1: in the header of field 03, just behind it, and later.
fn cuts(list: &mut List) {
    for length in [13, 15, 29, 36] {
        list.add(
            &format!("unweighted-cut-{length}"),
            gauged()[..length].to_vec(),
        );
    }
}

/// Refusals 2, 3, 7, 8 and 15 behind an empty field 03.
fn offsets(list: &mut List) {
    let faults: [(&str, Patch); 4] = [
        ("unweighted-tag-05-fourth", (THICKNESSES, &[0x05])),
        ("unweighted-length-04-16", (THICKNESSES + 2, &[16])),
        ("unweighted-thickness-0", (THICKNESSES + 8, &[0])),
        ("unweighted-wedge-high", (WEDGE + 3, &[0x7f])),
    ];
    for (name, fault) in faults {
        list.add(name, patch(gauged(), &[fault]));
    }
    let behind: [(&str, &[u8]); 3] = [
        ("unweighted-then-00", &[0x00]),
        ("unweighted-0a-alone", &[0x0a]),
        ("unweighted-steps-2-5", &[0x0a, 0x00, 0x02, 0x02, 0x05]),
    ];
    for (name, bytes) in behind {
        list.add(name, [&gauged()[..], bytes].concat());
    }
}

/// Refusals 1, 2 and 3 of the coefficient reader, the last for thicknesses under the tag of diagonals.
fn coefficient_offsets(list: &mut List) {
    let bytes = coefficients();
    list.add("unweighted-06-alone", bytes[..DIAGONALS + 1].to_vec());
    let stray = patch(bytes, &[(RIGHTS, &[0x08])]);
    list.add("unweighted-tag-08-for-07", stray);
    let thicknesses = patch(gauged(), &[(THICKNESSES, &[0x06])]);
    list.add("unweighted-gauged-tag-06", thicknesses);
}

/// A film that has no weights, and another fault: the search comes last.
fn two_faults(list: &mut List) {
    // Film F with a link of 20,000.
    const NONE: Patch = (RIGHTS + 3, &[0, 0, 0x4e, 0x20]);
    let bad = |patches: &[Patch]| patch(coefficients(), patches);
    list.add("unweighted-none-1x2", bad(&[NONE]));
    let beyond: Patch = (SOURCES + 11, &[0x7f]);
    list.add("two-limits-none", bad(&[NONE, beyond]));
    list.add("two-after-none-0a", [&bad(&[NONE])[..], &[0x0a]].concat());
    let thick = write(&no_weights());
    list.add("two-after-none", [&thick[..], &[0x00]].concat());
}
