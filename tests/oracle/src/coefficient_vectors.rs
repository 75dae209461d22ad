//! The test vectors of coefficient films (document 02, W1), after those of gauged ones, and those that
//! W2 adds: field 0A where it is not permitted, and the limits that are wider since then.

use crate::checks::{LARGEST_DIAGONAL, LARGEST_LINK, LARGEST_SOURCE};
use crate::coefficient_film::{convert, file_length, write, CoefficientFilm};
use crate::film;
use crate::samples::{film_f, journal, meshed, over, stopped, tilted_pad, Faces, HIGHEST};
use crate::vectors::{patch, Generator, List, Patch};
use crate::Whole;

// The limits before W2. The films that were made at them stay as they are.
const FORMER_DIAGONAL: Whole = 134_217_728;
const FORMER_LINK: Whole = 16_777_216;

// Where the fields of film F's coefficient file lie: header, then the numbers of its two cells.
const DIAGONALS: usize = 19;
const RIGHTS: usize = 30;
const UPS: usize = 41;
const SOURCES: usize = 52;
const END: usize = 71;

/// Adds them to the list, in order.
pub(crate) fn add(list: &mut List) {
    converted(list);
    one_cell(list);
    meshes(list);
    climbing(list);
    cuts(list);
    strays(list);
    lengths(list);
    values(list);
    limits(list);
    two_faults(list);
    long_inputs(list);
}

/// Adds those of W2, in order.
pub(crate) fn add_beside_steps(list: &mut List) {
    steps_not_permitted(list);
    wider_limits(list);
    all_at_wider_limits(list);
}

impl List {
    pub(crate) fn coefficients(&mut self, name: &str, film: &CoefficientFilm) {
        self.add(name, write(film));
    }

    /// Film F's coefficient file with some of its bytes replaced.
    fn damaged(&mut self, name: &str, patches: &[Patch]) {
        self.add(name, patch(whole(), patches));
    }
}

/// Film F's coefficient file.
fn whole() -> Vec<u8> {
    let bytes = write(&convert(&film_f()));
    assert_eq!(bytes.len(), END);
    bytes
}

/// Gauged films as coefficients; their reports are those of the gauged films.
fn converted(list: &mut List) {
    list.coefficients("converted-tilted-pad", &convert(&tilted_pad()));
    list.coefficients("converted-journal", &convert(&journal()));
    list.coefficients("converted-over", &convert(&over()));
    list.coefficients("converted-stopped", &convert(&stopped()));
}

/// One cell, where the required pressure is one quotient: sources and diagonals at their limits. The
/// first wants 2⁵⁰ steps.
fn one_cell(list: &mut List) {
    let cell = |diagonal, source| {
        meshed((1, 1), HIGHEST, |_, _| Faces {
            loss: diagonal,
            right: 0,
            up: 0,
            source,
        })
    };
    list.coefficients("coefficient-1x1-lowest", &cell(1, -LARGEST_SOURCE));
    list.coefficients("coefficient-1x1-highest", &cell(1, LARGEST_SOURCE));
    let most = cell(FORMER_DIAGONAL, -LARGEST_SOURCE);
    list.coefficients("coefficient-1x1-limits", &most);
}

/// Films that no gauge gives.
fn meshes(list: &mut List) {
    // A link that is no cube, and a loss in every cell: no ring could take it.
    let row = |r: usize, c: usize| Faces {
        loss: 1_000 + (r * c) as Whole,
        right: 100_003 + 17 * c as Whole,
        up: 99_991 + 13 * r as Whole,
        source: -7_000_001,
    };
    list.coefficients("mesh-1x32", &meshed((1, 32), HIGHEST, row));
    list.coefficients("mesh-32x1", &meshed((32, 1), HIGHEST, row));
    // No link at all: every cell has its own quotient, and the peak stands twice.
    let apart = meshed((3, 4), 100, |r, c| Faces {
        loss: 10,
        right: 0,
        up: 0,
        source: -(((r * c) % 6) as Whole) * 10 - 1,
    });
    list.coefficients("mesh-without-links", &apart);
    // A row and a column of links are 0: four pads that do not know of each other.
    let islands = meshed((5, 6), HIGHEST, |r, c| Faces {
        loss: 3,
        right: if c == 2 { 0 } else { 1_000 },
        up: if r == 3 { 0 } else { 999 },
        source: if (r, c) == (5, 6) { -1_000_000 } else { 1 },
    });
    list.coefficients("mesh-islands", &islands);
    let heavy = meshed((4, 4), HIGHEST, |r, c| Faces {
        loss: 134_000_000,
        right: 5,
        up: 7,
        source: -(1_000_000_000_000 + (r * 4 + c) as Whole),
    });
    list.coefficients("mesh-heavy-diagonals", &heavy);
    let mut generator = Generator(0x6a09_e667_f3bc_c909);
    list.coefficients("mesh-rough-7x5", &rough(&mut generator, (7, 5)));
    list.coefficients("mesh-limits-3x3", &at_limits((3, 3), |cell| cell % 2 == 0));
    list.coefficients("mesh-limits-32x32", &at_limits((32, 32), |_| false));
}

/// Random faces, some of them 0, and sources of both signs.
pub(crate) fn rough(generator: &mut Generator, shape: (usize, usize)) -> CoefficientFilm {
    let mut number = |low, high| Whole::from(generator.within(low, high));
    let numbers: Vec<[Whole; 4]> = (0..shape.0 * shape.1)
        .map(|_| {
            [
                number(50, 5_000),
                number(-2_000, 60_000).max(0),
                number(-2_000, 60_000).max(0),
                number(-9_000_000, 3_000_000),
            ]
        })
        .collect();
    meshed(shape, HIGHEST, |r, c| {
        let [loss, right, up, source] = numbers[(r - 1) * shape.1 + c - 1];
        Faces {
            loss,
            right,
            up,
            source,
        }
    })
}

/// Every number at its former limit. All sources lift, but those of the cells that `drained` names. With
/// all links, pressures rise towards 2⁵⁰ / (2²⁷ − 2²⁶), which is the highest ceiling: none is Over.
fn at_limits(shape: (usize, usize), drained: impl Fn(usize) -> bool) -> CoefficientFilm {
    let mut film = meshed(shape, HIGHEST, |_, _| Faces {
        loss: FORMER_LINK,
        right: FORMER_LINK,
        up: FORMER_LINK,
        source: -LARGEST_SOURCE,
    });
    film.weights = vec![u16::MAX; film.cells()];
    film.coefficients.diagonals = vec![FORMER_DIAGONAL; film.cells()];
    for cell in (0..film.cells()).filter(|&cell| drained(cell)) {
        film.coefficients.sources[cell] = LARGEST_SOURCE;
    }
    film
}

/// Two cells whose link is one less than their diagonals. Where the sources are −s, each visit raises
/// its cell to one more than the other has: the k-th visit raises to k, until k passes s.
fn climbing(list: &mut List) {
    let pair = |ceiling, reach: Whole| {
        meshed((1, 2), ceiling, |_, _| Faces {
            loss: 1,
            right: FORMER_LINK - 1,
            up: 0,
            source: -reach,
        })
    };
    // After s + 1 raises two visits are quiet: Done on the budget's last visit, one too late, or
    // not at all, with a raise on every visit.
    list.coefficients("climb-done-on-last", &pair(HIGHEST, 3_999_997));
    list.coefficients("climb-one-quiet", &pair(HIGHEST, 3_999_998));
    list.coefficients("climb-stopped", &pair(HIGHEST, 3_999_999));
    list.coefficients("climb-over-on-last", &pair(3_999_999, 5_000_000));
}

/// Refusal 1 in fields 06 to 09.
fn cuts(list: &mut List) {
    // The tag 06 alone, and a wrong tag with one byte of a length, are no header.
    list.add("coefficient-06-alone", whole()[..DIAGONALS + 1].to_vec());
    let stray = [&whole()[..UPS], &[0x04, 0x00]].concat();
    list.add("coefficient-cut-43-stray-tag", stray);
    list.add("coefficient-cut-70", whole()[..END - 1].to_vec());
}

/// Refusal 2: fields of the other kind, in another order, and fields that follow.
fn strays(list: &mut List) {
    let bytes = whole();
    let gauged = film::write(&film_f());
    list.damaged("coefficient-tag-07-fourth", &[(DIAGONALS, &[0x07])]);
    let fields = [
        &bytes[..DIAGONALS],
        &bytes[DIAGONALS..RIGHTS],
        &bytes[RIGHTS..UPS],
        &bytes[UPS..SOURCES],
        &bytes[SOURCES..],
    ];
    let ordered = |order: &[usize]| order.iter().flat_map(|&i| fields[i].to_vec()).collect();
    list.add("coefficient-links-swapped", ordered(&[0, 1, 3, 2, 4]));
    list.add("coefficient-06-twice", ordered(&[0, 1, 1, 2, 3, 4]));
    let thicknesses = &gauged[DIAGONALS..];
    list.add("gauged-after-06", [&bytes[..RIGHTS], thicknesses].concat());
    // The fields of both kinds, the gauged ones first: the gauged reader takes it.
    list.add(
        "coefficients-after-05",
        [&gauged, &bytes[DIAGONALS..]].concat(),
    );
    let following: [(&str, &[u8]); 4] = [
        ("coefficient-then-0a", &[0x0a, 0x00, 0x02, 0x01, 0x01]),
        ("coefficient-then-0b", &[0x0b, 0, 8, 0, 0, 0, 0, 0, 0, 0, 0]),
        ("coefficient-then-0c", &[0x0c]),
        ("coefficient-then-0d", &[0x0d, 0x00, 0x00]),
    ];
    for (name, field) in following {
        list.add(name, [&bytes[..], field].concat());
    }
}

/// Refusal 3: a length that is wrong for its tag, also that of the other kind's field.
fn lengths(list: &mut List) {
    for (name, at, length) in [
        ("coefficient-length-06-12", DIAGONALS, 0x000c_u16),
        ("coefficient-length-07-4", RIGHTS, 0x0004),
        ("coefficient-length-09-8", SOURCES, 0x0008),
    ] {
        list.damaged(name, &[(at + 1, &length.to_be_bytes())]);
    }
    list.damaged("coefficient-tag-04-fourth", &[(DIAGONALS, &[0x04])]);
    let gauged = film::write(&film_f());
    list.add("gauged-tag-06-fourth", patch(gauged, &[(19, &[0x06])]));
}

/// Refusals 4, 5, 6 and 9.
fn values(list: &mut List) {
    list.damaged("coefficient-rows-0", &[(3, &[0])]);
    list.damaged("coefficient-ceiling-0", &[(8, &[0; 4])]);
    list.damaged("coefficient-weight-0", &[(17, &[0; 2])]);
    // Weights 1 and 1, and a link that just equals the second diagonal, or is one below it.
    list.damaged("coefficient-unheld-by-1", &[(RIGHTS + 3, &[0, 0, 0, 51])]);
    list.damaged("coefficient-held-by-1", &[(RIGHTS + 3, &[0, 0, 0, 50])]);
}

/// Refusal 14: each list beyond its limits. Two numbers are just beyond the former ones: the diagonal
/// fits since W2, and the link fits but no weights of 1 hold it.
fn limits(list: &mut List) {
    let beyond = |number: Whole| (number as u32).to_be_bytes();
    let (diagonal, link) = (beyond(FORMER_DIAGONAL + 1), beyond(FORMER_LINK + 1));
    let lowest = i64::MIN.to_be_bytes();
    let faults: [(&str, Patch); 5] = [
        ("coefficient-diagonal-0", (DIAGONALS + 7, &[0; 4])),
        ("coefficient-diagonal-above", (DIAGONALS + 3, &diagonal)),
        ("coefficient-right-above", (RIGHTS + 3, &link)),
        ("coefficient-up-4294967295", (UPS + 7, &[0xff; 4])),
        ("coefficient-source-lowest", (SOURCES + 11, &lowest)),
    ];
    for (name, fault) in faults {
        list.damaged(name, &[fault]);
    }
    // In three rows of four: an up link of the last row, and a right link of the second row's end.
    let mut film = meshed((3, 4), 1_000, |_, _| Faces {
        loss: 5,
        right: 6,
        up: 7,
        source: -8,
    });
    film.coefficients.ups[9] = 1;
    list.coefficients("coefficient-up-of-last-row", &film);
    film.coefficients.rights[7] = 6;
    list.coefficients("coefficient-right-of-last-column", &film);
    // The lowest cell over all four lists: the last list's fault comes first.
    film.coefficients.sources[2] = LARGEST_SOURCE + 1;
    film.coefficients.diagonals[3] = 0;
    list.coefficients("coefficient-lowest-cell", &film);
}

/// Two faults at once: the one that is tested first is reported.
fn two_faults(list: &mut List) {
    const ZERO: &[u8] = &[0; 4];
    let faults: [(&str, &[Patch]); 6] = [
        (
            "two-weight-coefficient",
            &[(15, &[0; 2]), (DIAGONALS + 3, ZERO)],
        ),
        (
            "two-ceiling-coefficient",
            &[(8, ZERO), (DIAGONALS + 3, ZERO)],
        ),
        (
            "two-coefficient-tag",
            &[(DIAGONALS + 3, ZERO), (SOURCES, &[0x08])],
        ),
        (
            "two-coefficient-length",
            &[(RIGHTS + 7, &[1; 4]), (SOURCES + 1, &[1])],
        ),
        // Cell 0 is not held, and cell 1 is beyond the limits: 14 comes first although it is later.
        (
            "two-unheld-coefficient",
            &[(17, &[0xff; 2]), (SOURCES + 11, &[0x7f])],
        ),
        // By these shape bytes the fourth tag lies beyond the file: both readers answer 4.
        ("two-rows-tag", &[(3, &[33]), (DIAGONALS, &[0x04])]),
    ];
    for (name, patches) in faults {
        list.damaged(name, patches);
    }
    let bad = patch(whole(), &[(DIAGONALS + 3, ZERO)]);
    list.add("two-coefficient-cut", bad[..END - 1].to_vec());
    list.add("two-coefficient-after", [&bad[..], &[0x09]].concat());
    let unheld = patch(whole(), &[(15, &[0xff; 2])]);
    list.add("two-unheld-after", [&unheld[..], &[0x00]].concat());
    let long = patch(whole(), &[(SOURCES + 2, &[0x20])]);
    list.add("two-length-cut-09", long[..SOURCES + 4].to_vec());
}

/// Inputs beyond the longest coefficient file: their first 22,556 bytes decide.
fn long_inputs(list: &mut List) {
    let mut generator = Generator(0xbb67_ae85_84ca_a73b);
    let mut lengthened = |mut bytes: Vec<u8>, length: usize| {
        bytes.resize_with(length, || generator.next() as u8);
        bytes
    };
    let mut largest = at_limits((32, 32), |cell| cell % 3 == 0);
    let bytes = write(&largest);
    assert_eq!(bytes.len(), file_length(32, 32));
    list.add("coefficient-large-cut-22554", bytes[..22_554].to_vec());
    list.add("coefficient-bytes-23000", lengthened(bytes, 23_000));
    // The last cell's source is beyond its limit, but what follows is met first.
    largest.coefficients.sources[1_023] = LARGEST_SOURCE + 1;
    let bytes = write(&largest);
    list.add("coefficient-bytes-40000", lengthened(bytes, 40_000));
}

/// Field 0A in a coefficient film is stray wherever it stands: behind field 09 by its tag alone, and
/// before that where a header is there.
fn steps_not_permitted(list: &mut List) {
    const STEPS: &[u8] = &[0x0a, 0x00, 0x02, 0x01, 0x01];
    let bytes = whole();
    let put = |at: usize, field: &[u8]| [&bytes[..at], field, &bytes[at..]].concat();
    for (name, at) in [
        ("coefficient-0a-after-03", DIAGONALS),
        ("coefficient-0a-after-06", RIGHTS),
        ("coefficient-0a-after-07", UPS),
        ("coefficient-0a-after-08", SOURCES),
    ] {
        list.add(name, put(at, STEPS));
    }
    list.add("coefficient-0a-alone", put(END, &[0x0a]));
    list.add("coefficient-0a-cut", put(END, &STEPS[..4]));
    list.add("coefficient-0a-steps-0", put(END, &[0x0a, 0, 2, 0, 0]));
    list.add("coefficient-0a-twice", put(END, &[STEPS, STEPS].concat()));
    let without_sources = &bytes[..SOURCES];
    list.add("coefficient-0a-for-09", [without_sources, STEPS].concat());
    let alone = [without_sources, &STEPS[..1]].concat();
    list.add("coefficient-0a-for-09-alone", alone);
    // What follows is met before the limits and before dominance.
    for (name, fault) in [
        ("coefficient-beyond-0a", (DIAGONALS + 3, &[0; 4][..])),
        ("coefficient-unheld-0a", (15, &[0xff; 2][..])),
    ] {
        list.add(name, [&patch(whole(), &[fault])[..], STEPS].concat());
    }
}

/// Diagonals and links at the limits of W2, and one more.
fn wider_limits(list: &mut List) {
    let cell = |diagonal| {
        meshed((1, 1), HIGHEST, |_, _| Faces {
            loss: diagonal,
            right: 0,
            up: 0,
            source: -LARGEST_SOURCE,
        })
    };
    list.coefficients("wider-1x1-limit", &cell(LARGEST_DIAGONAL));
    list.coefficients("wider-1x1-above", &cell(LARGEST_DIAGONAL + 1));
    // Two cells, beside each other or one above the other, with a loss that makes both diagonals largest.
    let pair = |shape, link| {
        meshed(shape, HIGHEST, |_, _| Faces {
            loss: LARGEST_DIAGONAL - link,
            right: link,
            up: link,
            source: -1_000_000_000_000,
        })
    };
    for (name, shape) in [("right", (1, 2)), ("up", (2, 1))] {
        let named = |what: &str| format!("wider-{name}-{what}");
        list.coefficients(&named("limit"), &pair(shape, LARGEST_LINK));
        list.coefficients(&named("above"), &pair(shape, LARGEST_LINK + 1));
        list.coefficients(&named("above-former"), &pair(shape, FORMER_LINK + 1));
    }
    let mut film = pair((1, 2), LARGEST_LINK);
    film.coefficients.diagonals[1] += 1;
    list.coefficients("wider-diagonal-above-second", &film);
    // Beside film F's diagonals the largest link keeps its limit, but no weights of 1 hold it.
    let link = (LARGEST_LINK as u32).to_be_bytes();
    list.damaged("wider-right-unheld", &[(RIGHTS + 3, &link)]);
    let beyond = (LARGEST_LINK as u32 + 1).to_be_bytes();
    list.damaged("wider-right-beyond-unheld", &[(RIGHTS + 3, &beyond)]);
}

/// All links and diagonals at the limits of W2: a diagonal is then the sum of four links, and only the
/// rim loses. Equal weights hold no inner cell; the least ones do.
fn all_at_wider_limits(list: &mut List) {
    let film = at_wider_limits;
    list.coefficients("wider-limits-8x8", &film((8, 8), -LARGEST_SOURCE / 64));
    list.coefficients("wider-limits-1x32", &film((1, 32), -LARGEST_SOURCE / 2));
    list.coefficients("wider-limits-over", &film((32, 32), -LARGEST_SOURCE));
    let mut drained = film((3, 3), -LARGEST_SOURCE);
    for cell in [1, 3, 5, 7] {
        drained.coefficients.sources[cell] = LARGEST_SOURCE;
    }
    list.coefficients("wider-limits-3x3", &drained);
    let mut equal = film((3, 3), -1);
    equal.weights = vec![u16::MAX; 9];
    list.coefficients("wider-limits-unheld", &equal);
}

/// One of them.
pub(crate) fn at_wider_limits(shape: (usize, usize), source: Whole) -> CoefficientFilm {
    meshed(shape, HIGHEST, |r, c| {
        let rim = [r == 1, r == shape.0, c == 1, c == shape.1];
        Faces {
            loss: LARGEST_LINK * rim.iter().filter(|&&out| out).count() as Whole,
            right: LARGEST_LINK,
            up: LARGEST_LINK,
            source,
        }
    })
}
