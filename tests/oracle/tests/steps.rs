//! Grid steps (document 02, W2): film F with field 0A worked by hand, the refusals of reader, writer,
//! forming call and converter in their order, and what each new vector is to be answered.

use film_oracle::calls;
use film_oracle::coefficient_film;
use film_oracle::coefficients::{form, form_call, Coefficients};
use film_oracle::film::{file_length, read, read_into, write, write_into, Film, Numbers, Steps};
use film_oracle::line::{estimate, margin};
use film_oracle::report::report;
use film_oracle::run::{run, Answer, Ordering, Outcome};
use film_oracle::samples::{film_f, made, stepped, unequal_pad};
use film_oracle::vectors::all;
use film_oracle::{refuse, Refusal, Whole};
use std::collections::BTreeMap;

const PLAIN: &str = "01 0002 0102 02 0004 00000064 03 0004 0001 0001 \
                     04 000C 01010101 03020101 01010101 05 0004 00000064";

// Where field 0A of film F lies, and its two numbers.
const STEPS: usize = 41;
const ALONG: usize = 44;
const ACROSS: usize = 45;
const END: usize = 46;

fn hex(digits: &str) -> Vec<u8> {
    let digits: String = digits.chars().filter(|c| !c.is_whitespace()).collect();
    (0..digits.len())
        .step_by(2)
        .map(|at| u8::from_str_radix(&digits[at..at + 2], 16).unwrap())
        .collect()
}

/// Film F's file with these bytes behind it.
fn film_f_then(behind: &[u8]) -> Vec<u8> {
    [&hex(PLAIN)[..], behind].concat()
}

fn film_f_with(along: u32, across: u32) -> Film {
    let mut film = film_f();
    film.steps = Some(Steps { along, across });
    film
}

fn pairs() -> impl Iterator<Item = (u32, u32)> {
    (1..=4).flat_map(|along| (1..=4).map(move |across| (along, across)))
}

fn refused_line(number: u8, place: usize) -> Vec<u8> {
    format!("REFUSED {number} {place}\n").into_bytes()
}

/// The reading call in good buffers, whose answer is the plain reader's. A refusal changes nothing, and
/// what is accepted writes back as itself, by the writing call too.
fn checked_read(bytes: &[u8]) -> Result<Film, Refusal> {
    let (mut weights, mut thickness) = ([0xabcd_u16; 1_024], [0xee_u8; 1_156]);
    let told = read_into(bytes, &mut weights, &mut thickness);
    let answer = read(bytes);
    match &answer {
        Ok(film) => {
            let (rows, columns) = (film.rows, film.columns);
            let numbers = (rows, columns, film.ceiling, film.wedge, film.steps);
            assert_eq!(told, Ok(numbers));
            let (cells, count) = (film.weights.len(), film.thickness.len());
            assert_eq!(weights[..cells], film.weights);
            assert_eq!(thickness[..count], film.thickness);
            assert!(weights[cells..].iter().all(|&w| w == 0xabcd));
            assert!(thickness[count..].iter().all(|&h| h == 0xee));
            assert_eq!(write(film), bytes);
            let mut out = vec![7; bytes.len()];
            assert_eq!(write_into(Numbers::from(film), &mut out), Ok(()));
            assert_eq!(out, bytes);
        }
        Err(refusal) => {
            assert_eq!(told, Err(*refusal));
            assert!(weights.iter().all(|&w| w == 0xabcd));
            assert!(thickness.iter().all(|&h| h == 0xee));
        }
    }
    answer
}

/// Absent, 1 1 and unequal steps are different files and different records, each the other's inverse.
#[test]
fn files_of_film_f() {
    assert_eq!(checked_read(&hex(PLAIN)).unwrap().steps, None);
    assert_eq!(write(&film_f()), hex(PLAIN));
    for (along, across) in pairs() {
        let bytes = film_f_then(&[0x0a, 0x00, 0x02, along as u8, across as u8]);
        assert_eq!(bytes.len(), END);
        let film = checked_read(&bytes).unwrap();
        assert_eq!(film, film_f_with(along, across));
        assert_eq!(film.factors(), Steps { along, across });
        assert_eq!(write(&film), bytes);
    }
    let one = Steps {
        along: 1,
        across: 1,
    };
    assert_eq!(film_f().factors(), one);
    assert!(film_f() != film_f_with(1, 1));
    // What the film is stays the same: coefficients and report.
    assert_eq!(form(&film_f()), form(&film_f_with(1, 1)));
    assert_eq!(report(&write(&film_f_with(1, 1))), report(&hex(PLAIN)));
}

#[test]
fn lengths_of_files() {
    assert_eq!(
        (file_length(1, 2, false), file_length(1, 2, true)),
        (41, 46)
    );
    assert_eq!(
        (file_length(5, 7, false), file_length(5, 7, true)),
        (158, 163)
    );
    assert_eq!(
        (file_length(32, 32, false), file_length(32, 32, true)),
        (3_229, 3_234)
    );
    let largest = write(&unequal_pad());
    assert_eq!(largest.len(), 3_234);
    assert!(checked_read(&largest).is_ok());
    // What comes after one byte more decides nothing.
    for filler in [0x00, 0x0a, 0x0b] {
        let mut longer = largest.clone();
        longer.resize(10_000, filler);
        assert_eq!(report(&longer), refused_line(2, 3_234));
        assert_eq!(report(&longer[..3_235]), refused_line(2, 3_234));
    }
}

/// Film F's faces: 125, 27 and 8 along its row, twice 27 and twice 8 to the ring rows. With 2 and 3 the
/// diagonals are 2 × 152 + 3 × 54 and 2 × 35 + 3 × 16; the sources are film F's.
#[test]
fn coefficients_of_film_f() {
    let formed = form(&film_f_with(2, 3));
    assert_eq!(formed.diagonals, [466, 118]);
    assert_eq!(formed.rights, [54, 0]);
    assert_eq!(formed.ups, [0, 0]);
    assert_eq!(formed.sources, [-200, -100]);
    // 412 and 64 are the row sums, 54 the inside links.
    assert_eq!(margin(formed.system(), &[1, 1]), 1);
    for (along, across) in pairs() {
        let formed = form(&film_f_with(along, across));
        let (along, across) = (Whole::from(along), Whole::from(across));
        let diagonals = [152 * along + 54 * across, 35 * along + 16 * across];
        assert_eq!(formed.diagonals, diagonals);
        assert_eq!(formed.rights, [27 * along, 0]);
        assert_eq!(formed.ups, [0, 0]);
        assert_eq!(formed.sources, [-200, -100]);
    }
}

/// Two rows of two: 2 3 below, 1 2 above, a ring of 1. Links to the ring have the factors too.
#[test]
fn coefficients_of_two_rows() {
    let mut film = made((2, 2), 1_000, 10, |r, c| match (r, c) {
        (1, 2) => 3,
        (1, 1) | (2, 2) => 2,
        _ => 1,
    });
    let expected = |diagonals: [Whole; 4], rights: [Whole; 4], ups: [Whole; 4]| Coefficients {
        rows: 2,
        columns: 2,
        diagonals: diagonals.to_vec(),
        rights: rights.to_vec(),
        ups: ups.to_vec(),
        sources: vec![20, -10, 10, 0],
    };
    let equal = expected([206, 378, 70, 206], [125, 0, 27, 0], [27, 125, 0, 0]);
    assert_eq!(form(&film), equal);
    film.steps = Some(Steps {
        along: 2,
        across: 3,
    });
    // 152, 189, 35, 54 along and 54, 189, 35, 152 across.
    let unequal = expected([466, 945, 175, 564], [250, 0, 54, 0], [81, 375, 0, 0]);
    assert_eq!(form(&film), unequal);
    film.steps = Some(Steps {
        along: 4,
        across: 1,
    });
    let unequal = expected([662, 945, 175, 368], [500, 0, 108, 0], [27, 125, 0, 0]);
    assert_eq!(form(&film), unequal);
    assert_eq!(form_call(Numbers::from(&film), &[4; 4]), Ok(unequal));
}

/// A film turned over its diagonal, with its steps exchanged, has the same faces; rights and ups change
/// their parts. The sources do not turn with it.
#[test]
fn turned_films_have_turned_faces() {
    let law = |r: usize, c: usize| (1 + (7 * r + 5 * c + r * c * c) % 11) as u8;
    for (rows, columns) in [(1, 1), (1, 6), (4, 3), (2, 7), (9, 9)] {
        for (along, across) in pairs() {
            let film = stepped(&made((rows, columns), 9, 1, law), (along, across));
            let turned = made((columns, rows), 9, 1, |r, c| law(c, r));
            let turned = form(&stepped(&turned, (across, along)));
            let formed = form(&film);
            for (r, c) in (0..rows).flat_map(|r| (0..columns).map(move |c| (r, c))) {
                let (cell, other) = (r * columns + c, c * rows + r);
                assert_eq!(formed.diagonals[cell], turned.diagonals[other]);
                assert_eq!(formed.rights[cell], turned.ups[other]);
                assert_eq!(formed.ups[cell], turned.rights[other]);
            }
            let equal = form(&made((rows, columns), 9, 1, law));
            assert_eq!(formed.sources, equal.sources);
        }
    }
}

/// All links at the largest: the cube of 256, four times, and four of them in each diagonal.
#[test]
fn largest_links() {
    let film = stepped(&made((2, 2), 9, 0, |_, _| 128), (4, 4));
    let formed = form(&film);
    assert_eq!(formed.diagonals, [268_435_456; 4]);
    assert_eq!(formed.rights, [67_108_864, 0, 67_108_864, 0]);
    assert_eq!(formed.ups, [67_108_864, 67_108_864, 0, 0]);
    let file = coefficient_film::write(&coefficient_film::convert(&film));
    assert!(coefficient_film::read(&file).is_ok());
}

/// Film F with 2 and 3 as a coefficient film: the steps are in the links, and no field has them.
#[test]
fn converted_by_hand() {
    let expected = hex("01 0002 0102 02 0004 00000064 03 0004 0001 0001 \
                        06 0008 000001D2 00000076 07 0008 00000036 00000000 \
                        08 0008 00000000 00000000 \
                        09 0010 FFFFFFFFFFFFFF38 FFFFFFFFFFFFFF9C");
    let film = film_f_with(2, 3);
    let mut out = [5_u8; 71];
    assert_eq!(calls::convert(Numbers::from(&film), &mut out), Ok(()));
    assert_eq!(out.to_vec(), expected);
    assert_eq!(report(&out), report(&write(&film)));
}

/// Wedge 100,000 with 2 and 3: the real solution is 556.92 and 1102.32, and K is 1.
#[test]
fn proposals_on() {
    let mut film = film_f_with(2, 3);
    (film.wedge, film.ceiling) = (100_000, 5_000);
    let formed = form(&film);
    let offer = estimate(formed.system(), &film.weights, &[0, 0], 1);
    assert_eq!(offer, [555, 1_101]);
    let mut field = [0, 0];
    let outcome = run(
        formed.system(),
        film.ceiling,
        &film.weights,
        &mut field,
        4_000_000,
        Ordering::Forward,
        true,
    );
    let expected = Outcome {
        answer: Answer::Done,
        visits: 4,
        raises: 2,
        proposed: 2,
    };
    assert_eq!(outcome, expected);
    assert_eq!(field, [557, 1_103]);
}

#[test]
fn every_cut() {
    let whole = film_f_then(&[0x0a, 0x00, 0x02, 0x02, 0x03]);
    for length in 0..END {
        let told = checked_read(&whole[..length]);
        if length == STEPS {
            assert_eq!(told, Ok(film_f()));
        } else {
            assert_eq!(told, refuse(1, length));
        }
    }
}

/// Every byte behind field 05 and behind field 0A, once and several times.
#[test]
fn every_byte_behind() {
    let whole = film_f_then(&[0x0a, 0x00, 0x02, 0x02, 0x03]);
    for byte in 0..=255_u8 {
        for count in [1, 2, 3, 5, 100] {
            let wanted = match (byte, count) {
                (0x0a, 1 | 2) => refuse(1, STEPS + count),
                // The length is 0A0A.
                (0x0a, _) => refuse(3, STEPS),
                _ => refuse(2, STEPS),
            };
            assert_eq!(checked_read(&film_f_then(&vec![byte; count])), wanted);
            let longer = [&whole[..], &vec![byte; count]].concat();
            assert_eq!(checked_read(&longer), refuse(2, END));
        }
    }
}

/// Every byte of the field set to every other value.
#[test]
fn every_byte_of_the_field_damaged() {
    for at in STEPS..END {
        for value in 0..=255_u8 {
            let mut damaged = film_f_then(&[0x0a, 0x00, 0x02, 0x02, 0x03]);
            if damaged[at] == value {
                continue;
            }
            damaged[at] = value;
            let wanted = match at {
                STEPS => refuse(2, STEPS),
                ALONG | ACROSS if (1..=4).contains(&value) => Ok(()),
                ALONG | ACROSS => refuse(15, at),
                _ => refuse(3, STEPS),
            };
            assert_eq!(checked_read(&damaged).map(|_| ()), wanted, "{at} {value}");
        }
    }
}

/// A fault of a file: its bytes, the refusal that it meets, and how many bytes must be there for it
/// to be met.
struct Fault {
    patch: (usize, Vec<u8>),
    refusal: (u8, usize),
    wants: usize,
}

fn fault(at: usize, patch: &[u8], refusal: (u8, usize), wants: usize) -> Fault {
    Fault {
        patch: (at, patch.to_vec()),
        refusal,
        wants,
    }
}

/// The faults that a film F with steps 1 1 and weights 3 2 can have, in the order of the tests. A
/// required field wants its header before its tag is looked at, field 0A only its tag.
fn faults() -> Vec<Fault> {
    let header = |at: usize| {
        [
            fault(at, &[0x0a], (2, at), at + 3),
            fault(at + 1, &[0x01], (3, at), at + 3),
        ]
    };
    let mut faults = Vec::from(header(0));
    faults.push(fault(3, &[0], (4, 3), 5));
    faults.push(fault(4, &[33], (4, 4), 5));
    faults.extend(header(5));
    faults.push(fault(8, &[0, 0, 0, 0], (5, 8), 12));
    faults.extend(header(12));
    faults.push(fault(15, &[0, 0], (6, 15), 19));
    faults.push(fault(17, &[0, 0], (6, 17), 19));
    faults.extend(header(19));
    faults.push(fault(22, &[0], (7, 22), 34));
    faults.push(fault(33, &[129], (7, 33), 34));
    faults.extend(header(34));
    faults.push(fault(37, &[0x7f], (8, 37), 41));
    faults.push(fault(STEPS, &[0x0b], (2, STEPS), STEPS + 1));
    faults.push(fault(STEPS + 1, &[0x01], (3, STEPS), STEPS + 3));
    faults.push(fault(ALONG, &[0], (15, ALONG), END));
    faults.push(fault(ACROSS, &[5], (15, ACROSS), END));
    // 4 × (35 × 2 − 27 × 3) + 16 × 2 is below 1.
    faults.push(fault(ALONG, &[4], (9, 1), END));
    faults
}

/// Each fault alone, beside every later one, with all later ones, and with the file cut anywhere or
/// lengthened: the first that is tested is named.
#[test]
fn reader_refuses_in_order() {
    let mut whole = film_f_then(&[0x0a, 0x00, 0x02, 0x01, 0x01]);
    whole[15..19].copy_from_slice(&[0, 3, 0, 2]);
    assert!(checked_read(&whole).is_ok());
    // Where two faults want one byte, the first has it.
    let file = |chosen: &[&Fault]| {
        let mut file = whole.clone();
        for fault in chosen.iter().rev() {
            let (at, patch) = &fault.patch;
            file[*at..at + patch.len()].copy_from_slice(patch);
        }
        file
    };
    let faults = faults();
    for (i, first) in faults.iter().enumerate() {
        let (number, place) = first.refusal;
        let later: Vec<&Fault> = faults[i..].iter().collect();
        assert_eq!(checked_read(&file(&later)), refuse(number, place));
        for second in &faults[i..] {
            let both = file(&[first, second]);
            for length in 0..=END {
                let wanted = if length >= first.wants {
                    refuse(number, place)
                } else if length == STEPS {
                    Ok(())
                } else {
                    refuse(1, length)
                };
                let told = checked_read(&both[..length]).map(|_| ());
                assert_eq!(told, wanted, "{number} {place} {length}");
            }
            // 9 comes after bytes that follow, the rest before.
            let longer = [&both[..], &[0x0a]].concat();
            let wanted = match number {
                9 => refuse(2, END),
                _ => refuse(number, place),
            };
            assert_eq!(checked_read(&longer), wanted, "{number} {place}");
        }
    }
}

/// A wrong buffer is 10 at 0 before the file is looked at.
#[test]
fn wrong_buffers() {
    let files = [
        film_f_then(&[0x0a, 0x00, 0x02, 0x02, 0x03]),
        film_f_then(&[0x0a, 0x00, 0x02, 0x00, 0x05]),
        film_f_then(&[0x0a]),
    ];
    for file in files {
        for (weights, thickness) in [(1_023, 1_156), (1_025, 1_156), (1_024, 1_155), (0, 0)] {
            let mut weights = vec![0; weights];
            let mut thickness = vec![0; thickness];
            let told = read_into(&file, &mut weights, &mut thickness);
            assert_eq!(told, refuse(10, 0));
        }
    }
}

/// Writer, forming call and converter: 4, 10, 5, 6, 7, 8, 15, 9, one fault after another mended.
#[test]
fn other_calls_refuse_in_order() {
    let film = film_f_with(0, 5);
    let mut thickness = film.thickness.clone();
    thickness[11] = 0;
    let mut given = Numbers::from(&film);
    given.wedge = 1_000_000_001;
    given.thickness = &thickness;
    given.weights = &[0, 0];
    given.ceiling = 0;
    given.columns = 33;
    let refused = |given: Numbers, number, place| {
        let (mut file, mut converted) = ([5_u8; END], [5_u8; 71]);
        assert_eq!(write_into(given, &mut file), refuse(number, place));
        assert_eq!(form_call(given, &[2; 4]), refuse(number, place));
        let told = calls::convert(given, &mut converted);
        assert_eq!(told, refuse(number, place));
        assert_eq!((file, converted), ([5; END], [5; 71]));
    };
    refused(given, 4, 4);
    given.columns = 2;
    refused(given, 5, 8);
    given.weights = &[0];
    refused(given, 10, 0);
    given.weights = &[0, 0];
    given.ceiling = 100;
    refused(given, 6, 15);
    // Neither these weights nor the steps are good.
    given.weights = &[65_535, 1];
    refused(given, 7, 33);
    given.thickness = &film.thickness;
    refused(given, 8, 37);
    given.wedge = 100;
    refused(given, 15, ALONG);
    for (along, across, place) in [
        (5, 5, ALONG),
        (1, 0, ACROSS),
        (4, 5, ACROSS),
        (256, 1, ALONG),
        (257, 1, ALONG),
        (1, 260, ACROSS),
        (u32::MAX, u32::MAX, ALONG),
        (1, 1 << 31, ACROSS),
    ] {
        given.steps = Some(Steps { along, across });
        refused(given, 15, place);
    }
    given.steps = Some(Steps {
        along: 1,
        across: 4,
    });
    refused(given, 9, 1);
    // 35 × 1 − 27 × 2 + 4 × 16 × 1 is above 0, and without the field 16 is too little.
    given.weights = &[2, 1];
    let mut file = [5_u8; END];
    assert_eq!(write_into(given, &mut file), Ok(()));
    assert_eq!(file[STEPS..], [0x0a, 0x00, 0x02, 0x01, 0x04]);
    given.steps = None;
    assert_eq!(form_call(given, &[2; 4]), refuse(9, 1));
    given.weights = &[1, 1];
    assert!(form_call(given, &[2; 4]).is_ok());
}

/// The offsets of 15 in a larger film, 161 and 162, and of one that is the largest.
#[test]
fn places_of_the_steps() {
    for (shape, place) in [((5, 7), 161), ((32, 32), 3_232), ((1, 1), 39)] {
        let mut film = made(shape, 9, 9, |r, c| (9 + r + c) as u8);
        for (along, across, offset) in [(0, 1, place), (1, 0, place + 1)] {
            film.steps = Some(Steps { along, across });
            assert_eq!(checked_read(&write(&film)), refuse(15, offset));
            let lent = [film.cells(); 4];
            let told = form_call(Numbers::from(&film), &lent);
            assert_eq!(told, refuse(15, offset));
        }
    }
}

/// The writer wants the length of the file that it makes: 46 with the field, 41 without.
#[test]
fn writer_wants_the_exact_length() {
    for (film, length) in [
        (film_f(), 41),
        (film_f_with(1, 1), 46),
        (film_f_with(4, 2), 46),
    ] {
        for lent in [0, 40, 41, 42, 45, 46, 47, 71] {
            let mut out = vec![5_u8; lent];
            let told = write_into(Numbers::from(&film), &mut out);
            if lent == length {
                assert_eq!(told, Ok(()));
                assert_eq!(out, write(&film));
            } else {
                assert_eq!(told, refuse(10, 0));
                assert!(out.iter().all(|&byte| byte == 5));
            }
        }
    }
    // A wrong length comes before bad steps, and a wrong shape before it.
    let film = film_f_with(0, 0);
    let mut given = Numbers::from(&film);
    let mut out = [5_u8; 41];
    assert_eq!(write_into(given, &mut out), refuse(10, 0));
    given.rows = 0;
    assert_eq!(write_into(given, &mut out), refuse(4, 3));
}

/// What the refused vectors from number 265 to 434 are answered, each worked by hand.
const REFUSED: &[(&str, u8, usize)] = &[
    ("steps-0a-alone", 1, 42),
    ("steps-cut-43", 1, 43),
    ("steps-cut-44", 1, 44),
    ("steps-cut-45", 1, 45),
    // 5 × 7: 25 + 70 + 63 bytes stand before the field.
    ("steps-0a-alone-5x7", 1, 159),
    ("steps-cut-last-5x7", 1, 162),
    ("steps-length-0", 3, 41),
    ("steps-length-1", 3, 41),
    ("steps-length-3", 3, 41),
    ("steps-length-512", 3, 41),
    ("steps-length-65535", 3, 41),
    ("steps-length-0-whole", 3, 41),
    ("steps-length-1-whole", 3, 41),
    ("steps-length-3-whole", 3, 41),
    ("steps-length-4-cut", 3, 41),
    ("steps-0-3-refused", 15, 44),
    ("steps-2-0-refused", 15, 45),
    ("steps-0-0-refused", 15, 44),
    ("steps-5-3-refused", 15, 44),
    ("steps-2-5-refused", 15, 45),
    ("steps-5-5-refused", 15, 44),
    ("steps-255-3-refused", 15, 44),
    ("steps-2-255-refused", 15, 45),
    ("steps-255-255-refused", 15, 44),
    ("steps-0-5-refused", 15, 44),
    ("steps-5-0-refused", 15, 44),
    ("steps-along-0-5x7", 15, 161),
    ("steps-across-5-5x7", 15, 162),
    ("steps-along-128-5x7", 15, 161),
    ("steps-twice", 2, 46),
    ("steps-twice-unlike", 2, 46),
    ("steps-first", 2, 0),
    ("steps-after-03", 2, 19),
    ("steps-after-04", 2, 34),
    ("steps-for-05", 2, 34),
    ("steps-for-05-alone", 1, 35),
    ("steps-for-05-cut", 1, 36),
    ("steps-as-05", 3, 34),
    ("steps-after-05-as-05", 2, 41),
    ("steps-none-then-00", 2, 41),
    ("steps-none-then-04", 2, 41),
    ("steps-none-then-05", 2, 41),
    ("steps-none-then-06", 2, 41),
    ("steps-none-then-09", 2, 41),
    ("steps-none-then-0b", 2, 41),
    ("steps-none-then-0c", 2, 41),
    ("steps-none-then-0d", 2, 41),
    ("steps-none-then-ff", 2, 41),
    ("steps-then-00", 2, 46),
    ("steps-then-04", 2, 46),
    ("steps-then-05", 2, 46),
    ("steps-then-06", 2, 46),
    ("steps-then-09", 2, 46),
    ("steps-then-0b", 2, 46),
    ("steps-then-0c", 2, 46),
    ("steps-then-0d", 2, 46),
    ("steps-then-ff", 2, 46),
    ("steps-then-0a", 2, 46),
    ("steps-none-then-field-0b", 2, 41),
    ("steps-then-field-0b", 2, 46),
    ("steps-then-film", 2, 46),
    ("steps-behind-00", 2, 41),
    ("steps-bytes-10000", 2, 46),
    ("two-step-unheld", 15, 45),
    ("two-wedge-step", 8, 37),
    ("two-wedge-steps-length", 8, 37),
    ("two-wedge-steps-tag", 8, 37),
    ("two-thickness-step", 7, 33),
    ("two-steps-length-step", 3, 41),
    ("two-steps-length-unheld", 3, 41),
    ("two-steps-tag-step", 2, 41),
    ("two-step-after", 15, 45),
    ("two-step-after-0a", 15, 44),
    ("two-step-cut", 1, 45),
    ("two-unheld-steps-after", 2, 46),
    ("two-unheld-0a-alone", 1, 42),
    ("two-wedge-0a-alone", 8, 37),
    // Second cell: 35 × weight − 27 × the other along, 16 × weight across.
    ("steps-4-1-unheld", 9, 1),
    ("steps-none-unheld", 9, 1),
    ("steps-1-1-unheld", 9, 1),
    ("steps-3-1-unheld-by-1", 9, 1),
    // First cell: 152 − 27 × 7 along, 54 across.
    ("steps-4-1-unheld-0", 9, 0),
    ("steps-unheld-cell-0", 9, 0),
    ("steps-unheld-cell-17", 9, 17),
    // 32 × 32: 25 + 2,048 + 1,156 bytes stand before the field.
    ("steps-large-cut-3233", 1, 3_233),
    ("steps-large-byte-after", 2, 3_234),
    ("steps-large-across-5", 15, 3_233),
    ("coefficient-0a-after-03", 2, 19),
    ("coefficient-0a-after-06", 2, 30),
    ("coefficient-0a-after-07", 2, 41),
    ("coefficient-0a-after-08", 2, 52),
    ("coefficient-0a-alone", 2, 71),
    ("coefficient-0a-cut", 2, 71),
    ("coefficient-0a-steps-0", 2, 71),
    ("coefficient-0a-twice", 2, 71),
    ("coefficient-0a-for-09", 2, 52),
    ("coefficient-0a-for-09-alone", 1, 53),
    ("coefficient-beyond-0a", 2, 71),
    ("coefficient-unheld-0a", 2, 71),
    ("wider-1x1-above", 14, 0),
    ("wider-right-above", 14, 0),
    ("wider-up-above", 14, 0),
    ("wider-diagonal-above-second", 14, 1),
    ("wider-right-unheld", 9, 0),
    ("wider-right-beyond-unheld", 14, 0),
    // Four equal weights take away all that the middle's diagonal gives.
    ("wider-limits-unheld", 9, 4),
];

/// What some accepted vectors show after their first line, worked by hand.
const SHOWN: &[(&str, &str)] = &[
    ("steps-1-1", "DONE 6 4, 1 1 2 104, 1 2 4 50, PEAK 1 2 4"),
    // Diagonals 466 and 118, link 54.
    ("steps-2-3", "DONE 4 2, 1 1 1 158, 1 2 2 82, PEAK 1 2 2"),
    // 662, 156, 108.
    ("steps-4-1", "DONE 4 2, 1 1 1 246, 1 2 2 104, PEAK 1 2 2"),
    // 368, 99, 27.
    ("steps-1-4", "DONE 4 2, 1 1 1 114, 1 2 2 71, PEAK 1 2 2"),
    // 824, 204, 108.
    ("steps-4-4", "DONE 4 2, 1 1 1 408, 1 2 2 200, PEAK 1 2 2"),
    // 564, 137, 81.
    ("steps-3-2", "DONE 4 2, 1 1 1 202, 1 2 2 93, PEAK 1 2 2"),
    (
        "steps-2-3-wedge-0",
        "DONE 2 0, 1 1 0 0, 1 2 0 0, PEAK 1 2 0",
    ),
    // 430, 1045, 551, 1100, 557, 1103, then nothing.
    (
        "steps-2-3-wedge-100000",
        "DONE 8 6, 1 1 557 0, 1 2 1103 76, PEAK 1 2 1103",
    ),
    (
        "steps-2-3-wedge-down",
        "DONE 2 0, 1 1 0 200000, 1 2 0 100000, PEAK 1 2 0",
    ),
    ("steps-2-3-over", "OVER 2 1, 1 2"),
    ("steps-one-cell-exact", "DONE 2 1, 1 1 10 0, PEAK 1 1 10"),
    (
        "steps-one-cell-above-exact",
        "DONE 2 1, 1 1 11 187, PEAK 1 1 11",
    ),
    (
        "sample-film-f-steps",
        "DONE 4 2, 1 1 1 158, 1 2 2 82, PEAK 1 2 2",
    ),
    (
        "converted-film-f-steps",
        "DONE 4 2, 1 1 1 158, 1 2 2 82, PEAK 1 2 2",
    ),
    // Weights change neither visits nor pressures.
    (
        "steps-none-held",
        "DONE 6 4, 1 1 2 104, 1 2 4 50, PEAK 1 2 4",
    ),
    (
        "steps-1-4-held",
        "DONE 4 2, 1 1 1 114, 1 2 2 71, PEAK 1 2 2",
    ),
    // 2⁵⁰ / 2²⁸.
    (
        "wider-1x1-limit",
        "DONE 2 1, 1 1 4194304 0, PEAK 1 1 4194304",
    ),
];

/// The vectors from number 265 to 434, the last of W3, are answered as the two lists say, and no other one of
/// them is refused.
#[test]
fn new_vectors() {
    let vectors = all();
    assert_eq!(vectors[263].0, "264-coefficient-bytes-40000");
    let mut refused: BTreeMap<&str, (u8, usize)> = REFUSED
        .iter()
        .map(|&(name, number, place)| (name, (number, place)))
        .collect();
    assert_eq!(refused.len(), REFUSED.len());
    let mut shown: BTreeMap<&str, &str> = SHOWN.iter().copied().collect();
    for (name, bytes) in &vectors[264..434] {
        let told = String::from_utf8(report(bytes)).unwrap();
        let lines: Vec<&str> = told.lines().collect();
        match refused.remove(&name[4..]) {
            Some((number, place)) => {
                assert_eq!(lines, [format!("REFUSED {number} {place}")], "{name}");
            }
            None => assert!(lines[0].starts_with("FILM "), "{name}: {told}"),
        }
        if let Some(wanted) = shown.remove(&name[4..]) {
            assert_eq!(lines[1..].join(", "), wanted, "{name}");
        }
    }
    assert!(
        refused.is_empty() && shown.is_empty(),
        "{refused:?} {shown:?}"
    );
}

/// The two vectors that stood just beyond the limits before W2: a diagonal of 134,217,729 passes, and a
/// link of 16,777,217 is within its limit but is not held.
#[test]
fn vectors_beyond_the_former_limits() {
    let vectors = all();
    let told = |name: &str| {
        let (_, bytes) = vectors.iter().find(|(n, _)| &n[4..] == name).unwrap();
        String::from_utf8(report(bytes)).unwrap()
    };
    assert_eq!(
        told("coefficient-diagonal-above"),
        "FILM 1 2 CEILING 100\nDONE 4 2\n1 1 1 134217448\n1 2 3 26\nPEAK 1 2 3\n"
    );
    assert_eq!(told("coefficient-right-above"), "REFUSED 9 0\n");
}

/// The sample has unequal steps, least weights and the largest grid, and equal weights do not hold it.
#[test]
fn unequal_pad_needs_its_weights() {
    let mut film = unequal_pad();
    assert_eq!((film.rows, film.columns), (32, 32));
    assert_eq!(
        film.factors(),
        Steps {
            along: 4,
            across: 1
        }
    );
    assert!(checked_read(&write(&film)).is_ok());
    let told = String::from_utf8(report(&write(&film))).unwrap();
    assert!(told.lines().nth(1).unwrap().starts_with("DONE "), "{told}");
    // The first cell without a ring neighbour is row 2, column 2.
    film.weights = vec![1; 1_024];
    assert_eq!(checked_read(&write(&film)), refuse(9, 33));
}
