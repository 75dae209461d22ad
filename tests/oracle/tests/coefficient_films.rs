//! Coefficient films (document 02, W1): film F as coefficients, the refusals of reader, writer and
//! converter in their order, what damage does to a file, and which reader the report takes.

use film_oracle::calls::{self, Buffers, Problem};
use film_oracle::coefficient_film::{convert, file_length, read, write, CoefficientFilm};
use film_oracle::coefficients::{form, form_call};
use film_oracle::film::{self, Film, Numbers};
use film_oracle::report::{self, report};
use film_oracle::run::{run, Answer, Ordering, Outcome};
use film_oracle::samples::{film_f, made, mesh, meshed, stopped, Faces};
use film_oracle::vectors::all;
use film_oracle::{refuse, Refusal, Whole};

const BYTES: &str = "01 0002 0102 02 0004 00000064 03 0004 0001 0001 \
                     06 0008 000000CE 00000033 07 0008 0000001B 00000000 \
                     08 0008 00000000 00000000 \
                     09 0010 FFFFFFFFFFFFFF38 FFFFFFFFFFFFFF9C";

// Where its fields lie.
const DIAGONALS: usize = 19;
const RIGHTS: usize = 30;
const UPS: usize = 41;
const SOURCES: usize = 52;
const END: usize = 71;

const LARGEST_DIAGONAL: Whole = 268_435_456;
const LARGEST_LINK: Whole = 67_108_864;
const LARGEST_SOURCE: Whole = 1_125_899_906_842_624;

/// Film F's coefficient file, from its digits.
fn bytes() -> Vec<u8> {
    let digits: String = BYTES.chars().filter(|c| !c.is_whitespace()).collect();
    (0..digits.len())
        .step_by(2)
        .map(|at| u8::from_str_radix(&digits[at..at + 2], 16).unwrap())
        .collect()
}

fn patched(patches: &[(usize, Vec<u8>)]) -> Vec<u8> {
    let mut bytes = bytes();
    for (at, patch) in patches {
        bytes[*at..at + patch.len()].copy_from_slice(patch);
    }
    bytes
}

/// Five buffers full of numbers that no film has there, so that every place that is written shows.
#[derive(Clone, Debug, PartialEq)]
struct Noise {
    weights: Vec<u16>,
    diagonals: Vec<u32>,
    rights: Vec<u32>,
    ups: Vec<u32>,
    sources: Vec<i64>,
}

impl Noise {
    fn new(lengths: [usize; 5]) -> Noise {
        let noise = |length: usize, salt: u32| -> Vec<u32> {
            (0..length as u32)
                .map(|at| 0xf000_0000 | (at * 40_503 + salt))
                .collect()
        };
        Noise {
            weights: noise(lengths[0], 1).iter().map(|&n| n as u16).collect(),
            diagonals: noise(lengths[1], 2),
            rights: noise(lengths[2], 3),
            ups: noise(lengths[3], 4),
            sources: noise(lengths[4], 5)
                .iter()
                .map(|&n| i64::MIN + i64::from(n))
                .collect(),
        }
    }

    /// With a film's numbers in the first places.
    fn filled(mut self, film: &CoefficientFilm) -> Noise {
        for cell in 0..film.cells() {
            self.weights[cell] = film.weights[cell];
            self.diagonals[cell] = film.coefficients.diagonals[cell] as u32;
            self.rights[cell] = film.coefficients.rights[cell] as u32;
            self.ups[cell] = film.coefficients.ups[cell] as u32;
            self.sources[cell] = film.coefficients.sources[cell] as i64;
        }
        self
    }

    fn read(&mut self, bytes: &[u8]) -> Result<(usize, usize, u32), Refusal> {
        let buffers = Buffers {
            weights: &mut self.weights,
            diagonals: &mut self.diagonals,
            rights: &mut self.rights,
            ups: &mut self.ups,
            sources: &mut self.sources,
        };
        calls::read_coefficients(bytes, buffers)
    }
}

/// The reading call in good buffers, whose answer is the plain reader's. A refusal changes nothing,
/// and what is accepted writes back as itself. All files here carry their weights.
fn checked_read(bytes: &[u8]) -> Result<CoefficientFilm, Refusal> {
    let mut buffers = Noise::new([1_024; 5]);
    let told = buffers.read(bytes);
    let answer = read(bytes);
    match &answer {
        Ok(film) => {
            assert_eq!(told, Ok((film.rows(), film.columns(), film.ceiling)));
            assert_eq!(buffers, Noise::new([1_024; 5]).filled(film));
            assert_eq!(write(film), bytes);
        }
        Err(refusal) => {
            assert_eq!(told, Err(*refusal));
            assert_eq!(buffers, Noise::new([1_024; 5]));
        }
    }
    answer
}

fn problem(film: &CoefficientFilm) -> Problem<'_> {
    Problem {
        rows: film.rows() as Whole,
        columns: film.columns() as Whole,
        ceiling: film.ceiling.into(),
        diagonals: &film.coefficients.diagonals,
        rights: &film.coefficients.rights,
        ups: &film.coefficients.ups,
        sources: &film.coefficients.sources,
        weights: &film.weights,
    }
}

#[test]
fn film_f_as_coefficients() {
    assert_eq!(bytes().len(), END);
    assert_eq!(file_length(1, 2), END);
    let film = checked_read(&bytes()).unwrap();
    assert_eq!(film.coefficients, form(&film_f()));
    assert_eq!((film.ceiling, &film.weights[..]), (100, &[1, 1][..]));
    let mut out = [5_u8; END];
    let gauged = film_f();
    assert_eq!(calls::convert(Numbers::from(&gauged), &mut out), Ok(()));
    assert_eq!(out.to_vec(), bytes());
    let mut out = [5_u8; END];
    assert_eq!(calls::write_coefficients(problem(&film), &mut out), Ok(()));
    assert_eq!(out.to_vec(), bytes());
    assert_eq!(report(&bytes()), report(&film::write(&film_f())));
}

/// Every accepted gauged film of the vectors: its converted file reads as the formed film, has its
/// report, and each reader refuses the other kind at the tag after field 03.
#[test]
fn converted_films() {
    let mut converted = 0;
    for (name, gauged) in all() {
        let Ok(film) = film::read(&gauged) else {
            continue;
        };
        let mut file = vec![0; file_length(film.rows, film.columns)];
        assert_eq!(calls::convert(Numbers::from(&film), &mut file), Ok(()));
        let read = checked_read(&file).unwrap();
        assert_eq!(read, convert(&film), "{name}");
        assert_eq!(read.coefficients, form(&film), "{name}");
        assert_eq!(report(&file), report(&gauged), "{name}");
        let tag = 15 + 2 * film.cells();
        assert_eq!(film::read(&file), refuse(2, tag), "{name}");
        // Behind an empty field 03 the tag stands earlier.
        let tag = if gauged[13..15] == [0, 0] { 15 } else { tag };
        assert_eq!(checked_read(&gauged), refuse(2, tag), "{name}");
        converted += 1;
    }
    assert!(converted > 80, "{converted}");
}

#[test]
fn reader_fills_only_what_it_uses() {
    let mut buffers = Noise::new([1_024; 5]);
    assert_eq!(buffers.read(&bytes()), Ok((1, 2, 100)));
    let mut wanted = Noise::new([1_024; 5]);
    wanted.weights[..2].copy_from_slice(&[1, 1]);
    wanted.diagonals[..2].copy_from_slice(&[206, 51]);
    wanted.rights[..2].copy_from_slice(&[27, 0]);
    wanted.ups[..2].copy_from_slice(&[0, 0]);
    wanted.sources[..2].copy_from_slice(&[-200, -100]);
    assert_eq!(buffers, wanted);

    let largest = write(&convert(&stopped()));
    assert_eq!(largest.len(), 22_555);
    assert_eq!(buffers.read(&largest), Ok((32, 32, 16_777_216)));
    let unused = Noise::new([1_024; 5]);
    assert!((0..1_024).all(|i| buffers.diagonals[i] != unused.diagonals[i]));
    assert!((0..1_024).all(|i| buffers.sources[i] != unused.sources[i]));
}

/// A wrong buffer is 10 at 0 before the file is looked at.
#[test]
fn wrong_buffers() {
    for which in 0..5 {
        for length in [0, 1, 2, 1_023, 1_025, 2_048] {
            let mut lengths = [1_024; 5];
            lengths[which] = length;
            for file in [bytes(), Vec::new(), film::write(&film_f()), vec![0xff; 80]] {
                let mut buffers = Noise::new(lengths);
                assert_eq!(buffers.read(&file), refuse(10, 0), "{which} {length}");
                assert_eq!(buffers, Noise::new(lengths));
            }
        }
    }
}

/// A fault of a file: its bytes, the refusal that it meets, and how many bytes must be there for it
/// to be met.
struct Fault {
    patch: (usize, Vec<u8>),
    refusal: (u8, usize),
    wants: usize,
}

fn fault(at: usize, patch: &[u8], refusal: (u8, usize), wants: usize) -> Fault {
    Fault {
        patch: (at, patch.to_vec()),
        refusal,
        wants,
    }
}

/// Tag and length of a header, met once its three bytes are there.
fn header_faults(at: usize) -> [Fault; 2] {
    [
        fault(at, &[0x0a], (2, at), at + 3),
        fault(at + 1, &[0x01], (3, at), at + 3),
    ]
}

/// The faults that film F's coefficient file can have, in the order of the tests.
fn faults() -> Vec<Fault> {
    let mut faults = Vec::from(header_faults(0));
    faults.push(fault(3, &[0], (4, 3), 5));
    faults.push(fault(4, &[33], (4, 4), 5));
    faults.extend(header_faults(5));
    faults.push(fault(8, &[0, 0, 0, 0], (5, 8), 12));
    faults.extend(header_faults(12));
    faults.push(fault(15, &[0, 0], (6, 15), 19));
    faults.push(fault(17, &[0, 0], (6, 17), 19));
    for at in [DIAGONALS, RIGHTS, UPS, SOURCES] {
        faults.extend(header_faults(at));
    }
    // The last list's fault is at the lower cell, so it is named first.
    faults.push(fault(SOURCES + 3, &[0x80], (14, 0), END));
    faults.push(fault(DIAGONALS + 7, &[0, 0, 0, 0], (14, 1), END));
    // A link of 67,108,863 keeps its limit, but no weights of 1 hold it.
    faults.push(fault(RIGHTS + 3, &[3, 0xff, 0xff, 0xff], (9, 0), END));
    faults
}

/// Each fault alone, beside every later one, with all later ones, and with the file cut anywhere or
/// lengthened: the first that is tested is named.
#[test]
fn reader_refuses_in_order() {
    let faults = faults();
    let file = |chosen: &[&Fault]| {
        let patches: Vec<_> = chosen.iter().map(|fault| fault.patch.clone()).collect();
        patched(&patches)
    };
    for (i, first) in faults.iter().enumerate() {
        let (number, place) = first.refusal;
        let later: Vec<&Fault> = faults[i..].iter().collect();
        assert_eq!(checked_read(&file(&later)), refuse(number, place));
        for second in &faults[i..] {
            let both = file(&[first, second]);
            assert_eq!(
                checked_read(&both),
                refuse(number, place),
                "{number} {place}"
            );
            for length in 0..END {
                let wanted = if length < first.wants {
                    refuse(1, length)
                } else {
                    refuse(number, place)
                };
                assert_eq!(checked_read(&both[..length]), wanted, "{number} {place}");
            }
            // 14 and 9 come after bytes that follow, the rest before.
            let longer = [&both[..], &[0x0a]].concat();
            let wanted = match number {
                14 | 9 => refuse(2, END),
                _ => refuse(number, place),
            };
            assert_eq!(checked_read(&longer), wanted, "{number} {place}");
        }
    }
}

#[test]
fn writer_refuses_in_order() {
    let film = convert(&film_f());
    let good = problem(&film);
    let mut given = good;
    // All faults at once, then one after another mended.
    given.columns = 33;
    given.ceiling = 0;
    given.weights = &[0, 0];
    given.sources = &[-200, LARGEST_SOURCE + 1];
    given.diagonals = &[206, 0];
    given.rights = &[27, 1];
    let mut out = [5_u8; END - 1];
    assert_eq!(calls::write_coefficients(given, &mut out), refuse(4, 4));
    given.rows = -1;
    assert_eq!(calls::write_coefficients(given, &mut out), refuse(4, 3));
    (given.rows, given.columns) = (1, 2);
    assert_eq!(calls::write_coefficients(given, &mut out), refuse(10, 0));
    assert_eq!(out, [5; END - 1]);
    let mut out = [5_u8; END];
    assert_eq!(calls::write_coefficients(given, &mut out), refuse(5, 8));
    given.ceiling = 16_777_217;
    assert_eq!(calls::write_coefficients(given, &mut out), refuse(5, 8));
    given.ceiling = 16_777_216;
    assert_eq!(calls::write_coefficients(given, &mut out), refuse(6, 15));
    given.weights = &[1, 0];
    assert_eq!(calls::write_coefficients(given, &mut out), refuse(6, 17));
    // Now neither cell is held by its weights, but 14 comes first, and at its own cell.
    given.weights = &[1, 65_535];
    assert_eq!(calls::write_coefficients(given, &mut out), refuse(14, 1));
    given.ups = &[1, 0];
    assert_eq!(calls::write_coefficients(given, &mut out), refuse(14, 0));
    given = Problem {
        weights: &[1, 65_535],
        ..good
    };
    assert_eq!(calls::write_coefficients(given, &mut out), refuse(9, 0));
    given.weights = &[65_535, 1];
    assert_eq!(calls::write_coefficients(given, &mut out), refuse(9, 1));
    assert_eq!(out, [5; END]);
}

/// Each slice of the writer, one too short and one too long, is 10 at 0.
#[test]
fn writer_wants_exact_slices() {
    let film = convert(&film_f());
    let numbers: [Whole; 3] = [1, 0, 0];
    let weights = [1_u16; 3];
    for length in [0, 1, 3] {
        let mut out = [5_u8; END];
        for which in 0..5 {
            let mut given = problem(&film);
            match which {
                0 => given.weights = &weights[..length],
                1 => given.diagonals = &numbers[..length],
                2 => given.rights = &numbers[..length],
                3 => given.ups = &numbers[..length],
                _ => given.sources = &numbers[..length],
            }
            assert_eq!(calls::write_coefficients(given, &mut out), refuse(10, 0));
        }
        assert_eq!(out, [5; END]);
    }
    for length in [0, 1, 41, END - 1, END + 1] {
        let mut out = vec![5_u8; length];
        let told = calls::write_coefficients(problem(&film), &mut out);
        assert_eq!(told, refuse(10, 0));
        assert!(out.iter().all(|&byte| byte == 5));
    }
}

/// The converter is refused where forming is, at the gauged film's offsets.
#[test]
fn converter_refuses_as_forming_does() {
    let film = film_f();
    let good = Numbers::from(&film);
    let mut thickness = film.thickness.clone();
    thickness[11] = 0;
    let mut given = good;
    given.wedge = 1_000_000_001;
    given.thickness = &thickness;
    given.weights = &[0, 0];
    given.ceiling = 0;
    given.columns = 0;
    let mut out = [5_u8; END];
    let mut refused = |given: Numbers, number, place| {
        assert_eq!(calls::convert(given, &mut out), refuse(number, place));
        let formed = form_call(given, &[2; 4]).map(|_| ());
        assert_eq!(formed, refuse(number, place));
        assert_eq!(out, [5; END]);
    };
    refused(given, 4, 4);
    given.columns = 2;
    refused(given, 5, 8);
    given.ceiling = 100;
    refused(given, 6, 15);
    given.weights = &[1, 0];
    refused(given, 6, 17);
    given.weights = &[1];
    refused(given, 10, 0);
    given.weights = &[65_535, 1];
    refused(given, 7, 33);
    given.thickness = &film.thickness;
    refused(given, 8, 37);
    given.wedge = 1_000_000_000;
    refused(given, 9, 1);
    given.thickness = &film.thickness[1..];
    refused(given, 10, 0);
    // The gauged film's own length, and one beside the right one.
    for length in [0, 41, END - 1, END + 1] {
        let mut out = vec![5_u8; length];
        assert_eq!(calls::convert(good, &mut out), refuse(10, 0));
        assert!(out.iter().all(|&byte| byte == 5));
    }
}

/// A number of film F's damaged file, where it lies.
fn number(bytes: &[u8], at: usize, width: usize) -> Whole {
    bytes[at..at + width]
        .iter()
        .fold(0, |high, &low| 256 * high + Whole::from(low))
}

/// What a file of film F's length and headers is to be answered, cell by cell and by hand: two
/// cells have one link.
fn expected(bytes: &[u8]) -> Result<(), Refusal> {
    let ceiling = number(bytes, 8, 4);
    if ceiling == 0 || ceiling > 16_777_216 {
        return refuse(5, 8);
    }
    let weights = [number(bytes, 15, 2), number(bytes, 17, 2)];
    if let Some(cell) = weights.iter().position(|&weight| weight == 0) {
        return refuse(6, 15 + 2 * cell);
    }
    let link = number(bytes, RIGHTS + 3, 4);
    for cell in 0..2 {
        let diagonal = number(bytes, DIAGONALS + 3 + 4 * cell, 4);
        let right = number(bytes, RIGHTS + 3 + 4 * cell, 4);
        let up = number(bytes, UPS + 3 + 4 * cell, 4);
        let source = number(bytes, SOURCES + 3 + 8 * cell, 8);
        let high = if cell == 0 { LARGEST_LINK } else { 0 };
        let links_fit = right <= high && up == 0;
        let lifts = source >= (1 << 64) - LARGEST_SOURCE;
        let source_fits = lifts || source <= LARGEST_SOURCE;
        if !(1..=LARGEST_DIAGONAL).contains(&diagonal) || !links_fit || !source_fits {
            return refuse(14, cell);
        }
    }
    for cell in 0..2 {
        let diagonal = number(bytes, DIAGONALS + 3 + 4 * cell, 4);
        if diagonal * weights[cell] - link * weights[1 - cell] < 1 {
            return refuse(9, cell);
        }
    }
    Ok(())
}

/// Every byte set to every other value: the refusal at its place, or a file that writes back as
/// itself.
#[test]
fn every_byte_damaged() {
    let whole = bytes();
    let headers = [0, 5, 12, DIAGONALS, RIGHTS, UPS, SOURCES];
    let mut accepted = 0;
    for (at, &byte) in whole.iter().enumerate() {
        for value in (0..=255).filter(|&value| value != byte) {
            let damaged = patched(&[(at, vec![value])]);
            let header = headers.iter().copied().find(|h| (*h..h + 3).contains(&at));
            let wanted = match (at, header) {
                (_, Some(header)) if at == header => refuse(2, at),
                // Two weights behind a field 03 that is empty by its header: they are no tag.
                (14, _) if value == 0 => refuse(2, 15),
                (_, Some(header)) => refuse(3, header),
                (3 | 4, _) if value == 0 || value > 32 => refuse(4, at),
                // Another shape in its limits wants another number of weights.
                (3 | 4, _) => refuse(3, 12),
                _ => expected(&damaged),
            };
            let told = checked_read(&damaged).map(|_| ());
            assert_eq!(told, wanted, "byte {at} as {value}");
            accepted += usize::from(told.is_ok());
        }
    }
    assert!(accepted > 1_000, "{accepted}");
}

#[test]
fn every_cut_and_bytes_after() {
    let whole = bytes();
    for length in 0..END {
        assert_eq!(checked_read(&whole[..length]), refuse(1, length));
        assert_eq!(report(&whole[..length]), refused_line(1, length));
    }
    for byte in 0..=255 {
        for count in [1, 2, 3, 100] {
            let longer = [&whole[..], &vec![byte; count][..]].concat();
            assert_eq!(checked_read(&longer), refuse(2, END));
            assert_eq!(report(&longer), refused_line(2, END));
        }
    }
    let twice = [&whole[..], &whole[..]].concat();
    assert_eq!(checked_read(&twice), refuse(2, END));
}

fn refused_line(number: u8, place: usize) -> Vec<u8> {
    format!("REFUSED {number} {place}\n").into_bytes()
}

/// Limits just met and just passed, by list and cell of film F: 14 at the cell, unless the number
/// fits. A fitting one may still break dominance, which is 9 at that cell or at the other.
#[test]
fn limits_of_a_file() {
    let (d, l, s) = (LARGEST_DIAGONAL, LARGEST_LINK, LARGEST_SOURCE);
    let most = Whole::from(u32::MAX);
    let beyond = 14;
    let limits: [(usize, usize, Whole, u8, usize); 26] = [
        (0, 0, 0, beyond, 0),
        (0, 1, 0, beyond, 1),
        (0, 0, d, 0, 0),
        (0, 1, d, 0, 0),
        (0, 0, d + 1, beyond, 0),
        (0, 1, most, beyond, 1),
        (0, 1, 27, 9, 1),
        (0, 1, 28, 0, 0),
        (1, 0, 0, 0, 0),
        (1, 0, l, 9, 0),
        (1, 0, l + 1, beyond, 0),
        (1, 0, most, beyond, 0),
        (1, 1, 1, beyond, 1),
        (1, 1, most, beyond, 1),
        (2, 0, 1, beyond, 0),
        (2, 1, 1, beyond, 1),
        (2, 1, most, beyond, 1),
        (3, 0, s, 0, 0),
        (3, 1, s, 0, 0),
        (3, 0, -s, 0, 0),
        (3, 1, -s, 0, 0),
        (3, 0, s + 1, beyond, 0),
        (3, 1, -s - 1, beyond, 1),
        (3, 0, i64::MIN.into(), beyond, 0),
        (3, 1, i64::MIN.into(), beyond, 1),
        (3, 1, i64::MAX.into(), beyond, 1),
    ];
    for (list, cell, limit, refused, place) in limits {
        let mut film = convert(&film_f());
        list_of(&mut film, list)[cell] = limit;
        let wanted = match refused {
            0 => Ok(()),
            refused => refuse(refused, place),
        };
        let file = write(&film);
        let told = checked_read(&file).map(|_| ());
        assert_eq!(told, wanted, "{list} {cell} {limit}");
        let mut out = [5_u8; END];
        let told = calls::write_coefficients(problem(&film), &mut out);
        assert_eq!(told, wanted, "{list} {cell} {limit}");
        // A cut or a byte more is met before 14 and 9.
        assert_eq!(checked_read(&file[..END - 1]), refuse(1, END - 1));
        let longer = [&file[..], &[0x0d]].concat();
        assert_eq!(checked_read(&longer), refuse(2, END));
    }
}

/// The four lists of a film by number.
fn list_of(film: &mut CoefficientFilm, list: usize) -> &mut Vec<Whole> {
    match list {
        0 => &mut film.coefficients.diagonals,
        1 => &mut film.coefficients.rights,
        2 => &mut film.coefficients.ups,
        _ => &mut film.coefficients.sources,
    }
}

/// 14 is at the lowest cell over all four lists, whichever list has it.
#[test]
fn lowest_cell_over_all_lists() {
    let good = meshed((3, 4), 1_000, |r, c| Faces {
        loss: 4,
        right: r as Whole,
        up: c as Whole,
        source: -9,
    });
    let beyond = [0, LARGEST_LINK + 1, LARGEST_LINK + 1, LARGEST_SOURCE + 1];
    for (one, other) in (0..4).flat_map(|one| (0..4).map(move |other| (one, other))) {
        for (low, high) in (0..12).flat_map(|low| (low..12).map(move |high| (low, high))) {
            let mut film = good.clone();
            list_of(&mut film, one)[low] = beyond[one];
            list_of(&mut film, other)[high] = beyond[other];
            assert_eq!(checked_read(&write(&film)), refuse(14, low));
        }
    }
    // A link of the last column or row is beyond its limits from 1 on.
    for cell in 0..12 {
        for (list, last) in [(1, cell % 4 == 3), (2, cell >= 8)] {
            let mut film = good.clone();
            list_of(&mut film, list)[cell] += 1;
            let told = checked_read(&write(&film));
            match (last, told) {
                (true, told) => assert_eq!(told, refuse(14, cell)),
                (false, told) => assert!(told != refuse(14, cell)),
            }
        }
    }
}

/// The greatest numbers of a file at once, which the weights hold. A diagonal is then just four links: in
/// the middle 4 × 65,535 is above 4 × 60,000, at a side 4 × 60,000 above 65,535 + 2 × 60,000.
#[test]
fn all_at_their_limits() {
    let mut film = meshed((3, 3), 16_777_216, |_, _| Faces {
        loss: LARGEST_LINK,
        right: LARGEST_LINK,
        up: LARGEST_LINK,
        source: -LARGEST_SOURCE,
    });
    film.weights = vec![60_000; 9];
    film.weights[4] = u16::MAX;
    film.coefficients.diagonals = vec![LARGEST_DIAGONAL; 9];
    film.coefficients.sources[4] = LARGEST_SOURCE;
    assert_eq!(checked_read(&write(&film)), Ok(film.clone()));
    film.weights[4] = 60_000;
    assert_eq!(checked_read(&write(&film)), refuse(9, 4));
}

/// The report takes the coefficient reader where the byte after field 03 is 06, and only there.
#[test]
fn which_reader() {
    let (coefficients, gauged) = (bytes(), film::write(&film_f()));
    // The file ends after field 03, or in the header of the next: both readers answer 1.
    for length in [19, 20, 21] {
        for file in [&coefficients[..length], &gauged[..length]] {
            assert_eq!(report(file), refused_line(1, length));
        }
    }
    // A gauged film with tag 06, and the other way round: the length tells.
    for (file, tag) in [(&gauged, 0x06), (&coefficients, 0x04)] {
        let mut file = file.clone();
        file[DIAGONALS] = tag;
        assert_eq!(report(&file), refused_line(3, DIAGONALS));
    }
    for tag in (0..=255).filter(|&tag| tag != 0x04 && tag != 0x06) {
        for file in [&gauged, &coefficients] {
            let mut file = file.clone();
            file[DIAGONALS] = tag;
            assert_eq!(report(&file), refused_line(2, DIAGONALS));
        }
    }
    // One row of six cells: diagonals and thicknesses are 24 bytes both, so the tag alone tells.
    let film = made((1, 6), 1_000, 1_000, |_, c| 9 - c as u8);
    let mut file = film::write(&film);
    file[27] = 0x06;
    assert_eq!(report(&file), refused_line(2, 54));
    let mut file = write(&convert(&film));
    file[27] = 0x04;
    assert_eq!(report(&file), refused_line(7, 30));
}

/// Whatever is wrong up to field 03 both readers refuse alike, so that the choice does not show.
#[test]
fn openings_are_refused_alike() {
    let (coefficients, gauged) = (bytes(), film::write(&film_f()));
    let mut alike = 0;
    for (at, value) in (0..19).flat_map(|at| (0..=255).map(move |value| (at, value))) {
        for file in [&coefficients, &gauged] {
            let mut file = file.clone();
            file[at] = value;
            let (one, other) = (read(&file).err(), film::read(&file).err());
            let passed = [2, 3].map(|number| Some(Refusal { number, place: 19 }));
            if passed.contains(&one) || passed.contains(&other) {
                continue;
            }
            assert_eq!(one, other, "byte {at} as {value}");
            assert_eq!(report::read(&file).err(), one);
            alike += 1;
        }
    }
    assert!(alike > 4_000, "{alike}");
}

/// The longest coefficient file has 22,555 bytes, and one byte more decides.
#[test]
fn first_bytes_decide() {
    let largest = write(&convert(&stopped()));
    let mut bad = largest.clone();
    bad[22_540] = 0x40;
    let starts = [largest, bad, bytes(), write(&mesh()), vec![0x01; 30]];
    for start in starts {
        for (length, filler) in [(22_556, 0x00), (23_000, 0x06), (40_000, 0x09)] {
            let mut file = start.clone();
            file.resize(length, filler);
            let told = report(&file);
            assert_eq!(told, report(&file[..22_556]));
            assert!(told.starts_with(b"REFUSED "));
        }
    }
}

/// A converted film that was read, and the formed film, give the same runs.
#[test]
fn converted_and_formed_run_alike() {
    let mut wedge = 1;
    for shape in [(1, 1), (2, 3), (5, 4), (1, 9), (8, 2)] {
        let film = made(shape, 50_000, wedge, |r, c| (14 + r - c) as u8);
        wedge = wedge * 37 + 11;
        let read = read(&write(&convert(&film))).unwrap();
        for (ordering, proposals) in [
            (Ordering::Forward, false),
            (Ordering::Backward, true),
            (Ordering::RedBlack, false),
            (Ordering::RedBlack, true),
        ] {
            for budget in [0, 1, film.cells() as u32, 100, u32::MAX] {
                let (mut one, mut other) = (vec![0; film.cells()], vec![0; film.cells()]);
                let formed = run_formed(&film, &mut one, budget, ordering, proposals);
                let converted = run(
                    read.system(),
                    read.ceiling,
                    &read.weights,
                    &mut other,
                    budget,
                    ordering,
                    proposals,
                );
                assert_eq!(formed, converted);
                assert_eq!(one, other);
                assert!(budget < u32::MAX || formed.answer == Answer::Done);
            }
        }
    }
}

fn run_formed(
    film: &Film,
    field: &mut [u32],
    budget: u32,
    ordering: Ordering,
    proposals: bool,
) -> Outcome {
    run(
        form(film).system(),
        film.ceiling,
        &film.weights,
        field,
        budget,
        ordering,
        proposals,
    )
}
