//! Weights found by the library: files whose field 03 is empty, of both kinds, and refusals 16 and 17.

use film::raw::{self, Gauge, Problem};
use film::{
    report, AnyFilm, CoefficientFilm, Coefficients, Field, Film, Head, Order, Outcome, Refusal,
    Steps,
};

/// Film F's file without its weights.
const FILE: [u8; 37] = [
    0x01, 0, 2, 1, 2, // rows and columns
    0x02, 0, 4, 0, 0, 0, 100, // ceiling
    0x03, 0, 0, // no weights
    0x04, 0, 12, 1, 1, 1, 1, 3, 2, 1, 1, 1, 1, 1, 1, // thicknesses, by rows
    0x05, 0, 4, 0, 0, 0, 100, // wedge
];

/// Film F as a coefficient film's file, without its weights.
const COEFFICIENTS: [u8; 67] = [
    0x01, 0, 2, 1, 2, // rows and columns
    0x02, 0, 4, 0, 0, 0, 100, // ceiling
    0x03, 0, 0, // no weights
    0x06, 0, 8, 0, 0, 0, 206, 0, 0, 0, 51, // diagonals
    0x07, 0, 8, 0, 0, 0, 27, 0, 0, 0, 0, // right links
    0x08, 0, 8, 0, 0, 0, 0, 0, 0, 0, 0, // up links
    0x09, 0, 16, // sources, -200 and -100
    255, 255, 255, 255, 255, 255, 255, 56, 255, 255, 255, 255, 255, 255, 255, 156,
];

const HEAD: Head = Head {
    rows: 1,
    columns: 2,
    ceiling: 100,
};
const THICKNESSES: [u8; 12] = [1, 1, 1, 1, 3, 2, 1, 1, 1, 1, 1, 1];

/// Samples: a rough pad of 32 × 32 cells, a thick cell inside thin ones, neither of them with weights;
/// and a thick pad inside thin courses, with weights that the library does not find.
const ROUGH_PAD: &[u8] = include_bytes!("../../films/rough-pad.film");
const NO_WEIGHTS: &[u8] = include_bytes!("../../films/no-weights.film");
const STOPPED: &[u8] = include_bytes!("../../films/stopped.film");

fn refused<T>(number: u32, place: usize) -> Result<T, Refusal> {
    Err(Refusal { number, place })
}

/// A file with weights in place: what stands before field 03 and behind it stays.
fn with_weights(file: &[u8], weights: &[u16]) -> Vec<u8> {
    let body: Vec<u8> = weights
        .iter()
        .flat_map(|weight| weight.to_be_bytes())
        .collect();
    let length = (body.len() as u16).to_be_bytes();
    [&file[..13], &length, &body, &file[15..]].concat()
}

/// A file with its weights taken out.
fn without_weights(file: &[u8]) -> Vec<u8> {
    let length = usize::from(u16::from_be_bytes([file[13], file[14]]));
    [&file[..13], &[0, 0], &file[15 + length..]].concat()
}

/// A file with one byte replaced.
fn damaged(file: &[u8], at: usize, byte: u8) -> Vec<u8> {
    let mut file = file.to_vec();
    file[at] = byte;
    file
}

/// The least whole weights of a film: each is raised from 0 to what its cell needs, round and round
/// until none rises. By falling index, since the order does not count.
fn least_weights(film: &CoefficientFilm) -> Vec<u16> {
    let mut weights = vec![0; film.cells()];
    let mut rising = true;
    while rising {
        rising = false;
        for cell in (0..weights.len()).rev() {
            let needed = needed_weight(film, &weights, cell);
            rising |= needed > weights[cell];
            weights[cell] = needed;
        }
    }
    weights
}

/// The least weight with diagonal × weight − the sum of link × neighbour's weight at least 1. A link
/// is kept by the lower of its two cells; those that lead out of the grid are 0.
fn needed_weight(film: &CoefficientFilm, weights: &[u16], cell: usize) -> u16 {
    let mut pull = 0;
    for (links, step) in [(film.rights(), 1), (film.ups(), film.columns() as usize)] {
        if let Some(&weight) = weights.get(cell + step) {
            pull += u64::from(links[cell]) * u64::from(weight);
        }
        if let Some(before) = cell.checked_sub(step) {
            pull += u64::from(links[before]) * u64::from(weights[before]);
        }
    }
    let needed = (1 + pull).div_ceil(film.diagonals()[cell].into());
    u16::try_from(needed).expect("a weight of the film file")
}

#[test]
fn film_f() -> Result<(), Refusal> {
    let film = Film::read(&FILE)?;
    assert_eq!(film.weights(), [1, 1]);
    assert_eq!(
        film,
        Film::from_parts(HEAD, vec![1, 1], THICKNESSES.to_vec(), 100, None)?
    );
    assert_eq!(film.write()?, with_weights(&FILE, &[1, 1]));
    assert_eq!(Film::read(&film.write()?)?, film);
    assert_eq!(AnyFilm::read(&FILE)?, AnyFilm::Gauged(film));
    Ok(())
}

#[test]
fn film_f_as_coefficients() -> Result<(), Refusal> {
    let film = CoefficientFilm::read(&COEFFICIENTS)?;
    assert_eq!(film.weights(), [1, 1]);
    assert_eq!(film.write()?, with_weights(&COEFFICIENTS, &[1, 1]));
    assert_eq!(CoefficientFilm::read(&film.write()?)?, film);
    assert_eq!(AnyFilm::read(&COEFFICIENTS)?, AnyFilm::Coefficients(film));
    assert_eq!(report(&COEFFICIENTS)?, report(&FILE)?);
    Ok(())
}

/// The file is written back with its weights in place, which are the least; the film that it then has
/// is the same, and so is the report.
#[test]
fn rough_pad() -> Result<(), Refusal> {
    let film = Film::read(ROUGH_PAD)?;
    assert_eq!(film.weights(), least_weights(film.as_coefficients()));
    assert_eq!(film.weights().iter().max(), Some(&68));
    let file = film.write()?;
    assert_eq!((ROUGH_PAD.len(), file.len()), (1_181, 1_181 + 2 * 1_024));
    assert_eq!(file, with_weights(ROUGH_PAD, film.weights()));
    assert_eq!(without_weights(&file), ROUGH_PAD);
    assert_eq!(Film::read(&file)?, film);
    assert_eq!(report(ROUGH_PAD)?, report(&file)?);
    let mut field = Field::zero(&film);
    let outcome = film.run(&mut field, 4_000_000, Order::Forward, false)?;
    assert!(matches!(outcome, Outcome::Done(_)));
    Ok(())
}

/// The same pad as a coefficient film, whose weights are found too.
#[test]
fn rough_pad_converted() -> Result<(), Refusal> {
    let gauged = Film::read(ROUGH_PAD)?;
    let file = without_weights(&gauged.convert()?);
    let film = CoefficientFilm::read(&file)?;
    assert_eq!(&film, gauged.as_coefficients());
    assert_eq!(film.write()?, with_weights(&file, film.weights()));
    assert_eq!(film.write()?.len(), file.len() + 2 * 1_024);
    assert_eq!(CoefficientFilm::read(&film.write()?)?, film);
    assert_eq!(report(&file)?, report(ROUGH_PAD)?);
    Ok(())
}

/// Steps count in the links, and so in the weights; wedge and ceiling do not.
#[test]
fn steps() -> Result<(), Refusal> {
    let steps = [ROUGH_PAD, &[0x0a, 0, 2, 4, 1]].concat();
    let film = Film::read(&steps)?;
    assert_eq!(
        film.steps(),
        Some(Steps {
            along: 4,
            across: 1
        })
    );
    assert_eq!(film.weights(), least_weights(film.as_coefficients()));
    assert_ne!(film.weights(), Film::read(ROUGH_PAD)?.weights());
    assert_eq!(film.write()?, with_weights(&steps, film.weights()));
    let mut other = ROUGH_PAD.to_vec();
    other[8..12].copy_from_slice(&[0, 0, 0, 1]);
    other[1_177..].copy_from_slice(&[0, 0, 0, 0]);
    let other = Film::read(&other)?;
    assert_eq!((other.ceiling(), other.wedge()), (1, 0));
    assert_eq!(other.weights(), Film::read(ROUGH_PAD)?.weights());
    Ok(())
}

/// The tag behind field 03 tells the kind: at 15 where that field is empty, else behind the weights.
#[test]
fn kinds() -> Result<(), Refusal> {
    assert_eq!(Film::read(&COEFFICIENTS), refused(2, 15));
    assert_eq!(CoefficientFilm::read(&FILE), refused(2, 15));
    // A thickness of 6 where the tag would stand behind two weights.
    let thick = damaged(&FILE, 19, 6);
    assert!(matches!(AnyFilm::read(&thick)?, AnyFilm::Gauged(_)));
    // A weight that begins with 6 where the tag would stand without weights.
    let weighted = with_weights(&FILE, &[0x0600, 0x0600]);
    assert!(matches!(AnyFilm::read(&weighted)?, AnyFilm::Gauged(_)));
    Ok(())
}

/// Made from numbers without weights: the film of the file without them.
#[test]
fn parts() -> Result<(), Refusal> {
    let film = Film::from_thicknesses(HEAD, &THICKNESSES, 100, None)?;
    assert_eq!(film, Film::read(&FILE)?);
    let steps = Some(Steps {
        along: 2,
        across: 3,
    });
    let with_steps = Film::from_thicknesses(HEAD, &THICKNESSES, 100, steps)?;
    let file = [&FILE[..], &[0x0a, 0, 2, 2, 3]].concat();
    assert_eq!(with_steps, Film::read(&file)?);
    let mesh = mesh(film.as_coefficients());
    let film = CoefficientFilm::from_coefficients(HEAD, &mesh)?;
    assert_eq!(film, CoefficientFilm::read(&COEFFICIENTS)?);
    Ok(())
}

/// A film's coefficients alone.
fn mesh(film: &CoefficientFilm) -> Coefficients {
    Coefficients {
        diagonals: film.diagonals().to_vec(),
        rights: film.rights().to_vec(),
        ups: film.ups().to_vec(),
        sources: film.sources().to_vec(),
    }
}

/// Numbers that have no room in a file are refused as those just beyond the limits.
#[test]
fn bad_parts() {
    let made = |rows, columns, thicknesses: &[u8], steps| {
        let head = Head {
            rows,
            columns,
            ..HEAD
        };
        Film::from_thicknesses(head, thicknesses, 100, steps)
    };
    for side in [0, 33, 256, 257, u32::MAX] {
        assert_eq!(made(side, 2, &THICKNESSES, None), refused(4, 3));
        assert_eq!(made(1, side, &THICKNESSES, None), refused(4, 4));
    }
    for count in [0, 11, 13, 65_536 + 12] {
        assert_eq!(made(1, 2, &vec![1; count], None), refused(3, 15));
    }
    for step in [0, 5, 257, u32::MAX] {
        let along = Some(Steps {
            along: step,
            across: 1,
        });
        assert_eq!(made(1, 2, &THICKNESSES, along), refused(15, 40));
        let across = Some(Steps {
            along: 1,
            across: step,
        });
        assert_eq!(made(1, 2, &THICKNESSES, across), refused(15, 41));
    }
    let short = Coefficients::default();
    assert_eq!(
        CoefficientFilm::from_coefficients(HEAD, &short),
        refused(3, 15)
    );
}

#[test]
fn offsets() {
    for end in 0..FILE.len() {
        assert_eq!(Film::read(&FILE[..end]), refused(1, end));
        assert_eq!(AnyFilm::read(&FILE[..end]), refused(1, end));
    }
    for (at, byte, number, place) in [
        (14, 1, 3, 12),
        (14, 6, 3, 12),
        (13, 1, 3, 12),
        (15, 5, 2, 15),
        (17, 11, 3, 15),
        (18, 0, 7, 18),
        (29, 129, 7, 29),
        (30, 4, 2, 30),
        (32, 5, 3, 30),
        (33, 0x7f, 8, 33),
        (4, 33, 4, 4),
        (8, 0x7f, 5, 8),
    ] {
        let file = damaged(&FILE, at, byte);
        assert_eq!(Film::read(&file), refused(number, place));
        let line = format!("REFUSED {number} {place}\n");
        assert_eq!(report(&file), Ok(line.into_bytes()));
    }
    for (behind, number, place) in [
        (&[0][..], 2, 37),
        (&[0x0a], 1, 38),
        (&[0x0a, 0, 3, 1, 1], 3, 37),
        (&[0x0a, 0, 2, 5, 1], 15, 40),
        (&[0x0a, 0, 2, 1, 0], 15, 41),
        (&[0x0a, 0, 2, 1, 1, 9], 2, 42),
    ] {
        let file = [&FILE[..], behind].concat();
        assert_eq!(Film::read(&file), refused(number, place));
    }
}

#[test]
fn offsets_in_coefficient_films() {
    for end in 0..COEFFICIENTS.len() {
        let cut = &COEFFICIENTS[..end];
        assert_eq!(CoefficientFilm::read(cut), refused(1, end));
        assert_eq!(AnyFilm::read(cut), refused(1, end));
    }
    for (at, byte, number, place) in [
        (14, 2, 3, 12),
        (15, 7, 2, 15),
        (17, 4, 3, 15),
        (26, 6, 2, 26),
        (37, 9, 2, 37),
        (48, 8, 2, 48),
        (50, 8, 3, 48),
        // limits, by the cell
        (21, 0, 14, 0),
        (36, 1, 14, 1),
        (59, 0x80, 14, 1),
    ] {
        let file = damaged(&COEFFICIENTS, at, byte);
        assert_eq!(CoefficientFilm::read(&file), refused(number, place));
    }
    let longer = [&COEFFICIENTS[..], &[0]].concat();
    assert_eq!(CoefficientFilm::read(&longer), refused(2, 67));
}

/// Weights that are still there behind a length of 0 are no tag, and a length without weights is one
/// that the next field does not have.
#[test]
fn length_and_weights() {
    let weighted = with_weights(&FILE, &[1, 1]);
    assert_eq!(Film::read(&damaged(&weighted, 14, 0)), refused(2, 15));
    // Its weights would be 4, 0, 12 and 1: the tag is looked for among the thicknesses.
    assert_eq!(Film::read(&damaged(&FILE, 14, 4)), refused(2, 19));
}

/// Two cells, of which the first wants one more than the second has, and the second as much as the
/// first: with a link of L they end with weights L + 2 and L + 1.
fn climbing(link: u32) -> Result<CoefficientFilm, Refusal> {
    let mesh = Coefficients {
        diagonals: vec![link, link + 1],
        rights: vec![link, 0],
        ups: vec![0, 0],
        sources: vec![0, 0],
    };
    CoefficientFilm::from_coefficients(HEAD, &mesh)
}

#[test]
fn greatest_weights() -> Result<(), Refusal> {
    assert_eq!(climbing(65_533)?.weights(), [65_535, 65_534]);
    assert_eq!(climbing(65_534), refused(16, 0));
    // One step less in the middle of the sample, and there are weights.
    assert_eq!(NO_WEIGHTS[18 + 2 * 5 + 2], 101);
    let film = Film::read(&damaged(NO_WEIGHTS, 18 + 2 * 5 + 2, 100))?;
    assert_eq!(film.weights().iter().max(), Some(&64_396));
    assert_eq!(film.weights(), least_weights(film.as_coefficients()));
    Ok(())
}

/// The readers' buffers with sevens in them, and what they told; place and results are 9 before.
#[derive(Debug, PartialEq)]
struct Lent {
    weights: Vec<u16>,
    thicknesses: Vec<u8>,
    words: [Vec<u32>; 3],
    sources: Vec<i64>,
    head: Head,
    wedge: i32,
    steps: raw::Steps,
}

impl Lent {
    fn new() -> Lent {
        Lent {
            weights: vec![7; 1_024],
            thicknesses: vec![7; 1_156],
            words: [7, 7, 7].map(|seven| vec![seven; 1_024]),
            sources: vec![7; 1_024],
            head: Head {
                rows: 9,
                columns: 9,
                ceiling: 9,
            },
            wedge: 9,
            steps: raw::Steps {
                given: 9,
                along: 9,
                across: 9,
            },
        }
    }

    fn read(&mut self, file: &[u8]) -> (u32, usize) {
        let mut place = 9;
        let number = raw::read(
            file,
            &mut self.weights,
            &mut self.thicknesses,
            &mut self.head,
            &mut self.wedge,
            &mut self.steps,
            &mut place,
        );
        (number, place)
    }

    fn read_coefficients(&mut self, file: &[u8]) -> (u32, usize) {
        let [diagonals, rights, ups] = &mut self.words;
        let lent = raw::Coefficients {
            weights: &mut self.weights,
            diagonals,
            rights,
            ups,
            sources: &mut self.sources,
        };
        let mut place = 9;
        let number = raw::read_coefficients(file, lent, &mut self.head, &mut place);
        (number, place)
    }
}

/// A mesh of 32 × 32 cells that loses nothing at its rim: no weights hold it, but they climb for
/// longer than the search lasts.
fn closed_mesh() -> Vec<u8> {
    // Neighbours in the row of a cell, or in its column.
    let neighbours = |place: usize| match place % 32 {
        0 | 31 => 1,
        _ => 2,
    };
    let links = |open: &dyn Fn(usize) -> bool| -> Vec<u8> {
        (0..1_024)
            .flat_map(|cell| [0, 0, 0, u8::from(open(cell))])
            .collect()
    };
    let diagonals: Vec<u8> = (0..1_024)
        .flat_map(|cell| [0, 0, 0, neighbours(cell) + neighbours(cell / 32)])
        .collect();
    let opening = [1, 0, 2, 32, 32, 2, 0, 4, 0, 0, 0, 100, 3, 0, 0];
    [
        &opening[..],
        &[0x06, 0x10, 0],
        &diagonals,
        &[0x07, 0x10, 0],
        &links(&|cell| cell % 32 < 31),
        &[0x08, 0x10, 0],
        &links(&|cell| cell < 31 * 32),
        &[0x09, 0x20, 0],
        &[0; 8_192],
    ]
    .concat()
}

/// Refusals 16 and 17 write their place and nothing else, as do all.
#[test]
fn not_found() {
    let stopped = without_weights(STOPPED);
    for (file, number, place) in [(NO_WEIGHTS, 16, 4), (&stopped, 17, 0)] {
        let mut lent = Lent::new();
        assert_eq!(lent.read(file), (number, place));
        assert_eq!(lent, Lent::new());
        assert_eq!(AnyFilm::read(file), refused(number, place));
        let line = format!("REFUSED {number} {place}\n");
        assert_eq!(report(file), Ok(line.into_bytes()));
    }
    // Film F with a link of 20,000.
    let none = damaged(&damaged(&COEFFICIENTS, 31, 0x4e), 32, 0x20);
    for (file, number, place) in [(none, 16, 1), (closed_mesh(), 17, 0)] {
        let mut lent = Lent::new();
        assert_eq!(lent.read_coefficients(&file), (number, place));
        assert_eq!(lent, Lent::new());
        assert_eq!(AnyFilm::read(&file), refused(number, place));
        let line = format!("REFUSED {number} {place}\n");
        assert_eq!(report(&file), Ok(line.into_bytes()));
    }
}

/// What weights are not found for may have some: those of the sample hold it.
#[test]
fn weights_of_one_s_own() -> Result<(), Refusal> {
    assert_eq!(Film::read(&without_weights(STOPPED)), refused(17, 0));
    assert_eq!(Film::read(STOPPED)?.write()?, STOPPED);
    Ok(())
}

/// The search comes last: behind what follows the file, and in coefficient films behind the limits.
#[test]
fn other_faults_first() {
    let longer = [NO_WEIGHTS, &[0]].concat();
    assert_eq!(Film::read(&longer), refused(2, 50));
    let none = damaged(&damaged(&COEFFICIENTS, 31, 0x4e), 32, 0x20);
    assert_eq!(CoefficientFilm::read(&none), refused(16, 1));
    let far = damaged(&none, 59, 0x7f);
    assert_eq!(CoefficientFilm::read(&far), refused(14, 1));
    let longer = [&none[..], &[0x0a]].concat();
    assert_eq!(CoefficientFilm::read(&longer), refused(2, 67));
}

/// Found weights go into the lent buffer, and what is beyond them stays.
#[test]
fn lent_buffers() {
    let mut lent = Lent::new();
    assert_eq!(lent.read(&FILE), (0, 9));
    assert_eq!((lent.head, lent.wedge), (HEAD, 100));
    assert_eq!(lent.weights[..3], [1, 1, 7]);
    assert_eq!(lent.thicknesses[..12], THICKNESSES);
    assert_eq!(lent.thicknesses[12..], [7; 1_144]);
    let mut lent = Lent::new();
    assert_eq!(lent.read_coefficients(&COEFFICIENTS), (0, 9));
    assert_eq!(lent.weights[..3], [1, 1, 7]);
    let [diagonals, rights, ups] = &lent.words;
    assert_eq!(diagonals[..3], [206, 51, 7]);
    assert_eq!(rights[..3], [27, 0, 7]);
    assert_eq!(ups[..3], [0, 0, 7]);
    assert_eq!(lent.sources[..3], [-200, -100, 7]);
}

/// Calls on a gauged film's numbers want its weights: none at all are a wrong length, whatever length
/// is lent for the file.
#[test]
fn no_weights_to_write() {
    let gauge = Gauge {
        head: &HEAD,
        weights: &[],
        thicknesses: &THICKNESSES,
        wedge: 100,
        steps: &raw::Steps::default(),
    };
    for length in [37, 41, 67, 71] {
        let (mut out, mut place) = (vec![7; length], 9);
        assert_eq!(raw::write(gauge, &mut out, &mut place), 10);
        assert_eq!((place, &out), (0, &vec![7; length]));
        let mut place = 9;
        assert_eq!(raw::convert(gauge, &mut out, &mut place), 10);
        assert_eq!((place, out), (0, vec![7; length]));
    }
    let (mut words, mut sources, mut place) = ([[7; 2]; 3], [7; 2], 9);
    let [diagonals, rights, ups] = &mut words;
    let formed = raw::Formed {
        diagonals,
        rights,
        ups,
        sources: &mut sources,
    };
    assert_eq!(raw::form(gauge, formed, &mut place), 10);
    assert_eq!((place, words, sources), (0, [[7; 2]; 3], [7; 2]));
    let none = Film::from_parts(HEAD, Vec::new(), THICKNESSES.to_vec(), 100, None);
    assert_eq!(none, refused(10, 0));
}

/// Film F by its coefficients, and no weights.
const UNWEIGHTED: Problem = Problem {
    head: &HEAD,
    weights: &[],
    diagonals: &[206, 51],
    rights: &[27, 0],
    ups: &[0, 0],
    sources: &[-200, -100],
};

#[test]
fn no_weights_to_run_with() {
    let (mut field, mut result, mut place) = ([1, 2], [7; 2], 9);
    let number = raw::relax(UNWEIGHTED, &mut field, 0, &mut result, &mut place);
    assert_eq!((number, place, field, result), (10, 0, [1, 2], [7; 2]));
    let mut place = 9;
    let number = raw::propose(UNWEIGHTED, &mut field, 1, &[2, 4], &mut result, &mut place);
    assert_eq!((number, place, field, result), (10, 0, [1, 2], [7; 2]));
    let mut told = raw::Ran {
        result: [7; 4],
        cell: 7,
        place: 9,
    };
    let number = raw::run(UNWEIGHTED, &mut field, 100, 0, true, &mut told);
    assert_eq!((number, told.place, field), (10, 0, [1, 2]));
    assert_eq!((told.result, told.cell), ([7; 4], 7));
}

#[test]
fn no_weights_to_look_at() {
    let field = [1, 2];
    let (mut slack, mut place) = (7, 9);
    let number = raw::slack(UNWEIGHTED, &field, 0, &mut slack, &mut place);
    assert_eq!((number, place, slack), (10, 0, 7));
    let (mut margin, mut place) = (7, 9);
    let number = raw::margin(UNWEIGHTED, &mut margin, &mut place);
    assert_eq!((number, place, margin), (10, 0, 7));
    let (mut estimate, mut place) = ([7; 2], 9);
    let number = raw::estimate(UNWEIGHTED, &field, 1, &mut estimate, &mut place);
    assert_eq!((number, place, estimate), (10, 0, [7; 2]));
    for length in [67, 71] {
        let (mut out, mut place) = (vec![7; length], 9);
        let number = raw::write_coefficients(UNWEIGHTED, &mut out, &mut place);
        assert_eq!((number, place, out), (10, 0, vec![7; length]));
    }
}

#[test]
fn words() {
    let told = |number, place| Refusal { number, place }.to_string();
    assert_eq!(
        told(16, 4),
        "NoWeights (16): no weights from 1 to 65,535 hold the film, at cell 4"
    );
    assert_eq!(
        told(17, 0),
        "WeightsNotFound (17): weights were not found in 4,000,000 relaxations"
    );
}
