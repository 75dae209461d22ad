//! Coefficient films: files both ways, conversion from gauged films, and refusals.

use film::{
    raw, report, AnyFilm, CoefficientFilm, Coefficients, Counts, Field, Film, Head, Order, Outcome,
    Proposed, Refusal, Relaxed,
};

/// Film F as a coefficient film's file.
const FILE_F: [u8; 71] = [
    0x01, 0, 2, 1, 2, // rows and columns
    0x02, 0, 4, 0, 0, 0, 100, // ceiling
    0x03, 0, 4, 0, 1, 0, 1, // weights
    0x06, 0, 8, 0, 0, 0, 206, 0, 0, 0, 51, // diagonals
    0x07, 0, 8, 0, 0, 0, 27, 0, 0, 0, 0, // right links
    0x08, 0, 8, 0, 0, 0, 0, 0, 0, 0, 0, // up links
    0x09, 0, 16, // sources, -200 and -100
    255, 255, 255, 255, 255, 255, 255, 56, 255, 255, 255, 255, 255, 255, 255, 156,
];

const HEAD_F: Head = Head {
    rows: 1,
    columns: 2,
    ceiling: 100,
};

fn gauged_f() -> Film {
    let thicknesses = vec![1, 1, 1, 1, 3, 2, 1, 1, 1, 1, 1, 1];
    Film::from_parts(HEAD_F, vec![1, 1], thicknesses, 100, None).expect("film F is accepted")
}

fn coefficients_f() -> Coefficients {
    Coefficients {
        diagonals: vec![206, 51],
        rights: vec![27, 0],
        ups: vec![0, 0],
        sources: vec![-200, -100],
    }
}

fn film_f() -> CoefficientFilm {
    CoefficientFilm::read(&FILE_F).expect("film F is accepted")
}

/// 2 × 2 cells with the largest links, diagonals and sources.
fn largest() -> Coefficients {
    Coefficients {
        diagonals: vec![268_435_456; 4],
        rights: vec![67_108_864, 0, 67_108_864, 0],
        ups: vec![67_108_864, 67_108_864, 0, 0],
        sources: vec![1 << 50, -(1 << 50), -(1 << 50), 1 << 50],
    }
}

/// A film of 2 × 2 cells with the largest ceiling and weights.
fn of_four(coefficients: Coefficients) -> Result<CoefficientFilm, Refusal> {
    let head = Head {
        rows: 2,
        columns: 2,
        ceiling: 16_777_216,
    };
    CoefficientFilm::from_parts(head, vec![65_535; 4], coefficients)
}

fn refused<T>(number: u32, place: usize) -> Result<T, Refusal> {
    Err(Refusal { number, place })
}

/// The file of film F with one byte replaced.
fn damaged(at: usize, byte: u8) -> Vec<u8> {
    let mut file = FILE_F.to_vec();
    file[at] = byte;
    file
}

#[test]
fn numbers() {
    let film = film_f();
    assert_eq!((film.rows(), film.columns(), film.cells()), (1, 2, 2));
    assert_eq!((film.ceiling(), film.weights()), (100, &[1, 1][..]));
    assert_eq!(film.diagonals(), [206, 51]);
    assert_eq!(film.rights(), [27, 0]);
    assert_eq!(film.ups(), [0, 0]);
    assert_eq!(film.sources(), [-200, -100]);
    assert_eq!(film.margin(), Ok(2));
}

#[test]
fn file_both_ways() -> Result<(), Refusal> {
    let film = film_f();
    assert_eq!(film.write()?, FILE_F);
    let parts = CoefficientFilm::from_parts(HEAD_F, vec![1, 1], coefficients_f())?;
    assert_eq!(parts, film);
    let film = of_four(largest())?;
    let file = film.write()?;
    assert_eq!(file.len(), 27 + 22 * 4);
    assert_eq!(CoefficientFilm::read(&file), Ok(film));
    Ok(())
}

#[test]
fn converted() -> Result<(), Refusal> {
    let gauged = gauged_f();
    assert_eq!(gauged.convert()?, FILE_F);
    assert_eq!(gauged.as_coefficients(), &film_f());
    assert_eq!(report(&FILE_F)?, report(&gauged.write()?)?);
    Ok(())
}

#[test]
fn equal_runs() {
    let (gauged, film) = (gauged_f(), film_f());
    for order in [Order::Forward, Order::Backward, Order::RedBlack] {
        for (budget, proposals) in [(0, true), (5, false), (5, true), (1_000, true)] {
            let (mut one, mut other) = (Field::zero(&gauged), film.zero_field());
            assert_eq!(
                gauged.run(&mut one, budget, order, proposals),
                film.run(&mut other, budget, order, proposals)
            );
            assert_eq!(one, other);
        }
    }
}

#[test]
fn calls_on_a_field() {
    let film = film_f();
    let mut field = film.zero_field();
    assert_eq!(film.estimate(&field, 1), Ok(vec![0, 0]));
    assert_eq!(
        film.propose(&mut field, 1, &[1, 2]),
        Ok(Proposed::Accepted(2))
    );
    assert_eq!(film.relax(&mut field, 0), Ok(Relaxed::Raised(2)));
    assert_eq!(film.slack(&field, 1), Ok(-52));
    let done = Outcome::Done(Counts {
        visits: 4,
        raises: 1,
        accepted: 0,
    });
    assert_eq!(film.run(&mut field, 9, Order::Forward, false), Ok(done));
    assert_eq!(field.pressures(), [2, 4]);
}

#[test]
fn either_kind() -> Result<(), Refusal> {
    let gauged_file = gauged_f().write()?;
    let (gauged, film) = (AnyFilm::read(&gauged_file)?, AnyFilm::read(&FILE_F)?);
    assert_eq!(gauged, AnyFilm::Gauged(gauged_f()));
    assert_eq!(film, AnyFilm::Coefficients(film_f()));
    assert_eq!(gauged.as_coefficients(), film.as_coefficients());
    assert_eq!(
        (gauged.write()?, film.write()?),
        (gauged_file, FILE_F.into())
    );
    Ok(())
}

#[test]
fn the_other_kind() -> Result<(), Refusal> {
    assert_eq!(Film::read(&FILE_F), refused(2, 19));
    assert_eq!(CoefficientFilm::read(&gauged_f().write()?), refused(2, 19));
    Ok(())
}

#[test]
fn files() {
    for end in 0..FILE_F.len() {
        let cut = &FILE_F[..end];
        assert_eq!(CoefficientFilm::read(cut), refused(1, end));
        assert_eq!(AnyFilm::read(cut), refused(1, end));
    }
    let longer = [&FILE_F[..], &[0]].concat();
    assert_eq!(CoefficientFilm::read(&longer), refused(2, 71));
    for (at, byte, number, place) in [
        (0, 7, 2, 0),
        (30, 6, 2, 30),
        (41, 9, 2, 41),
        (52, 5, 2, 52),
        (21, 9, 3, 19),
        (54, 8, 3, 52),
        (4, 33, 4, 4),
        (8, 0x7f, 5, 8),
        (16, 0, 6, 15),
        (25, 0, 14, 0),
        (40, 1, 14, 1),
        (47, 1, 14, 0),
        (63, 0x80, 14, 1),
        (15, 0xff, 9, 1),
    ] {
        let file = damaged(at, byte);
        assert_eq!(CoefficientFilm::read(&file), refused(number, place));
        assert_eq!(AnyFilm::read(&file), refused(number, place));
        let line = format!("REFUSED {number} {place}\n");
        assert_eq!(report(&file), Ok(line.into_bytes()));
    }
}

#[test]
fn beyond_the_limits() {
    let mut beyond = largest();
    beyond.sources[3] += 1;
    assert_eq!(of_four(beyond.clone()), refused(14, 3));
    beyond.rights[2] += 1;
    assert_eq!(of_four(beyond.clone()), refused(14, 2));
    beyond.ups[1] += 1;
    assert_eq!(of_four(beyond.clone()), refused(14, 1));
    beyond.diagonals[0] += 1;
    assert_eq!(of_four(beyond), refused(14, 0));
}

/// Coefficients are looked at once the whole file is there, and before the row sums.
#[test]
fn limits_after_the_walk() {
    let diagonal_0 = damaged(25, 0);
    assert_eq!(CoefficientFilm::read(&diagonal_0[..70]), refused(1, 70));
    let longer = [&diagonal_0[..], &[0]].concat();
    assert_eq!(CoefficientFilm::read(&longer), refused(2, 71));
    let mut with_weights = diagonal_0;
    with_weights[17] = 9;
    assert_eq!(CoefficientFilm::read(&with_weights), refused(14, 0));
}

#[test]
fn parts() {
    let made = |head: Head, weights: &[u16], coefficients: Coefficients| {
        CoefficientFilm::from_parts(head, weights.to_vec(), coefficients)
    };
    let shape = |rows, columns| Head {
        rows,
        columns,
        ..HEAD_F
    };
    let film = coefficients_f;
    assert_eq!(made(shape(0, 2), &[1, 1], film()), refused(4, 3));
    assert_eq!(made(shape(1, 33), &[1, 1], film()), refused(4, 4));
    assert_eq!(made(shape(2, 2), &[1, 1], film()), refused(10, 0));
    assert_eq!(made(HEAD_F, &[1], film()), refused(10, 0));
    let mut short = film();
    short.ups.pop();
    assert_eq!(made(HEAD_F, &[1, 1], short), refused(10, 0));
    let low = Head {
        ceiling: 0,
        ..HEAD_F
    };
    assert_eq!(made(low, &[1, 1], film()), refused(5, 8));
    let mut far = film();
    far.sources[1] = i64::MIN;
    assert_eq!(made(HEAD_F, &[1, 1], far.clone()), refused(14, 1));
    // A weight is tested before the coefficients, and both before the row sums.
    assert_eq!(made(HEAD_F, &[1, 0], far.clone()), refused(6, 17));
    assert_eq!(made(HEAD_F, &[1, 9], far), refused(14, 1));
    assert_eq!(made(HEAD_F, &[1, 9], film()), refused(9, 0));
}

/// The reader's buffers, filled with sevens.
#[derive(Debug, PartialEq)]
struct Buffers {
    weights: Vec<u16>,
    diagonals: Vec<u32>,
    rights: Vec<u32>,
    ups: Vec<u32>,
    sources: Vec<i64>,
}

impl Buffers {
    fn new(ups: usize) -> Buffers {
        Buffers {
            weights: vec![7; 1_024],
            diagonals: vec![7; 1_024],
            rights: vec![7; 1_024],
            ups: vec![7; ups],
            sources: vec![7; 1_024],
        }
    }

    /// What reading film F into them answers: number, place (9 before) and head.
    fn read(&mut self) -> (u32, usize, Head) {
        let (mut head, mut place) = (Head::default(), 9);
        let lent = raw::Coefficients {
            weights: &mut self.weights,
            diagonals: &mut self.diagonals,
            rights: &mut self.rights,
            ups: &mut self.ups,
            sources: &mut self.sources,
        };
        let number = raw::read_coefficients(&FILE_F, lent, &mut head, &mut place);
        (number, place, head)
    }
}

#[test]
fn buffers() {
    let mut buffers = Buffers::new(1_024);
    assert_eq!(buffers.read(), (0, 9, HEAD_F));
    assert_eq!(buffers.weights[..3], [1, 1, 7]);
    assert_eq!(buffers.diagonals[..3], [206, 51, 7]);
    assert_eq!(buffers.sources[..3], [-200, -100, 7]);
    for length in [0, 2, 1_023, 1_025] {
        let mut buffers = Buffers::new(length);
        assert_eq!(buffers.read(), (10, 0, Head::default()));
        assert_eq!(buffers, Buffers::new(length));
    }
}

#[test]
fn slices_to_write_into() {
    let (gauged, film) = (gauged_f(), film_f());
    let problem = raw::Problem {
        head: &HEAD_F,
        weights: film.weights(),
        diagonals: film.diagonals(),
        rights: film.rights(),
        ups: film.ups(),
        sources: film.sources(),
    };
    let gauge = raw::Gauge {
        head: &HEAD_F,
        weights: gauged.weights(),
        thicknesses: gauged.thicknesses(),
        wedge: gauged.wedge(),
        steps: &raw::Steps::default(),
    };
    for length in [0, 41, 70, 72] {
        let (mut out, mut place) = (vec![7; length], 9);
        let number = raw::write_coefficients(problem, &mut out, &mut place);
        assert_eq!((number, place), (10, 0));
        let number = raw::convert(gauge, &mut out, &mut place);
        assert_eq!((number, place), (10, 0));
        assert_eq!(out, vec![7; length]);
    }
}

#[test]
fn words() {
    let refusal = CoefficientFilm::read(&damaged(25, 0)).expect_err("its diagonal is 0");
    assert_eq!(
        refusal.to_string(),
        "BadCoefficient (14): a coefficient is outside its limits, at cell 0"
    );
}
