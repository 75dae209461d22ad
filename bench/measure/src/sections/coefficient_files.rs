//! Coefficient films: reading and writing their files, converting gauged films, and the report.

use crate::calls::{self, head, steps_of};
use crate::clock::by_turns;
use crate::plain_coefficients;
use crate::plain_file::Numbers;
use crate::problem::Problem;
use crate::sections::files::{report_times, row};
use film::raw::{self, Coefficients, Gauge};
use film::Head;
use film_oracle::coefficient_film::{convert, read, write, CoefficientFilm};
use film_oracle::film::Film;
use film_oracle::{vectors, Whole};
use std::hint::black_box;

/// How a call's two sides are timed on a film.
type Times = fn(&Film) -> [f64; 2];

/// Rows for these films, each measured as the coefficient film that it converts to.
pub fn rows(films: &[(&str, Film)]) -> Vec<Vec<String>> {
    vectors::all()
        .iter()
        .for_each(|(name, file)| check_read(name, file));
    let measured: [(&str, Times); 4] = [
        ("read", |film| read_times(&write(&convert(film)))),
        ("write", write_times),
        ("convert", convert_times),
        ("report", |film| report_times(&write(&convert(film)))),
    ];
    let mut rows = Vec::new();
    for (call, times) in measured {
        for (name, film) in films {
            rows.push(row(call, name, times(film)));
        }
    }
    rows
}

/// The reader's five buffers.
struct Buffers {
    weights: [u16; 1_024],
    diagonals: [u32; 1_024],
    rights: [u32; 1_024],
    ups: [u32; 1_024],
    sources: [i64; 1_024],
}

impl Buffers {
    fn new() -> Buffers {
        Buffers {
            weights: [0; 1_024],
            diagonals: [0; 1_024],
            rights: [0; 1_024],
            ups: [0; 1_024],
            sources: [0; 1_024],
        }
    }

    fn lent(&mut self) -> Coefficients<'_> {
        Coefficients {
            weights: &mut self.weights,
            diagonals: &mut self.diagonals,
            rights: &mut self.rights,
            ups: &mut self.ups,
            sources: &mut self.sources,
        }
    }

    /// They hold the film that the oracle reads from the file, and nothing beyond it.
    fn hold(&self, film: &CoefficientFilm, found: Head) -> bool {
        let coefficients = &film.coefficients;
        found == head(film.rows(), film.columns(), film.ceiling)
            && begins(&self.weights, &film.weights)
            && begins(&self.diagonals, &coefficients.diagonals)
            && begins(&self.rights, &coefficients.rights)
            && begins(&self.ups, &coefficients.ups)
            && begins(&self.sources, &coefficients.sources)
    }
}

/// A buffer that was 0 has these numbers first, and zeros behind them.
fn begins<T: Copy + Into<Whole>, U: Copy + Into<Whole>>(buffer: &[T], numbers: &[U]) -> bool {
    let rest = buffer.len() - numbers.len();
    let expected = numbers.iter().map(|&number| number.into());
    buffer
        .iter()
        .map(|&number| number.into())
        .eq(expected.chain(vec![0; rest]))
}

/// Film, plain Rust and the oracle read the same coefficient film from a file, or refuse it alike.
fn check_read(name: &str, file: &[u8]) {
    let (mut one, mut other) = (Buffers::new(), Buffers::new());
    let found = calls::read_coefficients(file, one.lent());
    let again = plain_coefficients::read(file, other.lent());
    match read(file) {
        Ok(film) => {
            assert!(
                found.is_ok_and(|head| one.hold(&film, head)),
                "Film reads {name} as coefficients"
            );
            assert!(
                again.is_ok_and(|head| other.hold(&film, head)),
                "Rust reads {name} as coefficients"
            );
        }
        Err(refusal) => {
            let refused = Err((refusal.number.into(), refusal.place));
            assert!(
                found == refused && again == refused,
                "refusal of {name} as coefficients"
            );
        }
    }
}

/// Reading a coefficient film's file.
pub fn read_times(file: &[u8]) -> [f64; 2] {
    check_read("a measured film", file);
    let (mut one, mut other) = (Buffers::new(), Buffers::new());
    by_turns([
        &mut || {
            let _ = black_box(calls::read_coefficients(file, one.lent()));
        },
        &mut || {
            let _ = black_box(plain_coefficients::read(file, other.lent()));
        },
    ])
}

fn write_times(film: &Film) -> [f64; 2] {
    let expected = write(&convert(film));
    let problem = Problem::of_film(film);
    // Made once, as a caller has it.
    let head = head(film.rows, film.columns, film.ceiling);
    let (mut one, mut other) = (vec![0; expected.len()], vec![0; expected.len()]);
    calls::write_coefficients(problem.lent(&head), &mut one).expect("an accepted film");
    plain_coefficients::write(problem.system(), &mut other).expect("an accepted film");
    assert!(one == expected && other == expected, "the written file");
    by_turns([
        &mut || {
            let _ = black_box(calls::write_coefficients(problem.lent(&head), &mut one));
        },
        &mut || {
            let _ = black_box(plain_coefficients::write(problem.system(), &mut other));
        },
    ])
}

fn convert_times(film: &Film) -> [f64; 2] {
    let expected = write(&convert(film));
    let gauge = Gauge {
        head: &head(film.rows, film.columns, film.ceiling),
        weights: &film.weights,
        thicknesses: &film.thickness,
        wedge: film.wedge,
        steps: &raw::Steps::from(steps_of(film)),
    };
    let (mut one, mut other) = (vec![0; expected.len()], vec![0; expected.len()]);
    calls::convert(gauge, &mut one).expect("an accepted film");
    plain_coefficients::convert(Numbers::of(film), &mut other).expect("an accepted film");
    assert!(one == expected && other == expected, "the converted file");
    by_turns([
        &mut || {
            let _ = black_box(calls::convert(gauge, &mut one));
        },
        &mut || {
            let _ = black_box(plain_coefficients::convert(Numbers::of(film), &mut other));
        },
    ])
}
