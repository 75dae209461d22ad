//! Reading a film file, forming coefficients, converting, and printing the report.

use crate::calls::{self, head, steps_of, Lent};
use crate::clock::by_turns;
use crate::page::{remark, Section};
use crate::plain_file::{self, Numbers};
use crate::problem::at_rest;
use crate::sections::coefficient_files;
use film::raw::{self, Gauge};
use film::{Head, Steps};
use film_oracle::coefficients::form;
use film_oracle::film::{read, write, Film};
use film_oracle::report::report;
use film_oracle::samples;
use film_oracle::vectors;
use std::hint::black_box;

/// The longest report.
const LONGEST: usize = 33_288;

const NOTE: &str = "\
Each call and plain Rust doing the same with the same tests. Reading, of both kinds of film, is checked to agree
on every test vector of the oracle, refused files among them. The report in Rust prints with `writeln!`.
Nanoseconds a call. Buffers and slices are lent again from call to call and not cleared: each call writes all
that it uses. Rust's reader of coefficient films decodes into tables of its own, 22 kB, which each call clears;
its writer and its converter have none. The film at rest (32 × 32) is Done after one quiet round, so that its
report is mostly printing; film F has two cells. As coefficients they are the same films, converted.";

pub fn section() -> Section {
    vectors::all()
        .iter()
        .for_each(|(name, file)| check_read(name, file));
    let films = [
        ("film-f.film, 1 × 2", samples::film_f()),
        ("journal.film, 16 × 32", samples::journal()),
        ("at rest, 32 × 32", at_rest()),
    ];
    let mut rows = Vec::new();
    for (name, film) in &films {
        rows.push(row("read", name, read_times(&write(film))));
    }
    for (name, film) in &films {
        rows.push(row("form", name, form_times(film)));
    }
    for (name, film) in [&films[0], &films[2]] {
        rows.push(row("report", name, report_times(&write(film))));
    }
    rows.extend(coefficient_files::rows(&[
        ("film F as coefficients, 1 × 2", samples::film_f()),
        ("at rest as coefficients, 32 × 32", at_rest()),
    ]));
    Section {
        title: "4. Film files, forming coefficients, the report",
        note: NOTE.to_string(),
        heads: vec!["call", "film", "Film ns", "Rust ns", "time ratio", ""],
        rows,
    }
}

pub fn row(call: &str, name: &str, [film, rust]: [f64; 2]) -> Vec<String> {
    vec![
        call.to_string(),
        name.to_string(),
        format!("{film:.0}"),
        format!("{rust:.0}"),
        format!("{:.3}", film / rust),
        remark(film / rust),
    ]
}

/// The reader's two buffers.
struct Buffers {
    weights: [u16; 1_024],
    thicknesses: [u8; 1_156],
}

impl Buffers {
    fn new() -> Buffers {
        Buffers {
            weights: [0; 1_024],
            thicknesses: [0; 1_156],
        }
    }

    /// They hold the film that the oracle reads from the file.
    fn hold(&self, film: &Film, (found, wedge, steps): (Head, i32, Option<Steps>)) -> bool {
        found == head(film.rows, film.columns, film.ceiling)
            && wedge == film.wedge
            && steps == steps_of(film)
            && self.weights.starts_with(&film.weights)
            && self.thicknesses.starts_with(&film.thickness)
    }
}

/// Film, plain Rust and the oracle read the same film from a file, or refuse it alike.
fn check_read(name: &str, file: &[u8]) {
    let (mut one, mut other) = (Buffers::new(), Buffers::new());
    let found = calls::read(file, &mut one.weights, &mut one.thicknesses);
    let again = plain_file::read(file, &mut other.weights, &mut other.thicknesses);
    match read(file) {
        Ok(film) => {
            let held = |buffers: &Buffers, numbers| buffers.hold(&film, numbers);
            assert!(
                found.is_ok_and(|numbers| held(&one, numbers)),
                "Film reads {name}"
            );
            assert!(
                again.is_ok_and(|numbers| held(&other, numbers)),
                "Rust reads {name}"
            );
        }
        Err(refusal) => {
            let refused = Err((refusal.number.into(), refusal.place));
            assert!(found == refused && again == refused, "refusal of {name}");
        }
    }
}

/// Reading a gauged film's file.
pub fn read_times(file: &[u8]) -> [f64; 2] {
    check_read("a measured film", file);
    let (mut one, mut other) = (Buffers::new(), Buffers::new());
    by_turns([
        &mut || {
            let _ = black_box(calls::read(file, &mut one.weights, &mut one.thicknesses));
        },
        &mut || {
            let _ = black_box(plain_file::read(
                file,
                &mut other.weights,
                &mut other.thicknesses,
            ));
        },
    ])
}

fn form_times(film: &Film) -> [f64; 2] {
    let expected = form(film);
    // Made once, as a caller has it: a head that was written just before the call costs some 8 ns.
    let gauge = Gauge {
        head: &head(film.rows, film.columns, film.ceiling),
        weights: &film.weights,
        thicknesses: &film.thickness,
        wedge: film.wedge,
        steps: &raw::Steps::from(steps_of(film)),
    };
    let (mut one, mut other) = (Lent::new(film.cells()), Lent::new(film.cells()));
    calls::form(gauge, &mut one).expect("an accepted film");
    plain_file::form(Numbers::of(film), &mut other).expect("an accepted film");
    assert!(one == other, "Film's coefficients and Rust's");
    let wide: Vec<i128> = one.diagonals.iter().map(|&number| number.into()).collect();
    assert!(wide == expected.diagonals, "the oracle's diagonals");
    let wide: Vec<i128> = one.sources.iter().map(|&number| number.into()).collect();
    assert!(wide == expected.sources, "the oracle's sources");
    by_turns([
        &mut || {
            let _ = black_box(calls::form(gauge, &mut one));
        },
        &mut || {
            let _ = black_box(plain_file::form(Numbers::of(film), &mut other));
        },
    ])
}

/// The report of an accepted film's file.
pub fn report_times(file: &[u8]) -> [f64; 2] {
    let expected = report(file);
    let (mut out, mut text) = (vec![0; LONGEST], String::new());
    let length = calls::report(file, &mut out).expect("room enough");
    assert!(out[..length] == expected, "Film's report");
    plain_file::report(file, &mut text).expect("an accepted film");
    assert!(text.as_bytes() == expected, "Rust's report");
    by_turns([
        &mut || {
            let _ = black_box(calls::report(file, &mut out));
        },
        &mut || {
            let _ = black_box(plain_file::report(file, &mut text));
        },
    ])
}
