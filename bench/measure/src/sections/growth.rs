//! How the time of a run to Done grows with the number of cells.

use crate::calls;
use crate::clock::by_turns;
use crate::page::{percent, remark, whole, Section};
use crate::plain;
use crate::problem::{journal, Problem, AMPLE};
use crate::sections::relaxations::agreed;

const SIZES: [usize; 7] = [4, 8, 12, 16, 20, 24, 32];

const NOTE: &str = "\
One journal bearing (ε = 0.8) gauged ever finer: `film_run` from zero to Done (order 0, no proposals) and plain
Rust doing the same, tests of its input and table of the ordering included. The field is cleared before each
run, in the time of both. The exponent is k where Film's time grew as N to the k since the row above.";

pub fn section() -> Section {
    let mut rows = Vec::new();
    let mut before = None;
    for n in SIZES {
        let problem = Problem::of_film(&journal(n));
        let [film, rust] = times(&problem);
        rows.push(row(&problem, film, rust, before));
        before = Some((problem.cells(), film));
    }
    Section {
        title: "5. Growth with the grid",
        note: NOTE.to_string(),
        heads: vec![
            "cells",
            "visits",
            "raises",
            "peak",
            "Film µs",
            "Rust µs",
            "time ratio",
            "Film ns a visit",
            "Rust ns a visit",
            "exponent",
            "",
        ],
        rows,
    }
}

fn times(problem: &Problem) -> [f64; 2] {
    let (mut field, mut other) = (problem.zeros(), problem.zeros());
    by_turns([
        &mut || {
            field.fill(0);
            let _ = calls::run(problem, &mut field, AMPLE, 0, false);
        },
        &mut || {
            other.fill(0);
            plain::tested_run(problem.system(), &mut other, AMPLE);
        },
    ])
}

fn row(problem: &Problem, film: f64, rust: f64, before: Option<(usize, f64)>) -> Vec<String> {
    let counts = agreed(problem, AMPLE);
    let visits = f64::from(counts.visits);
    let exponent = |(cells, time): (usize, f64)| {
        (film / time).ln() / (problem.cells() as f64 / cells as f64).ln()
    };
    vec![
        format!(
            "{} × {} = {}",
            problem.rows,
            problem.columns,
            problem.cells()
        ),
        whole(counts.visits),
        percent(counts.raises, counts.visits),
        whole(peak(problem)),
        format!("{:.1}", film / 1e3),
        format!("{:.1}", rust / 1e3),
        format!("{:.3}", film / rust),
        format!("{:.2}", film / visits),
        format!("{:.2}", rust / visits),
        before.map_or(String::new(), |before| format!("{:.2}", exponent(before))),
        remark(film / rust),
    ]
}

fn peak(problem: &Problem) -> u32 {
    let mut field = problem.zeros();
    plain::tested_run(problem.system(), &mut field, AMPLE).expect("an accepted film");
    field.into_iter().max().unwrap_or(0)
}
