//! One relaxation of Film's run and of the same loop in Rust.

use crate::calls;
use crate::clock::by_turns;
use crate::page::{percent, remark, whole, Section};
use crate::plain::{self, Ran};
use crate::problem::{journal, short_wedge, Problem};
use film_oracle::samples;

/// Few enough for short turns.
const BUDGET: u32 = 400_000;

const NOTE: &str = "\
`film_run` (order 0, no proposals) and plain Rust -O3 doing the same: the tests of its input, the table of the
ordering, and the same loop, with `get_unchecked` where Film's index is proved. Millions of relaxations a second.
The field is cleared before each run, in the time of both sides.";

pub fn section() -> Section {
    let films = [
        ("quiet-heavy: a short wedge, 32 × 32", short_wedge()),
        ("mixed: journal bearing, 32 × 32", journal(32)),
        ("raise-heavy: stopped.film, 32 × 32", samples::stopped()),
    ];
    let row = |(name, film)| row(name, &Problem::of_film(&film));
    Section {
        title: "1. Relaxations a second",
        note: NOTE.to_string(),
        heads: vec![
            "film",
            "relaxations",
            "raises",
            "Film M/s",
            "Rust M/s",
            "time ratio",
            "",
        ],
        rows: films.into_iter().map(row).collect(),
    }
}

fn row(name: &str, problem: &Problem) -> Vec<String> {
    let counts = agreed(problem, BUDGET);
    let (mut one, mut other) = (problem.zeros(), problem.zeros());
    let [film, rust] = by_turns([
        &mut || {
            one.fill(0);
            let _ = calls::run(problem, &mut one, BUDGET, 0, false);
        },
        &mut || {
            other.fill(0);
            plain::tested_run(problem.system(), &mut other, BUDGET);
        },
    ]);
    let speed = |time: f64| format!("{:.1}", 1e3 * f64::from(counts.visits) / time);
    vec![
        name.to_string(),
        whole(counts.visits),
        percent(counts.raises, counts.visits),
        speed(film),
        speed(rust),
        format!("{:.3}", film / rust),
        remark(film / rust),
    ]
}

/// Film, plain Rust and the oracle make the same relaxations and leave the same field.
pub fn agreed(problem: &Problem, budget: u32) -> Ran {
    let (outcome, expected) = problem.oracle_run(budget, 0, false);
    let mut field = problem.zeros();
    let ran = calls::run(problem, &mut field, budget, 0, false).expect("an accepted film");
    let same = (ran.visits, ran.raises) == (outcome.visits, outcome.raises);
    assert!(same && field == expected, "film_run and the oracle");
    let mut field = problem.zeros();
    let ran = plain::tested_run(problem.system(), &mut field, budget).expect("an accepted film");
    let same = (ran.visits, ran.raises) == (outcome.visits, outcome.raises);
    assert!(same && field == expected, "plain Rust and the oracle");
    ran
}
