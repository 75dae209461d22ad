//! Runs to Done with and without line proposals, by each ordering.

use crate::calls::{self, Ran};
use crate::clock::by_turns;
use crate::page::{whole, Section};
use crate::problem::{journal, paper_bearing, paper_problem, Problem, AMPLE};
use crate::real::Scaled;
use film_oracle::run::Answer;
use film_oracle::samples;

/// Source paper 002, Table 1: iterations of its block method (BSORF) and of point SOR.
const TABLE_1: [(usize, &str); 2] = [(15, "18, 43"), (31, "37, 87")];

const NOTE: &str = "\
`film_run` from zero to Done by orders 0, 1 and 2, without proposals and with them (each line proposed once, then
visits). Both ratios are `with` by `without`. All six runs of a problem end in the same field, and their counts
are the oracle's, which is checked. A round is N visits. The field is cleared before each run, in the time of
both. 002 is source paper 002's bearing (ε = 0.8, D/L = 1), its own matrix in whole numbers, a row for each of
its blocks and pressures in thousandths; `as a film` is that bearing gauged at equal steps (D/L = 1/π), thickness
70 × (1 + 0.8 cos θ) rounded. Beside them the paper's Table 1: iterations of its block method and of point SOR,
each at its best ω, until the largest residual is below 10⁻⁷.";

const HEADS: [&str; 12] = [
    "problem",
    "order",
    "visits without",
    "visits with",
    "ratio",
    "rounds without",
    "rounds with",
    "raised by proposals",
    "µs without",
    "µs with",
    "time ratio",
    "Table 1: block, point",
];

pub fn section() -> Section {
    let mut problems = vec![
        (
            "tilted-pad.film, 16 × 24".to_string(),
            Problem::of_film(&samples::tilted_pad()),
            "",
        ),
        (
            "journal.film, 16 × 32".to_string(),
            Problem::of_film(&samples::journal()),
            "",
        ),
    ];
    for (n, iterations) in TABLE_1 {
        problems.push((format!("002, n = {n}"), paper_problem(n), iterations));
        problems.push((
            format!("002 as a film, n = {n}"),
            Problem::of_film(&journal(n)),
            iterations,
        ));
    }
    let rows =
        |(name, problem, iterations): &(String, Problem, &str)| rows(name, problem, iterations);
    Section {
        title: "3. Line proposals",
        note: format!("{NOTE}\n{}", rebuilt()),
        heads: HEADS.to_vec(),
        rows: problems.iter().flat_map(rows).collect(),
    }
}

/// How the paper's problem, rebuilt from its text, behaves under its own rule.
fn rebuilt() -> String {
    let told = TABLE_1.map(|(n, _)| {
        let scaled = Scaled::of(&paper_bearing(n));
        let factor = scaled.best_factor(Scaled::paper_sor);
        format!(
            "{} at ω = {factor:.2} for n = {n}",
            scaled.paper_sor(factor)
        )
    });
    format!(
        "Point SOR in binary64 under that rule, on the matrix as the paper prints it, takes here\n{}.",
        told.join(" and ")
    )
}

fn rows(name: &str, problem: &Problem, iterations: &str) -> Vec<Vec<String>> {
    (0..3)
        .map(|order| row(name, problem, order, iterations))
        .collect()
}

fn row(name: &str, problem: &Problem, order: u32, iterations: &str) -> Vec<String> {
    let without = agreed(problem, order, false);
    let with = agreed(problem, order, true);
    let (mut field, mut other) = (problem.zeros(), problem.zeros());
    let [with_time, without_time] = by_turns([
        &mut || {
            field.fill(0);
            let _ = calls::run(problem, &mut field, AMPLE, order, true);
        },
        &mut || {
            other.fill(0);
            let _ = calls::run(problem, &mut other, AMPLE, order, false);
        },
    ]);
    assert!(field == other, "one least field");
    let rounds = |ran: Ran| format!("{:.1}", f64::from(ran.visits) / problem.cells() as f64);
    vec![
        name.to_string(),
        order.to_string(),
        whole(without.visits),
        whole(with.visits),
        format!("{:.3}", f64::from(with.visits) / f64::from(without.visits)),
        rounds(without),
        rounds(with),
        whole(with.proposed),
        format!("{:.1}", without_time / 1e3),
        format!("{:.1}", with_time / 1e3),
        format!("{:.3}", with_time / without_time),
        iterations.to_string(),
    ]
}

/// Film's run and the oracle's have the same counts and end in the one least field.
fn agreed(problem: &Problem, order: u32, proposals: bool) -> Ran {
    let (outcome, expected) = problem.oracle_run(AMPLE, order, proposals);
    let mut field = problem.zeros();
    let ran = calls::run(problem, &mut field, AMPLE, order, proposals).expect("an accepted film");
    let told = Ran {
        answer: 0,
        visits: outcome.visits,
        raises: outcome.raises,
        proposed: outcome.proposed,
    };
    assert!(
        outcome.answer == Answer::Done && ran == told,
        "the oracle's counts"
    );
    let (_, least) = problem.oracle_run(AMPLE, 0, false);
    assert!(field == expected && field == least, "the least field");
    ran
}
