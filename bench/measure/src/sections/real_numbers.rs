//! Film against projected relaxation in binary64.

use crate::calls;
use crate::clock::by_turns;
use crate::page::{whole, Section};
use crate::problem::{paper_problem, Problem, AMPLE};
use crate::real::{Real, Scaled};
use film_oracle::samples;

/// Sweeps end when no plain step of a sweep changes a pressure by this many steps or more. Film's
/// field passes the same rule: where a pressure is above 0, its slack is below the diagonal.
const TOLERANCE: f64 = 1.0;

/// Close enough to the real solution for distances in steps.
const EXACT: f64 = 1e-9;

const NOTE: &str = "\
`film_run` from zero to Done (order 0, no proposals) and projected relaxation in binary64 from zero: Gauss–Seidel
(ω = 1), and SOR with that ω from 1.00 to 1.98, in steps of 0.02, which needs the fewest sweeps. The search for
ω is not timed, nor is the division of the matrix's rows by their diagonals, made beforehand for both. Stop: a
sweep in which no plain step would change a pressure by one pressure step or more. Film's least field keeps that
rule at every cell, which is checked. A round is N relaxations. `off` is the largest distance from the real
solution in pressure steps, `peak` the greatest pressure in them; Film's field is nowhere below the real one,
which is checked. Fields are cleared before each run, in the time of all sides. 002 is source paper 002's
bearing (ε = 0.8, D/L = 1), its own matrix in whole numbers and its pressures in thousandths.";

const HEADS: [&str; 12] = [
    "problem",
    "other",
    "ω",
    "Film rounds",
    "sweeps",
    "ratio",
    "Film µs",
    "other µs",
    "time ratio",
    "Film off",
    "other off",
    "peak",
];

pub fn section() -> Section {
    let problems = [
        (
            "tilted-pad.film, 16 × 24",
            Problem::of_film(&samples::tilted_pad()),
        ),
        (
            "journal.film, 16 × 32",
            Problem::of_film(&samples::journal()),
        ),
        ("002, n = 15", paper_problem(15)),
        ("002, n = 31", paper_problem(31)),
    ];
    Section {
        title: "2. Against binary64",
        note: NOTE.to_string(),
        heads: HEADS.to_vec(),
        rows: problems
            .iter()
            .flat_map(|(name, problem)| rows(name, problem))
            .collect(),
    }
}

/// What one side did: its rounds or sweeps, its time and its distance from the real solution.
struct Side {
    sweeps: f64,
    time: f64,
    off: f64,
}

fn rows(name: &str, problem: &Problem) -> [Vec<String>; 2] {
    let scaled = Scaled::of(&Real::of(problem));
    let factor =
        scaled.best_factor(|scaled, factor| scaled.sor(&mut scaled.zeros(), factor, TOLERANCE));
    let (mut field, mut even, mut over) = (problem.zeros(), scaled.zeros(), scaled.zeros());
    let (mut ran, mut even_sweeps, mut over_sweeps) = (Err((0, 0)), 0, 0);
    let [film_time, even_time, over_time] = by_turns([
        &mut || {
            field.fill(0);
            ran = calls::run(problem, &mut field, AMPLE, 0, false);
        },
        &mut || {
            even.fill(0.0);
            even_sweeps = scaled.gauss_seidel(&mut even, TOLERANCE);
        },
        &mut || {
            over.fill(0.0);
            over_sweeps = scaled.sor(&mut over, factor, TOLERANCE);
        },
    ]);
    let visits = ran.expect("an accepted film").visits;
    let exact = exact(&scaled, factor);
    let ringed = scaled.ringed(&field);
    check(&scaled, &ringed, &exact);
    let side = |sweeps: f64, time: f64, field: &[f64]| Side {
        sweeps,
        time,
        off: distance(field, &exact),
    };
    let film = side(
        f64::from(visits) / problem.cells() as f64,
        film_time,
        &ringed,
    );
    let even = side(even_sweeps.into(), even_time, &even);
    let over = side(over_sweeps.into(), over_time, &over);
    let peak = field.iter().max().copied().unwrap_or(0);
    [
        row(name, "Gauss–Seidel", 1.0, &film, &even, peak),
        row(name, "SOR", factor, &film, &over, peak),
    ]
}

fn row(name: &str, other: &str, factor: f64, film: &Side, side: &Side, peak: u32) -> Vec<String> {
    vec![
        name.to_string(),
        other.to_string(),
        format!("{factor:.2}"),
        format!("{:.1}", film.sweeps),
        format!("{}", side.sweeps),
        format!("{:.2}", film.sweeps / side.sweeps),
        format!("{:.1}", film.time / 1e3),
        format!("{:.1}", side.time / 1e3),
        format!("{:.2}", film.time / side.time),
        format!("{:.1}", film.off),
        format!("{:.1}", side.off),
        whole(peak),
    ]
}

fn exact(scaled: &Scaled, factor: f64) -> Vec<f64> {
    let mut field = scaled.zeros();
    scaled.sor(&mut field, factor, EXACT);
    field
}

/// The sides agree: Film's field keeps the stopping rule and is nowhere below the real solution.
fn check(scaled: &Scaled, film: &[f64], exact: &[f64]) {
    assert!(scaled.largest_residual(film) < TOLERANCE, "Film's residual");
    let above = film
        .iter()
        .zip(exact)
        .all(|(film, real)| *film > real - 1e-3);
    assert!(above, "Film's field is below the real solution");
}

fn distance(field: &[f64], exact: &[f64]) -> f64 {
    let apart = field
        .iter()
        .zip(exact)
        .map(|(one, other)| (one - other).abs());
    apart.fold(0.0, f64::max)
}
