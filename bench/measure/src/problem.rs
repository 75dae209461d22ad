//! The problems that are measured, as the numeric calls take them.

use crate::real::Real;
use film::{raw, Head};
use film_oracle::coefficients::{form, Coefficients};
use film_oracle::film::Film;
use film_oracle::run::{run, Answer, Ordering, Outcome};
use film_oracle::samples::{made, HIGHEST};
use film_oracle::Whole;
use std::f64::consts::PI;
use std::fmt::Debug;

/// More relaxations than any run to Done here needs.
pub const AMPLE: u32 = u32::MAX;

pub struct Problem {
    pub rows: usize,
    pub columns: usize,
    pub ceiling: u32,
    pub weights: Vec<u16>,
    pub diagonals: Vec<u32>,
    pub rights: Vec<u32>,
    pub ups: Vec<u32>,
    pub sources: Vec<i64>,
    /// The same coefficients for the oracle.
    formed: Coefficients,
}

/// The same as slices.
#[derive(Clone, Copy)]
pub struct System<'a> {
    pub rows: usize,
    pub columns: usize,
    pub ceiling: u32,
    pub weights: &'a [u16],
    pub diagonals: &'a [u32],
    pub rights: &'a [u32],
    pub ups: &'a [u32],
    pub sources: &'a [i64],
}

impl System<'_> {
    /// Every slice has N numbers.
    pub fn fits(&self, n: usize) -> bool {
        let links = [self.diagonals.len(), self.rights.len(), self.ups.len()];
        links == [n; 3] && [self.weights.len(), self.sources.len()] == [n; 2]
    }
}

impl Problem {
    pub fn of_film(film: &Film) -> Problem {
        Problem::new(film.ceiling, film.weights.clone(), form(film))
    }

    fn new(ceiling: u32, weights: Vec<u16>, formed: Coefficients) -> Problem {
        Problem {
            rows: formed.rows,
            columns: formed.columns,
            ceiling,
            weights,
            diagonals: narrow(&formed.diagonals),
            rights: narrow(&formed.rights),
            ups: narrow(&formed.ups),
            sources: narrow(&formed.sources),
            formed,
        }
    }

    pub fn cells(&self) -> usize {
        self.rows * self.columns
    }

    pub fn system(&self) -> System<'_> {
        System {
            rows: self.rows,
            columns: self.columns,
            ceiling: self.ceiling,
            weights: &self.weights,
            diagonals: &self.diagonals,
            rights: &self.rights,
            ups: &self.ups,
            sources: &self.sources,
        }
    }

    /// The same as the library's calls take it.
    pub fn lent<'a>(&'a self, head: &'a Head) -> raw::Problem<'a> {
        raw::Problem {
            head,
            weights: &self.weights,
            diagonals: &self.diagonals,
            rights: &self.rights,
            ups: &self.ups,
            sources: &self.sources,
        }
    }

    /// A field of zeros, where every run here starts.
    pub fn zeros(&self) -> Vec<u32> {
        vec![0; self.cells()]
    }

    /// The oracle's run from zero, against which Film's is checked.
    pub fn oracle_run(&self, budget: u32, order: u32, proposals: bool) -> (Outcome, Vec<u32>) {
        let mut field = self.zeros();
        let outcome = run(
            self.formed.system(),
            self.ceiling,
            &self.weights,
            &mut field,
            budget,
            Ordering::from_number(order.into()).expect("0, 1 or 2"),
            proposals,
        );
        (outcome, field)
    }
}

fn narrow<T>(numbers: &[Whole]) -> Vec<T>
where
    T: TryFrom<Whole>,
    T::Error: Debug,
{
    let fits = |&number| T::try_from(number).expect("within the limits of document 01");
    numbers.iter().map(fits).collect()
}

/// A full journal bearing of n × n cells, thickness 70 × (1 + 0.8 cos θ) rounded. The wedge falls
/// with the step of the grid, so that every size is the same bearing at about the same pressure.
pub fn journal(n: usize) -> Film {
    let wedge = 1_600_000_000 / (n as i32 + 1);
    made((n, n), HIGHEST, wedge, |_, c| {
        let theta = 2.0 * PI * c as f64 / (n as f64 + 1.0);
        (70.0 * (1.0 + 0.8 * theta.cos())).round() as u8
    })
}

/// A pad that converges over its first columns and diverges slowly over the others, which stay at
/// zero: most relaxations are quiet.
pub fn short_wedge() -> Film {
    made((32, 32), HIGHEST, 50_000_000, |_, c| {
        if c < 6 {
            70 - 10 * c as u8
        } else {
            14 + 3 * c as u8
        }
    })
}

/// A converging pad under a wedge that lifts nothing: Done after one quiet round, with long slacks.
pub fn at_rest() -> Film {
    made((32, 32), HIGHEST, -100_000_000, |_, c| 119 - 3 * c as u8)
}

/// The journal bearing of source paper 002 at n × n, its own matrix (15) and (16): ε = 0.8, D/L = 1.
/// Its blocks are lines along the axis, so a row here is such a line and θ runs over the rows.
pub fn paper_bearing(n: usize) -> Real {
    let along = PI / (n as f64 + 1.0);
    let across = 1.0 / (n as f64 + 1.0);
    let thickness = |at: f64| (1.0 + 0.8 * (2.0 * along * at).cos()) / 2.0;
    let axial = |at: f64| thickness(at).powi(3) / (across * across);
    let turning = |at: f64| thickness(at).powi(3) / (along * along);
    Real::new(n, n, |row, column| {
        let at = row as f64 + 1.0;
        let sides = 2.0 * axial(at);
        let ends = turning(at - 0.5) + turning(at + 0.5);
        let rise = thickness(at + 0.5) - thickness(at - 0.5);
        let right = if column + 1 < n { axial(at) } else { 0.0 };
        let up = if row + 1 < n { turning(at + 0.5) } else { 0.0 };
        [sides + ends, right, up, 6.0 * PI * rise / along]
    })
}

/// Source paper 002's bearing for Film: links up to 2²⁴, pressures in thousandths.
pub fn paper_problem(n: usize) -> Problem {
    rounded(&paper_bearing(n), 20_000.0, 1_000.0)
}

/// A real problem in whole numbers: coefficients `scale` times, pressures in steps of 1 / `steps`.
fn rounded(real: &Real, scale: f64, steps: f64) -> Problem {
    let whole = |numbers: &[f64], by: f64| -> Vec<Whole> {
        let near = |number: &f64| (number * by).round() as Whole;
        numbers.iter().map(near).collect()
    };
    let mut formed = Coefficients {
        rows: real.rows,
        columns: real.columns,
        diagonals: whole(&real.boundary(), scale),
        rights: whole(&real.rights, scale),
        ups: whole(&real.ups, scale),
        sources: whole(&real.sources, scale * steps),
    };
    add_links(&mut formed);
    Problem::new(HIGHEST, least_weights(&formed), formed)
}

/// Adds the rounded links of a cell to its diagonal, which holds those to the ring alone.
fn add_links(formed: &mut Coefficients) {
    for cell in 0..formed.diagonals.len() {
        for (link, step) in [(formed.rights[cell], 1), (formed.ups[cell], formed.columns)] {
            if link > 0 {
                formed.diagonals[cell] += link;
                formed.diagonals[cell + step] += link;
            }
        }
    }
}

/// The least whole vector whose weighted row sums are all at least 1.
fn least_weights(formed: &Coefficients) -> Vec<u16> {
    let mut unit = formed.clone();
    unit.sources.fill(-1);
    let mut field = vec![0; unit.sources.len()];
    let ceiling = u16::MAX.into();
    let outcome = run(
        unit.system(),
        ceiling,
        &[],
        &mut field,
        AMPLE,
        Ordering::Forward,
        false,
    );
    assert!(outcome.answer == Answer::Done, "a weight above 65,535");
    field.iter().map(|&weight| weight as u16).collect()
}
