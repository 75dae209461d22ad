//! The inputs of calls: a film as it was gauged, and as coefficients.

use crate::lent::{Differences, Lent};
use film::{raw, Head};
use film_oracle::calls::Problem as OracleProblem;
use film_oracle::coefficient_film::{convert, CoefficientFilm};
use film_oracle::coefficients::{Coefficients, System};
use film_oracle::film::{Film, Numbers as OracleNumbers, Steps};
use film_oracle::Whole;

/// The numbers of a film file, or what a caller gives for them.
#[derive(Clone, Debug)]
pub struct Gauge {
    pub head: Head,
    pub weights: Vec<u16>,
    pub thicknesses: Vec<u8>,
    pub wedge: i32,
    pub steps: raw::Steps,
}

impl From<&Film> for Gauge {
    fn from(film: &Film) -> Gauge {
        Gauge {
            head: head(film.rows, film.columns, film.ceiling),
            weights: film.weights.clone(),
            thicknesses: film.thickness.clone(),
            wedge: film.wedge,
            steps: steps(film.steps, UNREAD_STEPS),
        }
    }
}

impl Gauge {
    /// Steps that are given; what is lent for others is not looked at.
    pub fn given_steps(&self) -> Option<Steps> {
        let raw::Steps {
            given,
            along,
            across,
        } = self.steps;
        (given != 0).then_some(Steps { along, across })
    }

    /// As the oracle takes them.
    pub fn oracle(&self) -> OracleNumbers<'_> {
        OracleNumbers {
            rows: self.head.rows.into(),
            columns: self.head.columns.into(),
            ceiling: self.head.ceiling,
            weights: &self.weights,
            thickness: &self.thicknesses,
            wedge: self.wedge,
            steps: self.given_steps(),
        }
    }
}

/// What is lent where a film has no steps: outside 1..4, so that a call which looks at them shows.
const UNREAD_STEPS: raw::Steps = raw::Steps {
    given: 0,
    along: 0,
    across: 0xdead_beef,
};

/// The library's steps: those of the oracle, or of what is lent the mark alone that there are none.
pub fn steps(steps: Option<Steps>, lent: raw::Steps) -> raw::Steps {
    match steps {
        Some(Steps { along, across }) => raw::Steps {
            given: 1,
            along,
            across,
        },
        None => raw::Steps { given: 0, ..lent },
    }
}

/// A film as coefficients, or what a caller gives for them.
#[derive(Clone, Debug, Default)]
pub struct Problem {
    pub head: Head,
    pub weights: Vec<u16>,
    pub diagonals: Vec<u32>,
    pub rights: Vec<u32>,
    pub ups: Vec<u32>,
    pub sources: Vec<i64>,
}

impl From<&CoefficientFilm> for Problem {
    fn from(film: &CoefficientFilm) -> Problem {
        let coefficients = &film.coefficients;
        Problem {
            head: head(film.rows(), film.columns(), film.ceiling),
            weights: film.weights.clone(),
            diagonals: coefficients.diagonals.iter().map(|&d| d as u32).collect(),
            rights: coefficients
                .rights
                .iter()
                .map(|&link| link as u32)
                .collect(),
            ups: coefficients.ups.iter().map(|&link| link as u32).collect(),
            sources: coefficients.sources.iter().map(|&s| s as i64).collect(),
        }
    }
}

impl From<&Film> for Problem {
    fn from(film: &Film) -> Problem {
        Problem::from(&convert(film))
    }
}

impl Problem {
    /// N, where the shape is a good one.
    pub fn cells(&self) -> usize {
        self.head.rows as usize * self.head.columns as usize
    }

    /// As the oracle has a coefficient file's numbers, tested or not.
    pub fn film(&self) -> CoefficientFilm {
        CoefficientFilm {
            ceiling: self.head.ceiling,
            weights: self.weights.clone(),
            coefficients: Coefficients {
                rows: self.head.rows as usize,
                columns: self.head.columns as usize,
                diagonals: wide(&self.diagonals),
                rights: wide(&self.rights),
                ups: wide(&self.ups),
                sources: wide(&self.sources),
            },
        }
    }
}

/// The same coefficients for both sides.
pub struct Sides {
    pub plain: Problem,
    // The oracle's, in its wide numbers.
    diagonals: Vec<Whole>,
    rights: Vec<Whole>,
    ups: Vec<Whole>,
    sources: Vec<Whole>,
    /// Those lent to the library.
    lent: LentProblem,
}

struct LentProblem {
    head: Head,
    weights: Lent<u16>,
    diagonals: Lent<u32>,
    rights: Lent<u32>,
    ups: Lent<u32>,
    sources: Lent<i64>,
}

impl Sides {
    pub fn new(plain: Problem) -> Sides {
        let lent = plain.clone();
        Sides::read(plain, &lent)
    }

    /// Each side has its own numbers: the oracle's, and those that the library has read.
    pub fn read(plain: Problem, lent: &Problem) -> Sides {
        Sides {
            diagonals: wide(&plain.diagonals),
            rights: wide(&plain.rights),
            ups: wide(&plain.ups),
            sources: wide(&plain.sources),
            lent: LentProblem {
                head: lent.head,
                weights: Lent::new(&lent.weights, 1),
                diagonals: Lent::new(&lent.diagonals, 77),
                rights: Lent::new(&lent.rights, 77),
                ups: Lent::new(&lent.ups, 77),
                sources: Lent::new(&lent.sources, -77),
            },
            plain,
        }
    }

    pub fn oracle(&self) -> OracleProblem<'_> {
        OracleProblem {
            rows: self.plain.head.rows.into(),
            columns: self.plain.head.columns.into(),
            ceiling: self.plain.head.ceiling.into(),
            diagonals: &self.diagonals,
            rights: &self.rights,
            ups: &self.ups,
            sources: &self.sources,
            weights: &self.plain.weights,
        }
    }

    pub fn library(&self) -> raw::Problem<'_> {
        raw::Problem {
            head: &self.lent.head,
            weights: self.lent.weights.slice(),
            diagonals: self.lent.diagonals.slice(),
            rights: self.lent.rights.slice(),
            ups: self.lent.ups.slice(),
            sources: self.lent.sources.slice(),
        }
    }

    /// No call changes a film's numbers.
    pub fn compare(&self, differences: &mut Differences) {
        let (plain, lent) = (&self.plain, &self.lent);
        differences.same("head", plain.head, lent.head);
        differences.lent("weights", &plain.weights, &lent.weights);
        differences.lent("diagonals", &plain.diagonals, &lent.diagonals);
        differences.lent("rights", &plain.rights, &lent.rights);
        differences.lent("ups", &plain.ups, &lent.ups);
        differences.lent("sources", &plain.sources, &lent.sources);
    }

    /// The coefficients of a good shape, for the oracle's parts below its calls.
    pub fn system(&self) -> System<'_> {
        System {
            rows: self.plain.head.rows as usize,
            columns: self.plain.head.columns as usize,
            diagonals: &self.diagonals,
            rights: &self.rights,
            ups: &self.ups,
            sources: &self.sources,
        }
    }
}

/// The library's head, of the oracle's numbers.
pub fn head(rows: usize, columns: usize, ceiling: u32) -> Head {
    Head {
        rows: rows as u32,
        columns: columns as u32,
        ceiling,
    }
}

fn wide<T: Copy + Into<Whole>>(numbers: &[T]) -> Vec<Whole> {
    numbers.iter().map(|&number| number.into()).collect()
}
