//! Film's calls on lent slices, as the package `film` makes them.

use crate::problem::Problem;
use film::raw::{self, Formed, Gauge};
use film::{Head, Steps};
use film_oracle::film::Film;

/// The numbers of a refusal: which, and where.
pub type Refused = (u32, usize);

/// What `film_run` hands back.
#[derive(Clone, Copy, Debug, PartialEq, Eq)]
pub struct Ran {
    /// 0 Done, 1 Stopped, 2 Over.
    pub answer: u32,
    pub visits: u32,
    pub raises: u32,
    /// Cells raised by line proposals.
    pub proposed: u32,
}

pub fn run(
    problem: &Problem,
    field: &mut [u32],
    budget: u32,
    order: u32,
    proposals: bool,
) -> Result<Ran, Refused> {
    let head = head(problem.rows, problem.columns, problem.ceiling);
    let mut told = raw::Ran::default();
    let number = raw::run(
        problem.lent(&head),
        field,
        budget,
        order,
        proposals,
        &mut told,
    );
    let [answer, visits, raises, proposed] = told.result;
    let ran = Ran {
        answer,
        visits,
        raises,
        proposed,
    };
    unless_refused(number, told.place, ran)
}

/// Head, wedge and steps of a film file; weights and thicknesses go to the lent buffers.
pub fn read(
    file: &[u8],
    weights: &mut [u16],
    thicknesses: &mut [u8],
) -> Result<(Head, i32, Option<Steps>), Refused> {
    let (mut head, mut wedge, mut place) = (Head::default(), 0, 0);
    let mut steps = raw::Steps::default();
    let number = raw::read(
        file,
        weights,
        thicknesses,
        &mut head,
        &mut wedge,
        &mut steps,
        &mut place,
    );
    unless_refused(number, place, (head, wedge, steps.into()))
}

/// Head of a coefficient film's file; its other numbers go to the lent buffers.
pub fn read_coefficients(file: &[u8], lent: raw::Coefficients) -> Result<Head, Refused> {
    let (mut head, mut place) = (Head::default(), 0);
    let number = raw::read_coefficients(file, lent, &mut head, &mut place);
    unless_refused(number, place, head)
}

pub fn write_coefficients(lent: raw::Problem, out: &mut [u8]) -> Result<(), Refused> {
    let mut place = 0;
    let number = raw::write_coefficients(lent, out, &mut place);
    unless_refused(number, place, ())
}

pub fn convert(gauge: Gauge, out: &mut [u8]) -> Result<(), Refused> {
    let mut place = 0;
    unless_refused(raw::convert(gauge, out, &mut place), place, ())
}

/// Lent slices for the coefficients of a film.
#[derive(Debug, PartialEq, Eq)]
pub struct Lent {
    pub diagonals: Vec<u32>,
    pub rights: Vec<u32>,
    pub ups: Vec<u32>,
    pub sources: Vec<i64>,
}

impl Lent {
    pub fn new(cells: usize) -> Lent {
        Lent {
            diagonals: vec![0; cells],
            rights: vec![0; cells],
            ups: vec![0; cells],
            sources: vec![0; cells],
        }
    }
}

pub fn form(gauge: Gauge, lent: &mut Lent) -> Result<(), Refused> {
    let formed = Formed {
        diagonals: &mut lent.diagonals,
        rights: &mut lent.rights,
        ups: &mut lent.ups,
        sources: &mut lent.sources,
    };
    let mut place = 0;
    unless_refused(raw::form(gauge, formed, &mut place), place, ())
}

/// Writes a file's report at the start of `out`; hands back its length.
pub fn report(file: &[u8], out: &mut [u8]) -> Result<usize, Refused> {
    let (mut length, mut place) = (0, 0);
    let number = raw::report(file, out, &mut length, &mut place);
    unless_refused(number, place, length)
}

/// The library's head, of the oracle's numbers.
pub fn head(rows: usize, columns: usize, ceiling: u32) -> Head {
    Head {
        rows: rows as u32,
        columns: columns as u32,
        ceiling,
    }
}

/// The library's steps, of the oracle's.
pub fn steps_of(film: &Film) -> Option<Steps> {
    film.steps.map(|steps| Steps {
        along: steps.along,
        across: steps.across,
    })
}

fn unless_refused<T>(number: u32, place: usize, answer: T) -> Result<T, Refused> {
    if number == 0 {
        Ok(answer)
    } else {
        Err((number, place))
    }
}
