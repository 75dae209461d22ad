//! From thicknesses, wedge and grid steps to the coefficients of the film equation (document 01,
//! "Coefficients"; document 02, W2).

use crate::film::{check_numbers, Film, Numbers};
use crate::{Refusal, Whole};

/// Coefficients by cell index, as the numeric calls take them.
#[derive(Clone, Debug, PartialEq, Eq)]
pub struct Coefficients {
    pub rows: usize,
    pub columns: usize,
    pub diagonals: Vec<Whole>,
    /// Link to column c + 1; 0 in the last column.
    pub rights: Vec<Whole>,
    /// Link to row r + 1; 0 in the last row.
    pub ups: Vec<Whole>,
    pub sources: Vec<Whole>,
}

/// The same coefficients as slices.
#[derive(Clone, Copy, Debug)]
pub struct System<'a> {
    pub rows: usize,
    pub columns: usize,
    pub diagonals: &'a [Whole],
    pub rights: &'a [Whole],
    pub ups: &'a [Whole],
    pub sources: &'a [Whole],
}

impl Coefficients {
    pub fn system(&self) -> System<'_> {
        System {
            rows: self.rows,
            columns: self.columns,
            diagonals: &self.diagonals,
            rights: &self.rights,
            ups: &self.ups,
            sources: &self.sources,
        }
    }
}

/// Link of two neighbours: the cube of the sum of their two thicknesses.
fn link(one: Whole, other: Whole) -> Whole {
    let sum = one + other;
    sum * sum * sum
}

/// Forms the coefficients of an accepted film. Links within a row are taken `along` times, links
/// between rows `across` times, those to the ring too; the source has neither factor.
pub fn form(film: &Film) -> Coefficients {
    let steps = film.factors();
    let (along, across) = (Whole::from(steps.along), Whole::from(steps.across));
    let mut formed = Coefficients {
        rows: film.rows,
        columns: film.columns,
        diagonals: Vec::new(),
        rights: Vec::new(),
        ups: Vec::new(),
        sources: Vec::new(),
    };
    for r in 1..=film.rows {
        for c in 1..=film.columns {
            let here = film.thickness_at(r, c);
            let before = film.thickness_at(r, c - 1);
            let after = film.thickness_at(r, c + 1);
            let below = film.thickness_at(r - 1, c);
            let above = film.thickness_at(r + 1, c);
            let (left, right) = (along * link(here, before), along * link(here, after));
            let (down, up) = (across * link(here, below), across * link(here, above));
            formed.diagonals.push(left + right + down + up);
            // Faces to the ring count in the diagonal only: ring pressure is 0.
            formed.rights.push(if c < film.columns { right } else { 0 });
            formed.ups.push(if r < film.rows { up } else { 0 });
            formed
                .sources
                .push(Whole::from(film.wedge) * (after - before));
        }
    }
    formed
}

/// The forming call on a film's numbers, with its tests; `lent` are the lengths of the slices that
/// it fills, each of which must be N.
pub fn form_call(given: Numbers, lent: &[usize]) -> Result<Coefficients, Refusal> {
    let film = check_numbers(given, |rows, columns| {
        lent.iter().all(|&length| length == rows * columns)
    })?;
    Ok(form(&film))
}
