//! The tests of the calls that take coefficients (document 01, "Refusals"): 4, 5, 10, 14, 6, 9,
//! 11, 12, 13, as far as the call has such an input. The first met wins, at its lowest place.

use crate::coefficients::System;
use crate::relax::first_not_dominant;
use crate::run::Ordering;
use crate::{refuse, Refusal, Whole};

const LARGEST_SIDE: Whole = 32;
const LARGEST_CEILING: Whole = 16_777_216;

/// The limits of coefficients, for every call and for coefficient files (document 02, W2): a link is
/// at most the cube of 256 taken four times, and a diagonal has four links.
pub const LARGEST_DIAGONAL: Whole = 268_435_456;
pub const LARGEST_LINK: Whole = 67_108_864;
pub const LARGEST_SOURCE: Whole = 1_125_899_906_842_624;

/// What a call was given; an input that the call doesn't have is None.
#[derive(Clone, Copy, Default)]
pub struct Given<'a> {
    pub rows: Whole,
    pub columns: Whole,
    pub ceiling: Option<Whole>,
    pub diagonals: Option<&'a [Whole]>,
    pub rights: Option<&'a [Whole]>,
    pub ups: Option<&'a [Whole]>,
    pub sources: Option<&'a [Whole]>,
    pub weights: Option<&'a [u16]>,
    /// Start pressures.
    pub field: Option<&'a [u32]>,
    /// Lengths of further lent slices that must be N.
    pub cell_lengths: &'a [usize],
    /// Lengths of lent slices that must be C: an offer, whatever the line.
    pub line_lengths: &'a [usize],
    pub ordering: Option<Whole>,
    pub line: Option<Whole>,
    pub cell: Option<Whole>,
}

/// The first refusal that the inputs meet.
pub fn check(given: &Given) -> Result<(), Refusal> {
    check_shape(given)?;
    check_ceiling(given)?;
    check_lengths(given)?;
    check_coefficients(given)?;
    check_weights(given)?;
    check_dominance(given)?;
    check_ordering(given)?;
    check_start(given)?;
    check_place(given)
}

fn cells(given: &Given) -> usize {
    (given.rows * given.columns) as usize
}

fn check_shape(given: &Given) -> Result<(), Refusal> {
    let sides = 1..=LARGEST_SIDE;
    if sides.contains(&given.rows) && sides.contains(&given.columns) {
        Ok(())
    } else {
        refuse(4, 0)
    }
}

fn check_ceiling(given: &Given) -> Result<(), Refusal> {
    match given.ceiling {
        Some(ceiling) if !(1..=LARGEST_CEILING).contains(&ceiling) => refuse(5, 0),
        _ => Ok(()),
    }
}

fn check_lengths(given: &Given) -> Result<(), Refusal> {
    let coefficients = [given.diagonals, given.rights, given.ups, given.sources];
    let mut by_cell: Vec<usize> = coefficients.iter().flatten().map(|s| s.len()).collect();
    by_cell.extend(given.weights.map(|s| s.len()));
    by_cell.extend(given.field.map(|s| s.len()));
    by_cell.extend(given.cell_lengths);
    let fits = by_cell.iter().all(|&length| length == cells(given))
        && given
            .line_lengths
            .iter()
            .all(|&length| length as Whole == given.columns);
    if fits {
        Ok(())
    } else {
        refuse(10, 0)
    }
}

/// Refusal 14 of a film's coefficients, at the lowest cell over all four lists.
pub fn check_limits(system: System) -> Result<(), Refusal> {
    check_coefficients(&Given {
        rows: system.rows as Whole,
        columns: system.columns as Whole,
        diagonals: Some(system.diagonals),
        rights: Some(system.rights),
        ups: Some(system.ups),
        sources: Some(system.sources),
        ..Given::default()
    })
}

fn check_coefficients(given: &Given) -> Result<(), Refusal> {
    match (0..cells(given)).find(|&cell| !coefficients_fit(given, cell)) {
        Some(cell) => refuse(14, cell),
        None => Ok(()),
    }
}

/// All four coefficients of a cell keep their limits.
fn coefficients_fit(given: &Given, cell: usize) -> bool {
    let last_column = (cell as Whole + 1) % given.columns == 0;
    let last_row = cell as Whole / given.columns == given.rows - 1;
    let within = |slice: Option<&[Whole]>, least: Whole, most: Whole| {
        slice.is_none_or(|numbers| (least..=most).contains(&numbers[cell]))
    };
    within(given.diagonals, 1, LARGEST_DIAGONAL)
        && within(given.rights, 0, if last_column { 0 } else { LARGEST_LINK })
        && within(given.ups, 0, if last_row { 0 } else { LARGEST_LINK })
        && within(given.sources, -LARGEST_SOURCE, LARGEST_SOURCE)
}

fn check_weights(given: &Given) -> Result<(), Refusal> {
    let weights = given.weights.unwrap_or(&[]);
    match weights.iter().position(|&weight| weight == 0) {
        Some(cell) => refuse(6, cell),
        None => Ok(()),
    }
}

fn check_dominance(given: &Given) -> Result<(), Refusal> {
    let (Some(diagonals), Some(rights), Some(ups), Some(weights)) =
        (given.diagonals, given.rights, given.ups, given.weights)
    else {
        return Ok(());
    };
    let system = System {
        rows: given.rows as usize,
        columns: given.columns as usize,
        diagonals,
        rights,
        ups,
        sources: &[],
    };
    match first_not_dominant(system, weights) {
        Some(cell) => refuse(9, cell),
        None => Ok(()),
    }
}

fn check_ordering(given: &Given) -> Result<(), Refusal> {
    match given.ordering {
        Some(number) if Ordering::from_number(number).is_none() => refuse(11, 0),
        _ => Ok(()),
    }
}

fn check_start(given: &Given) -> Result<(), Refusal> {
    let (Some(field), Some(ceiling)) = (given.field, given.ceiling) else {
        return Ok(());
    };
    match field.iter().position(|&p| Whole::from(p) > ceiling) {
        Some(cell) => refuse(12, cell),
        None => Ok(()),
    }
}

fn check_place(given: &Given) -> Result<(), Refusal> {
    let line_fits = given.line.is_none_or(|l| (1..=given.rows).contains(&l));
    let cell_fits = given
        .cell
        .is_none_or(|i| (0..given.rows * given.columns).contains(&i));
    if line_fits && cell_fits {
        Ok(())
    } else {
        refuse(13, 0)
    }
}
