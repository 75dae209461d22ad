//! Slack, required pressure and relaxation of one cell (document 01, "Coefficients" and
//! "A visit").

use crate::coefficients::System;
use crate::Whole;

/// Neighbours of a cell inside the grid, with the link to each: before, after, below, above.
pub fn neighbours(system: System<'_>, cell: usize) -> impl Iterator<Item = (usize, Whole)> + '_ {
    let columns = system.columns;
    let (row, column) = (cell / columns, cell % columns);
    let before = (column > 0).then(|| (cell - 1, system.rights[cell - 1]));
    let after = (column + 1 < columns).then(|| (cell + 1, system.rights[cell]));
    let below = (row > 0).then(|| (cell - columns, system.ups[cell - columns]));
    let above = (row + 1 < system.rows).then(|| (cell + columns, system.ups[cell]));
    [before, after, below, above].into_iter().flatten()
}

/// Sum of link × neighbour's value inside the grid.
pub fn pull<T: Copy + Into<Whole>>(system: System, values: &[T], cell: usize) -> Whole {
    neighbours(system, cell)
        .map(|(other, link)| link * values[other].into())
        .sum()
}

/// Document 01: spare. Diagonal × pressure − pull + source.
pub fn slack(system: System, field: &[u32], cell: usize) -> Whole {
    system.diagonals[cell] * Whole::from(field[cell]) - pull(system, field, cell)
        + system.sources[cell]
}

/// Document 01: weighted row sum. The slack with weights for pressures and source 0.
pub fn dominance(system: System, weights: &[u16], cell: usize) -> Whole {
    system.diagonals[cell] * Whole::from(weights[cell]) - pull(system, weights, cell)
}

/// The lowest cell whose weighted row sum is below 1.
pub fn first_not_dominant(system: System, weights: &[u16]) -> Option<usize> {
    (0..weights.len()).find(|&cell| dominance(system, weights, cell) < 1)
}

/// Document 01: need. The least whole number, not below 0, that makes the slack at least 0 with
/// the others fixed: the quotient rounded up, never towards zero.
pub fn required(system: System, field: &[u32], cell: usize) -> Whole {
    let wanted = pull(system, field, cell) - system.sources[cell];
    if wanted <= 0 {
        return 0;
    }
    let diagonal = system.diagonals[cell];
    (wanted + diagonal - 1) / diagonal
}

/// What a relaxation did.
#[derive(Clone, Copy, Debug, PartialEq, Eq)]
pub enum Relaxed {
    /// The required pressure is not above the pressure.
    Kept,
    Raised,
    /// The required pressure is above pressure and ceiling; nothing changed.
    Over,
}

/// Document 01: visit.
pub fn relax(system: System, ceiling: u32, field: &mut [u32], cell: usize) -> Relaxed {
    let required = required(system, field, cell);
    if required <= Whole::from(field[cell]) {
        return Relaxed::Kept;
    }
    if required > Whole::from(ceiling) {
        return Relaxed::Over;
    }
    field[cell] = required as u32;
    Relaxed::Raised
}

/// A field meets the film: every pressure at most the ceiling and no slack negative.
pub fn feasible(system: System, ceiling: u32, field: &[u32]) -> bool {
    (0..field.len()).all(|cell| field[cell] <= ceiling && slack(system, field, cell) >= 0)
}
