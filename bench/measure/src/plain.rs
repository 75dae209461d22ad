//! The same loop as Film's run, in plain Rust: the pull by index, a product and a comparison for a
//! quiet cell, a division only for a raise, a table of cells; `get_unchecked` where Film has no
//! check because the index is proved.

use crate::calls::Refused;
use crate::problem::System;

/// How a run ends; Over has the cell that requires more than the ceiling.
#[derive(Clone, Copy, Debug, PartialEq, Eq)]
pub enum End {
    Done,
    Stopped,
    Over(usize),
}

#[derive(Clone, Copy, Debug, PartialEq, Eq)]
pub struct Ran {
    pub end: End,
    pub visits: u32,
    pub raises: u32,
}

/// Cells by index, as ordering 0 names them.
pub fn forward(cells: usize) -> Vec<u16> {
    (0..cells as u16).collect()
}

/// The whole call: the tests of its input, the table of ordering 0, and the run.
#[inline(never)]
pub fn tested_run(system: System, field: &mut [u32], budget: u32) -> Option<Ran> {
    accepted(system, field).then(|| run(system, &forward(field.len()), field, budget))
}

/// Relaxes round and round until N relaxations in a row raised nothing, a cell requires more than
/// the ceiling, or the budget is used up.
#[inline(never)]
#[allow(clippy::manual_div_ceil)] // as Film works it: one division, no remainder
pub fn run(system: System, order: &[u16], field: &mut [u32], budget: u32) -> Ran {
    let n = order.len();
    assert!(n == field.len() && system.fits(n), "slices of N");
    let ceiling = u64::from(system.ceiling);
    let (mut place, mut visits, mut raises, mut quiet) = (0, 0, 0, 0);
    let mut end = End::Stopped;
    while visits < budget {
        // SAFETY: `order` names cells below N, and every slice has N numbers.
        let cell = unsafe { *order.get_unchecked(place) as usize };
        let (pull, pressure, diagonal, source) = unsafe { loaded(system, field, cell) };
        let lift = if source < 0 { 0 } else { source as u64 };
        let drop = if source < 0 { source.unsigned_abs() } else { 0 };
        let load = pull + drop;
        visits += 1;
        place = if place + 1 == n { 0 } else { place + 1 };
        if load <= diagonal * pressure + lift {
            quiet += 1;
            if quiet == n {
                end = End::Done;
                break;
            }
        } else {
            let required = (load - lift + (diagonal - 1)) / diagonal;
            if ceiling < required {
                end = End::Over(cell);
                break;
            }
            // SAFETY: as above.
            unsafe { *field.get_unchecked_mut(cell) = required as u32 };
            raises += 1;
            quiet = 0;
        }
    }
    Ran {
        end,
        visits,
        raises,
    }
}

/// The least weights of a film, where a file has none: the run from zero with source −1 in each cell,
/// under the greatest weight. Refusals 16 and 17.
#[inline(never)]
pub fn least_weights(film: System) -> Result<[u16; 1_024], Refused> {
    let n = film.diagonals.len();
    let (sources, mut field) = ([-1; 1_024], [0; 1_024]);
    let system = System {
        ceiling: 65_535,
        sources: &sources[..n],
        ..film
    };
    match run(system, &forward(n), &mut field[..n], 4_000_000).end {
        End::Done => Ok(field.map(|weight| weight as u16)),
        End::Over(cell) => Err((16, cell)),
        End::Stopped => Err((17, 0)),
    }
}

/// The tests of a run's input: shape, ceiling, lengths, limits, weights, row sums and start.
fn accepted(system: System, field: &[u32]) -> bool {
    let n = system.rows * system.columns;
    let shape = (1..=32).contains(&system.rows) && (1..=32).contains(&system.columns);
    shape
        && (1..=16_777_216).contains(&system.ceiling)
        && n == field.len()
        && system.fits(n)
        && (0..n).all(|cell| within_limits(system, cell))
        && system.weights.iter().all(|&weight| weight > 0)
        && (0..n).all(|cell| dominance(system, cell) > 0)
        && field.iter().all(|&pressure| pressure <= system.ceiling)
}

fn within_limits(system: System, cell: usize) -> bool {
    let last_column = cell % system.columns + 1 == system.columns;
    let last_row = cell / system.columns + 1 == system.rows;
    let most = |last: bool| if last { 0 } else { 67_108_864 };
    (1..=268_435_456).contains(&system.diagonals[cell])
        && system.rights[cell] <= most(last_column)
        && system.ups[cell] <= most(last_row)
        && system.sources[cell].unsigned_abs() <= 1 << 50
}

/// Document 01: weighted row sum.
pub fn dominance(system: System, cell: usize) -> i64 {
    let weight = |at: usize| i64::from(system.weights[at]);
    let (n, columns) = (system.weights.len(), system.columns);
    let mut sum = i64::from(system.diagonals[cell]) * weight(cell);
    if cell > 0 {
        sum -= i64::from(system.rights[cell - 1]) * weight(cell - 1);
    }
    if cell + 1 < n {
        sum -= i64::from(system.rights[cell]) * weight(cell + 1);
    }
    if cell >= columns {
        sum -= i64::from(system.ups[cell - columns]) * weight(cell - columns);
    }
    if cell + columns < n {
        sum -= i64::from(system.ups[cell]) * weight(cell + columns);
    }
    sum
}

/// Document 01: spare of a cell.
pub fn slack(system: System, field: &[u32], cell: usize) -> i64 {
    // SAFETY: the caller's system and field have N numbers, and `cell` is below N.
    let pull = unsafe { pull(system.rights, system.ups, field, system.columns, cell) };
    let held = i64::from(system.diagonals[cell]) * i64::from(field[cell]);
    held - pull as i64 + system.sources[cell]
}

/// A cell's pull, pressure, diagonal and source.
///
/// # Safety
/// The slices have N numbers each, and `cell` is below N.
#[inline(always)]
unsafe fn loaded(system: System, field: &[u32], cell: usize) -> (u64, u64, u64, i64) {
    unsafe {
        (
            pull(system.rights, system.ups, field, system.columns, cell),
            u64::from(*field.get_unchecked(cell)),
            u64::from(*system.diagonals.get_unchecked(cell)),
            *system.sources.get_unchecked(cell),
        )
    }
}

/// Sum of link × neighbour's pressure inside the grid.
///
/// # Safety
/// The slices have N numbers each, and `cell` is below N.
#[inline(always)]
unsafe fn pull(rights: &[u32], ups: &[u32], field: &[u32], columns: usize, cell: usize) -> u64 {
    let n = field.len();
    let product = |links: &[u32], link: usize, neighbour: usize| unsafe {
        u64::from(*links.get_unchecked(link)) * u64::from(*field.get_unchecked(neighbour))
    };
    let left = if cell < 1 {
        0
    } else {
        product(rights, cell - 1, cell - 1)
    };
    let right = if n <= cell + 1 {
        0
    } else {
        product(rights, cell, cell + 1)
    };
    let down = if cell < columns {
        0
    } else {
        product(ups, cell - columns, cell - columns)
    };
    let up = if n <= cell + columns {
        0
    } else {
        product(ups, cell, cell + columns)
    };
    left + right + (down + up)
}
