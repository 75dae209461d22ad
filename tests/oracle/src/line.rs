//! Line proposals and the program's own estimate of a line (document 01, "A line offer").

use crate::coefficients::System;
use crate::relax::{dominance, neighbours, slack};
use crate::Whole;

/// Answer to a line proposal.
#[derive(Clone, Copy, Debug, PartialEq, Eq)]
pub enum Proposed {
    /// Document 01: Taken, with the number of cells raised.
    Accepted(usize),
    /// Document 01: Declined; the field is unchanged.
    Rejected,
}

/// Tries the larger of offer and pressure in each cell of line 1 to R. Only raised cells are
/// tested: a cell that the offer doesn't raise may have any slack.
pub fn propose(
    system: System,
    ceiling: u32,
    field: &mut [u32],
    line: usize,
    offer: &[u32],
) -> Proposed {
    let first = (line - 1) * system.columns;
    let mut tried = field.to_vec();
    let mut raised = Vec::new();
    for (column, &offered) in offer.iter().enumerate() {
        let cell = first + column;
        if offered > tried[cell] {
            tried[cell] = offered;
            raised.push(cell);
        }
    }
    let taken = !raised.is_empty()
        && raised.iter().all(|&cell| tried[cell] <= ceiling)
        && raised.iter().all(|&cell| slack(system, &tried, cell) <= 0);
    if !taken {
        return Proposed::Rejected;
    }
    field.copy_from_slice(&tried);
    Proposed::Accepted(raised.len())
}

/// Sum of a cell's links to cells of the grid.
pub fn inside(system: System, cell: usize) -> Whole {
    neighbours(system, cell).map(|(_, link)| link).sum()
}

/// Document 01: K. The least whole number with K × weighted row sum at least the sum of inside
/// links, at every cell.
pub fn margin(system: System, weights: &[u16]) -> Whole {
    (0..weights.len())
        .map(|cell| {
            let row_sum = dominance(system, weights, cell);
            (inside(system, cell) + row_sum - 1) / row_sum
        })
        .max()
        .unwrap_or(0)
}

/// One step of the elimination along a line.
#[derive(Clone, Copy)]
enum Elimination {
    Pivot {
        g: f64,
        h: f64,
    },
    /// The cell is not active: it ends a chain, and the next active cell starts one.
    Idle,
    /// g > 0 fails: the whole line offers zeros.
    Broken,
}

/// The program's own offer for line 1 to R: elimination and substitution in binary64 along the
/// chains of active cells, the whole part, then less K × weight.
pub fn estimate(system: System, weights: &[u16], field: &[u32], line: usize) -> Vec<u32> {
    let columns = system.columns;
    let first = (line - 1) * columns;
    let mut steps: Vec<Elimination> = Vec::new();
    for cell in first..first + columns {
        let before = steps.last().copied().unwrap_or(Elimination::Idle);
        let step = eliminate(system, field, cell, before);
        if matches!(step, Elimination::Broken) {
            return vec![0; columns];
        }
        steps.push(step);
    }

    let least_gap = margin(system, weights);
    let mut offer = vec![0; columns];
    let mut next: Option<f64> = None;
    for column in (0..columns).rev() {
        let cell = first + column;
        next = substitute(system, cell, steps[column], next);
        if let Some(p) = next {
            let gap = least_gap * Whole::from(weights[cell]);
            offer[column] = (whole_part(p) - gap).max(0) as u32;
        }
    }
    offer
}

/// A cell is active when its pressure is above 0 or its slack is negative.
fn active(system: System, field: &[u32], cell: usize) -> bool {
    field[cell] > 0 || slack(system, field, cell) < 0
}

/// The exact −source + link × pressure over the rows below and above.
fn right_side(system: System, field: &[u32], cell: usize) -> Whole {
    let row = cell / system.columns;
    let across: Whole = neighbours(system, cell)
        .filter(|(other, _)| other / system.columns != row)
        .map(|(other, link)| link * Whole::from(field[other]))
        .sum();
    across - system.sources[cell]
}

fn eliminate(system: System, field: &[u32], cell: usize, before: Elimination) -> Elimination {
    if !active(system, field, cell) {
        return Elimination::Idle;
    }
    let m = system.diagonals[cell] as f64;
    let b = right_side(system, field, cell) as f64;
    let (g, h) = match before {
        Elimination::Pivot {
            g: g_before,
            h: h_before,
        } => {
            let k = system.rights[cell - 1] as f64;
            let ratio = k / g_before;
            let drop = k * ratio;
            let carried = h_before / g_before;
            let gain = k * carried;
            (m - drop, b + gain)
        }
        Elimination::Idle | Elimination::Broken => (m, b),
    };
    if g > 0.0 {
        Elimination::Pivot { g, h }
    } else {
        Elimination::Broken
    }
}

/// The real pressure of a cell, None where it is idle; `next` is that of the cell after it, as it
/// came out, whatever its size or sign.
fn substitute(system: System, cell: usize, step: Elimination, next: Option<f64>) -> Option<f64> {
    let Elimination::Pivot { g, h } = step else {
        return None;
    };
    let Some(next) = next else {
        return Some(h / g);
    };
    let link = system.rights[cell] as f64;
    let gain = link * next;
    let sum = h + gain;
    Some(sum / g)
}

/// The greatest whole number not above p where 0 ≤ p ≤ 33,554,432, else 0.
fn whole_part(p: f64) -> Whole {
    if (0.0..=33_554_432.0).contains(&p) {
        p.floor() as Whole
    } else {
        0
    }
}
