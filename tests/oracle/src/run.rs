//! A run: line proposals if asked for, then relaxations round and round (document 01, "A run").

use crate::coefficients::System;
use crate::line::{estimate, propose, Proposed};
use crate::relax::{relax, Relaxed};

/// Document 01: order. The number of an ordering is that of document 01.
#[derive(Clone, Copy, Debug, PartialEq, Eq)]
pub enum Ordering {
    /// 0: by index.
    Forward,
    /// 1: by falling index.
    Backward,
    /// 2: cells with r + c even by index, then the odd ones.
    RedBlack,
}

impl Ordering {
    pub fn from_number(number: i128) -> Option<Ordering> {
        match number {
            0 => Some(Ordering::Forward),
            1 => Some(Ordering::Backward),
            2 => Some(Ordering::RedBlack),
            _ => None,
        }
    }

    /// Every cell once, as the ordering names them.
    pub fn cells(self, rows: usize, columns: usize) -> Vec<usize> {
        let all = 0..rows * columns;
        // r + c counted from 1 and from 0 differ by 2: the parity is the same.
        let odd = |cell: &usize| (cell / columns + cell % columns) % 2 == 1;
        match self {
            Ordering::Forward => all.collect(),
            Ordering::Backward => all.rev().collect(),
            Ordering::RedBlack => {
                let (mut cells, odds): (Vec<_>, Vec<_>) = all.partition(|cell| !odd(cell));
                cells.extend(odds);
                cells
            }
        }
    }
}

#[derive(Clone, Copy, Debug, PartialEq, Eq)]
pub enum Answer {
    Done,
    Stopped,
    /// The cell whose required pressure is above the ceiling.
    Over(usize),
}

/// What a run hands back; the field is lent to it.
#[derive(Clone, Copy, Debug, PartialEq, Eq)]
pub struct Outcome {
    pub answer: Answer,
    pub visits: u32,
    pub raises: u32,
    /// Cells raised by line proposals.
    pub proposed: u32,
}

/// Runs from the field as it stands. Budget (document 01: allowance) 0 does nothing.
pub fn run(
    system: System,
    ceiling: u32,
    weights: &[u16],
    field: &mut [u32],
    budget: u32,
    ordering: Ordering,
    proposals: bool,
) -> Outcome {
    let mut outcome = Outcome {
        answer: Answer::Stopped,
        visits: 0,
        raises: 0,
        proposed: 0,
    };
    if budget == 0 {
        return outcome;
    }
    if proposals {
        outcome.proposed = propose_lines(system, ceiling, weights, field);
    }
    // Visits since the last raise of this run, or since its start.
    let mut quiet = 0;
    for &cell in ordering.cells(system.rows, system.columns).iter().cycle() {
        outcome.visits += 1;
        match relax(system, ceiling, field, cell) {
            Relaxed::Over => {
                outcome.answer = Answer::Over(cell);
                return outcome;
            }
            Relaxed::Raised => {
                outcome.raises += 1;
                quiet = 0;
            }
            Relaxed::Kept => quiet += 1,
        }
        // Done wins where the budget ends on the same visit.
        if quiet == field.len() {
            outcome.answer = Answer::Done;
            return outcome;
        }
        if outcome.visits == budget {
            return outcome;
        }
    }
    outcome
}

/// Each line from 1 to R once, its estimate worked from the field as it then is.
fn propose_lines(system: System, ceiling: u32, weights: &[u16], field: &mut [u32]) -> u32 {
    let mut raised = 0;
    for line in 1..=system.rows {
        let offer = estimate(system, weights, field, line);
        if let Proposed::Accepted(cells) = propose(system, ceiling, field, line, &offer) {
            raised += cells as u32;
        }
    }
    raised
}
