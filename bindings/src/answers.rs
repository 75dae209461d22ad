//! What runs, relaxations and line proposals are asked and answer.

use crate::raw::Ran;

/// The ordering in which a run relaxes the cells, round and round.
#[derive(Clone, Copy, Debug, PartialEq, Eq, Hash)]
pub enum Order {
    /// By index.
    Forward,
    /// By falling index.
    Backward,
    /// The cells with row + column even by index, then the odd ones.
    RedBlack,
}

impl Order {
    /// The ordering's number in the library.
    pub(crate) fn number(self) -> u32 {
        match self {
            Order::Forward => 0,
            Order::Backward => 1,
            Order::RedBlack => 2,
        }
    }
}

/// What a run counted.
#[derive(Clone, Copy, Debug, PartialEq, Eq, Hash)]
pub struct Counts {
    /// Relaxations.
    pub visits: u32,
    /// Relaxations that raised their cell.
    pub raises: u32,
    /// Cells raised by accepted line proposals.
    pub accepted: u32,
}

/// How a run ended. The field keeps what was raised, however that was.
#[derive(Clone, Copy, Debug, PartialEq, Eq, Hash)]
pub enum Outcome {
    /// The field is the least one at or above its start that is feasible.
    Done(Counts),
    /// The budget is used up.
    Stopped(Counts),
    /// No field at or above the start and up to the ceiling is feasible: this cell's required
    /// pressure is above the ceiling.
    Over(usize, Counts),
}

impl Outcome {
    /// What the run counted, however it ended.
    pub fn counts(&self) -> Counts {
        match *self {
            Outcome::Done(counts) | Outcome::Stopped(counts) | Outcome::Over(_, counts) => counts,
        }
    }

    /// The outcome in the library's numbers.
    pub(crate) fn told(ran: Ran) -> Outcome {
        let [ended, visits, raises, accepted] = ran.result;
        let counts = Counts {
            visits,
            raises,
            accepted,
        };
        match ended {
            0 => Outcome::Done(counts),
            1 => Outcome::Stopped(counts),
            _ => Outcome::Over(ran.cell, counts),
        }
    }
}

/// What a relaxation did.
#[derive(Clone, Copy, Debug, PartialEq, Eq, Hash)]
pub enum Relaxed {
    /// Nothing: the cell's pressure is at least the required one.
    Quiet,
    /// The cell was raised to this pressure.
    Raised(u32),
    /// Nothing: the required pressure is above the ceiling.
    Over,
}

impl Relaxed {
    pub(crate) fn told([found, pressure]: [u32; 2]) -> Relaxed {
        match found {
            0 => Relaxed::Quiet,
            1 => Relaxed::Raised(pressure),
            _ => Relaxed::Over,
        }
    }
}

/// The answer to a line proposal.
#[derive(Clone, Copy, Debug, PartialEq, Eq, Hash)]
pub enum Proposed {
    /// It raised this number of cells.
    Accepted(u32),
    /// It is above the ceiling, too high by the exact test, or raises nothing: the field is
    /// unchanged.
    Rejected,
}

impl Proposed {
    pub(crate) fn told([accepted, cells]: [u32; 2]) -> Proposed {
        match accepted {
            0 => Proposed::Rejected,
            _ => Proposed::Accepted(cells),
        }
    }
}
