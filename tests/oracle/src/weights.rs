//! Weights found by the program (document 02, W5): the least whole vector whose weighted row sums are
//! all at least 1. It is the least field of the same matrix with every source −1, so a run from zero finds
//! it.

use crate::coefficients::{Coefficients, System};
use crate::film::check_dominance;
use crate::run::{run, Answer, Ordering, Outcome};
use crate::{refuse, Refusal};

/// The ceiling of the search: no weight has more than two bytes.
pub const LARGEST_WEIGHT: u32 = 65_535;
/// Relaxations that a reader's search may use.
pub const SEARCH_BUDGET: u32 = 4_000_000;

/// The search with any budget, and the vector that it leaves. Of the film it takes the matrix alone:
/// neither its sources nor its ceiling.
pub fn search(system: System, budget: u32) -> (Outcome, Vec<u32>) {
    let sources = vec![-1; system.diagonals.len()];
    let mut found = vec![0; sources.len()];
    let searched = System {
        sources: &sources,
        ..system
    };
    // Only proposals would look at weights, and there are none.
    let outcome = run(
        searched,
        LARGEST_WEIGHT,
        &[],
        &mut found,
        budget,
        Ordering::Forward,
        false,
    );
    (outcome, found)
}

/// The weights of a file that carries none. Refusal 16 is at the cell whose weight would pass 65,535;
/// 17 says that the budget ended first, and names no cell.
pub fn find(system: System) -> Result<Vec<u16>, Refusal> {
    let (outcome, found) = search(system, SEARCH_BUDGET);
    match outcome.answer {
        Answer::Done => Ok(narrowed(&found)),
        Answer::Over(cell) => refuse(16, cell),
        Answer::Stopped => refuse(17, 0),
    }
}

/// The last test of both readers: the weights that a file carries must hold it, and those of a file that
/// carries none are found. Found ones hold it, so that 9 is not tested there.
pub(crate) fn held(system: System, weights: Vec<u16>) -> Result<Vec<u16>, Refusal> {
    if weights.is_empty() {
        return find(system);
    }
    check_dominance(system, &weights)?;
    Ok(weights)
}

/// The same weights for made films, however long the search takes: a film may well carry weights that no
/// reader would find in its budget. None where a weight would pass 65,535.
pub fn least_weights_of(coefficients: Coefficients) -> Option<Vec<u16>> {
    let (outcome, found) = search(coefficients.system(), u32::MAX);
    (outcome.answer == Answer::Done).then(|| narrowed(&found))
}

/// A search keeps its ceiling, so every number fits.
fn narrowed(found: &[u32]) -> Vec<u16> {
    found.iter().map(|&weight| weight as u16).collect()
}
