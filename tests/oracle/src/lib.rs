//! Test oracle, written from documents 01 and 02 alone. It shares nothing with the program under
//! test: no code, no dependency, no constant. Whole numbers are `i128`, in which nothing here can overflow;
//! binary64 appears only in the estimate of a line, where document 01 asks for it, one rounding
//! for each operation and in the text's order.
//!
//! Every module follows one section of document 01, or one request of document 02. The comments name
//! the section's own words.

pub mod calls;
pub mod checks;
pub mod coefficient_film;
mod coefficient_vectors;
pub mod coefficients;
pub mod film;
pub mod line;
mod peak_vectors;
pub mod relax;
pub mod report;
pub mod run;
pub mod samples;
mod step_vectors;
pub mod vectors;
mod weight_vectors;
pub mod weights;

/// A whole number, wide enough for every sum and product of document 01.
pub type Whole = i128;

/// A refusal hands back its number and its place alone.
#[derive(Clone, Copy, Debug, PartialEq, Eq)]
pub struct Refusal {
    pub number: u8,
    pub place: usize,
}

/// Shorthand for the refusal `number` at `place`.
pub fn refuse<T>(number: u8, place: usize) -> Result<T, Refusal> {
    Err(Refusal { number, place })
}
