//! Least pressure fields of oil films, gauged or given by coefficients.
//!
//! A bearing bench gauges the oil film under a pad on a grid of up to 32 × 32 cells. From these
//! thicknesses the library forms the coefficients of Reynolds' difference equation with cavitation,
//! and finds the least whole-step pressure field that they allow, by monotone relaxation.
//!
//! The work is done by the library `libfilm.a`, whose calls are proved: for every input, each answers
//! what the specification says, or names one refusal and changes nothing. This package holds a
//! film's numbers and gives the calls Rust's types.
//!
//! ```
//! use film::{Field, Film, Head, Order, Outcome};
//!
//! // Film F: one row of two cells inside a ring of boundary thicknesses.
//! let head = Head { rows: 1, columns: 2, ceiling: 100 };
//! let thicknesses = [1, 1, 1, 1, 3, 2, 1, 1, 1, 1, 1, 1];
//! let film = Film::from_thicknesses(head, &thicknesses, 100, None)?;
//! let mut field = Field::zero(&film);
//! let outcome = film.run(&mut field, 1_000, Order::Forward, false)?;
//! assert!(matches!(outcome, Outcome::Done(_)));
//! assert_eq!(field.pressures(), [2, 4]);
//! # Ok::<(), film::Refusal>(())
//! ```
//!
//! Who has a mesh of their own, and no gauge grid, gives the coefficients: a [`CoefficientFilm`] has
//! the same calls on a field. [`Film::convert`] writes a gauged film as one, and [`AnyFilm`] reads
//! film files of either kind.

mod answers;
mod any;
mod coefficients;
mod field;
mod gauged;
pub mod raw;
mod refusal;
mod report;
mod unweighted;

pub use answers::{Counts, Order, Outcome, Proposed, Relaxed};
pub use any::AnyFilm;
pub use coefficients::{CoefficientFilm, Coefficients};
pub use field::Field;
pub use gauged::{Film, Steps};
pub use raw::Head;
pub use refusal::Refusal;
pub use report::report;
