//! Fields: a pressure for each cell.

use crate::Film;

/// A pressure in whole steps for each cell, by index: cell (r, c), counted from (1, 1), has index
/// (r − 1) × columns + c − 1.
///
/// A field may be made from any pressures. A film refuses one of another length, or with a pressure
/// above its ceiling.
#[derive(Clone, Debug, PartialEq, Eq, Hash)]
pub struct Field {
    pressures: Vec<u32>,
}

impl Field {
    /// The zero field of a gauged film, where a search for its least field starts.
    pub fn zero(film: &Film) -> Field {
        film.as_coefficients().zero_field()
    }

    /// The pressures, by cell index.
    pub fn pressures(&self) -> &[u32] {
        &self.pressures
    }

    /// The pressures, to be changed.
    pub fn pressures_mut(&mut self) -> &mut [u32] {
        &mut self.pressures
    }

    /// The pressures alone.
    pub fn into_pressures(self) -> Vec<u32> {
        self.pressures
    }
}

impl From<Vec<u32>> for Field {
    fn from(pressures: Vec<u32>) -> Field {
        Field { pressures }
    }
}
