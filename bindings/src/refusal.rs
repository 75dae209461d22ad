//! Refusals: why a call did nothing.

use std::error::Error;
use std::fmt;

/// A call was refused: one fault, by its number, and its place. Nothing has changed.
#[derive(Clone, Copy, Debug, PartialEq, Eq, Hash)]
pub struct Refusal {
    /// The fault's number, 1 to 17, as in the table of the README.
    pub number: u32,
    /// The file's length (1), an offset in the film file (2 to 8, 15; numbers that never were in a
    /// file get the offset that they would have), a cell index (9, 12, 14, 16), or 0 (10, 11, 13, 17).
    pub place: usize,
}

impl Refusal {
    /// The fault's name, as the library calls it.
    pub fn name(&self) -> &'static str {
        match self.number {
            1 => "Truncated",
            2 => "Unexpected",
            3 => "WrongLength",
            4 => "BadShape",
            5 => "BadCeiling",
            6 => "ZeroWeight",
            7 => "BadThickness",
            8 => "BadWedge",
            9 => "NotDominant",
            10 => "WrongBuffer",
            11 => "BadOrder",
            12 => "StartAboveCeiling",
            13 => "OutOfGrid",
            14 => "BadCoefficient",
            15 => "BadStep",
            16 => "NoWeights",
            17 => "WeightsNotFound",
            _ => "Refused",
        }
    }

    /// The fault in words.
    fn words(&self) -> &'static str {
        match self.number {
            1 => "the film file ends within a field",
            2 => "the film file has a byte that is not the next field's tag",
            3 => "a field of the film file has the wrong length",
            4 => "rows or columns are outside 1 to 32",
            5 => "the ceiling is outside 1 to 16,777,216",
            6 => "a weight is 0",
            7 => "a thickness is outside 1 to 128",
            8 => "the wedge is beyond 1,000,000,000 either way",
            9 => "a weighted row sum is below 1",
            10 => "a slice has the wrong length",
            11 => "there is no such ordering",
            12 => "a start pressure is above the ceiling",
            13 => "the line or cell is outside the grid",
            14 => "a coefficient is outside its limits",
            15 => "a grid step is outside 1 to 4",
            16 => "no weights from 1 to 65,535 hold the film",
            17 => "weights were not found in 4,000,000 relaxations",
            _ => "the call was refused",
        }
    }
}

impl fmt::Display for Refusal {
    fn fmt(&self, f: &mut fmt::Formatter) -> fmt::Result {
        let (name, words, place) = (self.name(), self.words(), self.place);
        write!(f, "{name} ({}): {words}", self.number)?;
        match self.number {
            1 => write!(f, ", after {place} bytes"),
            2..=8 | 15 => write!(f, ", at byte {place} of the film file"),
            9 | 12 | 14 | 16 => write!(f, ", at cell {place}"),
            10 | 11 | 13 | 17 => Ok(()),
            _ => write!(f, ", at {place}"),
        }
    }
}

impl Error for Refusal {}

/// The result of a call that answered `number`: 0, or a refusal at `place`.
pub(crate) fn tested(number: u32, place: usize) -> Result<(), Refusal> {
    match number {
        0 => Ok(()),
        number => Err(Refusal { number, place }),
    }
}
