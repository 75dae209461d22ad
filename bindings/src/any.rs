//! Films of either kind.

use crate::{CoefficientFilm, Film, Refusal};

/// A film of either kind, as its file has it.
#[derive(Clone, Debug, PartialEq, Eq)]
pub enum AnyFilm {
    /// Gauged thicknesses, a wedge number and perhaps steps: fields 04, 05 and 0A.
    Gauged(Film),
    /// Coefficients: fields 06 to 09.
    Coefficients(CoefficientFilm),
}

impl AnyFilm {
    /// Reads a film file of either kind: as the report does, by the tag after field 03.
    pub fn read(file: &[u8]) -> Result<AnyFilm, Refusal> {
        if has_coefficients(file) {
            CoefficientFilm::read(file).map(AnyFilm::Coefficients)
        } else {
            Film::read(file).map(AnyFilm::Gauged)
        }
    }

    /// The film file, of the kind that the film is.
    pub fn write(&self) -> Result<Vec<u8>, Refusal> {
        match self {
            AnyFilm::Gauged(film) => film.write(),
            AnyFilm::Coefficients(film) => film.write(),
        }
    }

    /// The film by its coefficients, which has the calls on a field.
    pub fn as_coefficients(&self) -> &CoefficientFilm {
        match self {
            AnyFilm::Gauged(film) => film.as_coefficients(),
            AnyFilm::Coefficients(film) => film,
        }
    }
}

/// Whether the tag after field 03 is 06. Where it stands follows from the shape's two bytes, and from
/// the length of field 03, which is 0 where the file has no weights; tested or not: what is wrong up
/// to there both readers refuse alike.
fn has_coefficients(file: &[u8]) -> bool {
    let (Some(&[rows, columns]), Some(length)) = (file.get(3..5), file.get(13..15)) else {
        return false;
    };
    let weights = if length == [0, 0] {
        0
    } else {
        2 * usize::from(rows) * usize::from(columns)
    };
    file.get(15 + weights) == Some(&0x06)
}
