//! The coefficient film: a problem that comes as diagonals, links and sources, from labs that have a
//! mesh of their own and no gauge grid (document 02, W1). Its file, its reader and its writer, and
//! the converter from gauged films.

use crate::checks::check_limits;
use crate::coefficients::{form, Coefficients, System};
use crate::film::{
    after_weights, body, optional_bodies, put_field, read_opening, write_opening, Film,
};
use crate::weights::held;
use crate::{Refusal, Whole};

/// Length of each of the five buffers that a caller lends to the reader.
pub const COEFFICIENT_BUFFER: usize = 1_024;

/// The numbers of a coefficient file.
#[derive(Clone, Debug, PartialEq, Eq)]
pub struct CoefficientFilm {
    pub ceiling: u32,
    /// One for each cell, by index; none at all stand for an empty field 03.
    pub weights: Vec<u16>,
    pub coefficients: Coefficients,
}

impl CoefficientFilm {
    pub fn rows(&self) -> usize {
        self.coefficients.rows
    }

    pub fn columns(&self) -> usize {
        self.coefficients.columns
    }

    /// N, the number of cells.
    pub fn cells(&self) -> usize {
        self.rows() * self.columns()
    }

    pub fn system(&self) -> System<'_> {
        self.coefficients.system()
    }
}

/// Length of the coefficient file that the writer makes of a film with `rows` and `columns`: its weights
/// are in place.
pub fn file_length(rows: usize, columns: usize) -> usize {
    27 + 22 * rows * columns
}

/// Where the headers of fields 06 to 09 lie in a file that carries its weights.
pub fn headers(cells: usize) -> [usize; 4] {
    headers_from(after_weights(cells), cells)
}

/// The same with the first of them at `diagonals`.
fn headers_from(diagonals: usize, cells: usize) -> [usize; 4] {
    let rights = diagonals + 3 + 4 * cells;
    let ups = rights + 3 + 4 * cells;
    let sources = ups + 3 + 4 * cells;
    [diagonals, rights, ups, sources]
}

/// Reads a coefficient file into numbers of its own. Its fields come first, and the bytes after them;
/// then the limits of the coefficients; then dominance, or the search for weights where the file carries
/// none.
pub fn read(bytes: &[u8]) -> Result<CoefficientFilm, Refusal> {
    let mut film = read_fields(bytes)?;
    check_limits(film.system())?;
    film.weights = held(film.coefficients.system(), film.weights)?;
    Ok(film)
}

/// The numbers that a coefficient file's fields have, its weights empty where field 03 is. Each field is
/// tested as in a film file, but fields 06 to 09 have no test of their values. No optional field is
/// permitted.
pub fn read_fields(bytes: &[u8]) -> Result<CoefficientFilm, Refusal> {
    let opening = read_opening(bytes)?;
    let (rows, columns) = (opening.rows, opening.columns);
    let cells = rows * columns;
    let [at_diagonals, at_rights, at_ups, at_sources] = headers_from(opening.end, cells);
    let diagonals = unsigned(body(bytes, at_diagonals, 0x06, 4 * cells)?);
    let rights = unsigned(body(bytes, at_rights, 0x07, 4 * cells)?);
    let ups = unsigned(body(bytes, at_ups, 0x08, 4 * cells)?);
    let sources = signed(body(bytes, at_sources, 0x09, 8 * cells)?);

    let [] = optional_bodies(bytes, at_sources + 3 + 8 * cells, [])?;
    Ok(CoefficientFilm {
        ceiling: opening.ceiling,
        weights: opening.weights,
        coefficients: Coefficients {
            rows,
            columns,
            diagonals,
            rights,
            ups,
            sources,
        },
    })
}

/// Numbers of four bytes.
fn unsigned(body: &[u8]) -> Vec<Whole> {
    body.chunks(4).map(big_endian).collect()
}

/// Numbers of eight bytes in two's complement.
fn signed(body: &[u8]) -> Vec<Whole> {
    body.chunks(8)
        .map(|number| {
            let unsigned = big_endian(number);
            let negative = number[0] >= 0x80;
            unsigned - if negative { 1 << 64 } else { 0 }
        })
        .collect()
}

fn big_endian(number: &[u8]) -> Whole {
    number
        .iter()
        .fold(0, |high, &low| 256 * high + Whole::from(low))
}

/// The bytes of a coefficient file, with no test at all: test vectors need refused files too, and files
/// without weights. A number must have room in its field.
pub fn write(film: &CoefficientFilm) -> Vec<u8> {
    let coefficients = &film.coefficients;
    let shape = (film.rows(), film.columns());
    let mut bytes = write_opening(shape, film.ceiling, &film.weights);
    put_field(&mut bytes, 0x06, &unsigned_bytes(&coefficients.diagonals));
    put_field(&mut bytes, 0x07, &unsigned_bytes(&coefficients.rights));
    put_field(&mut bytes, 0x08, &unsigned_bytes(&coefficients.ups));
    put_field(&mut bytes, 0x09, &signed_bytes(&coefficients.sources));
    bytes
}

fn unsigned_bytes(numbers: &[Whole]) -> Vec<u8> {
    numbers
        .iter()
        .flat_map(|&number| u32::try_from(number).expect("four bytes").to_be_bytes())
        .collect()
}

fn signed_bytes(numbers: &[Whole]) -> Vec<u8> {
    numbers
        .iter()
        .flat_map(|&number| i64::try_from(number).expect("eight bytes").to_be_bytes())
        .collect()
}

/// The coefficient film of the same problem as an accepted gauged film. Its links have the grid steps
/// in them, and it has no field for them.
pub fn convert(film: &Film) -> CoefficientFilm {
    CoefficientFilm {
        ceiling: film.ceiling,
        weights: film.weights.clone(),
        coefficients: form(film),
    }
}
