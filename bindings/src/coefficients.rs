//! Films given by their coefficients, as labs with meshes of their own have them.

use crate::answers::{Order, Outcome, Proposed, Relaxed};
use crate::raw::{self, Head, Problem, Ran};
use crate::refusal::{tested, Refusal};
use crate::{unweighted, Field};

/// Cells of the largest grid, 32 × 32: the readers want buffers for as many, whatever the film.
pub(crate) const MOST_CELLS: usize = 1_024;

/// A film that was accepted, given by its coefficients: the numbers of a coefficient film's file.
///
/// Cells are counted by index from 0, by rows; lines, which are rows of the grid, from 1.
#[derive(Clone, Debug, PartialEq, Eq)]
pub struct CoefficientFilm {
    head: Head,
    weights: Vec<u16>,
    coefficients: Coefficients,
}

/// Diagonals, links and sources: one number of each list a cell, by index. A link serves both of its
/// cells. Links to the boundary, whose pressure is 0, count in the diagonals alone.
#[derive(Clone, Debug, Default, PartialEq, Eq)]
pub struct Coefficients {
    /// 1 to 268,435,456.
    pub diagonals: Vec<u32>,
    /// Links to the next column, 0 to 67,108,864, and 0 in the last.
    pub rights: Vec<u32>,
    /// Links to the next row, 0 to 67,108,864, and 0 in the last.
    pub ups: Vec<u32>,
    /// Up to 1,125,899,906,842,624 either way.
    pub sources: Vec<i64>,
}

impl Coefficients {
    /// Room for the coefficients of so many cells.
    pub(crate) fn room(cells: usize) -> Coefficients {
        Coefficients {
            diagonals: vec![0; cells],
            rights: vec![0; cells],
            ups: vec![0; cells],
            sources: vec![0; cells],
        }
    }

    fn truncate(&mut self, cells: usize) {
        self.diagonals.truncate(cells);
        self.rights.truncate(cells);
        self.ups.truncate(cells);
        self.sources.truncate(cells);
    }
}

/// Making films, and writing them.
impl CoefficientFilm {
    /// Reads a coefficient film's file. One of a gauged film is refused with 2 at its tag 04.
    ///
    /// Where field 03 is empty the film gets the least weights that hold it. To find them may take up
    /// to 4,000,000 relaxations, some hundredths of a second. If none up to 65,535 hold it, the file is
    /// refused with 16, and with 17 if that did not show by then.
    pub fn read(file: &[u8]) -> Result<CoefficientFilm, Refusal> {
        let mut weights = vec![0; MOST_CELLS];
        let mut coefficients = Coefficients::room(MOST_CELLS);
        let buffers = raw::Coefficients {
            weights: &mut weights,
            diagonals: &mut coefficients.diagonals,
            rights: &mut coefficients.rights,
            ups: &mut coefficients.ups,
            sources: &mut coefficients.sources,
        };
        let (mut head, mut place) = (Head::default(), 0);
        let number = raw::read_coefficients(file, buffers, &mut head, &mut place);
        tested(number, place)?;
        let cells = area(head.rows, head.columns);
        weights.truncate(cells);
        coefficients.truncate(cells);
        Ok(CoefficientFilm::accepted(head, weights, coefficients))
    }

    /// Makes a film from its coefficients, and finds its weights.
    ///
    /// The film is read from a file without weights, so it is refused as [`CoefficientFilm::read`]
    /// refuses that file: with 16 or 17 where it gets none, and with 3 where a list is too long or too
    /// short.
    pub fn from_coefficients(
        head: Head,
        coefficients: &Coefficients,
    ) -> Result<CoefficientFilm, Refusal> {
        CoefficientFilm::read(&unweighted::meshed(head, coefficients))
    }

    /// Makes a film from its coefficients and weights of the caller's own, one for each cell by index:
    /// for films whose weights the library does not find.
    pub fn from_parts(
        head: Head,
        weights: Vec<u16>,
        coefficients: Coefficients,
    ) -> Result<CoefficientFilm, Refusal> {
        let film = CoefficientFilm::accepted(head, weights, coefficients);
        // The writer's tests are those of a film's numbers, and name places as a file has them.
        film.write()?;
        Ok(film)
    }

    /// A film of numbers that a call has tested.
    pub(crate) fn accepted(
        head: Head,
        weights: Vec<u16>,
        coefficients: Coefficients,
    ) -> CoefficientFilm {
        CoefficientFilm {
            head,
            weights,
            coefficients,
        }
    }

    /// The film's file. Reading it gives the same film again, and a film that was read from a file
    /// writes that file's own bytes; where it had no weights, those that were found are in place.
    pub fn write(&self) -> Result<Vec<u8>, Refusal> {
        let mut file = vec![0; file_length(self.cells())];
        let mut place = 0;
        let number = raw::write_coefficients(self.problem(), &mut file, &mut place);
        tested(number, place)?;
        Ok(file)
    }
}

/// The film's numbers.
impl CoefficientFilm {
    /// Rows of the grid, 1 to 32.
    pub fn rows(&self) -> u32 {
        self.head.rows
    }

    /// Columns of the grid, 1 to 32.
    pub fn columns(&self) -> u32 {
        self.head.columns
    }

    /// Cells of the grid.
    pub fn cells(&self) -> usize {
        self.weights.len()
    }

    /// The upper bound of every pressure, 1 to 16,777,216 steps.
    pub fn ceiling(&self) -> u32 {
        self.head.ceiling
    }

    /// A weight for each cell. With them for pressures, and no source, every slack is at least 1:
    /// so the film's matrix is Minkowski.
    pub fn weights(&self) -> &[u16] {
        &self.weights
    }

    /// Each cell's diagonal.
    pub fn diagonals(&self) -> &[u32] {
        &self.coefficients.diagonals
    }

    /// Each cell's link to the next column, 0 in the last.
    pub fn rights(&self) -> &[u32] {
        &self.coefficients.rights
    }

    /// Each cell's link to the next row, 0 in the last.
    pub fn ups(&self) -> &[u32] {
        &self.coefficients.ups
    }

    /// Each cell's source.
    pub fn sources(&self) -> &[i64] {
        &self.coefficients.sources
    }

    /// The zero field, where a search for the least field starts.
    pub fn zero_field(&self) -> Field {
        Field::from(vec![0; self.cells()])
    }

    /// Shape and ceiling as the calls take them.
    pub(crate) fn head(&self) -> &Head {
        &self.head
    }
}

/// The calls on a field.
impl CoefficientFilm {
    /// Runs relaxations from the field as it stands, at most `budget` of them. With proposals, each
    /// line is first proposed its estimate.
    pub fn run(
        &self,
        field: &mut Field,
        budget: u32,
        order: Order,
        proposals: bool,
    ) -> Result<Outcome, Refusal> {
        let mut ran = Ran::default();
        let number = raw::run(
            self.problem(),
            field.pressures_mut(),
            budget,
            order.number(),
            proposals,
            &mut ran,
        );
        tested(number, ran.place)?;
        Ok(Outcome::told(ran))
    }

    /// Relaxes one cell: raises it to its required pressure, with the others fixed.
    pub fn relax(&self, field: &mut Field, cell: usize) -> Result<Relaxed, Refusal> {
        let (mut result, mut place) = ([0; 2], 0);
        let number = raw::relax(
            self.problem(),
            field.pressures_mut(),
            cell,
            &mut result,
            &mut place,
        );
        tested(number, place)?;
        Ok(Relaxed::told(result))
    }

    /// A cell's slack: diagonal × pressure − the sum of link × neighbour's pressure + source. A
    /// field is feasible when no slack is negative.
    pub fn slack(&self, field: &Field, cell: usize) -> Result<i64, Refusal> {
        let (mut slack, mut place) = (0, 0);
        let number = raw::slack(
            self.problem(),
            field.pressures(),
            cell,
            &mut slack,
            &mut place,
        );
        tested(number, place)?;
        Ok(slack)
    }

    /// The film's margin: an estimate keeps this many weights below the real solution of its line.
    pub fn margin(&self) -> Result<u32, Refusal> {
        let (mut margin, mut place) = (0, 0);
        let number = raw::margin(self.problem(), &mut margin, &mut place);
        tested(number, place)?;
        Ok(margin)
    }

    /// Proposes pressures for a line, 1 to the number of rows: one for each column. Where the exact
    /// test accepts them, each cell gets the larger of proposal and pressure.
    pub fn propose(
        &self,
        field: &mut Field,
        line: u32,
        proposal: &[u32],
    ) -> Result<Proposed, Refusal> {
        let (mut result, mut place) = ([0; 2], 0);
        let number = raw::propose(
            self.problem(),
            field.pressures_mut(),
            line,
            proposal,
            &mut result,
            &mut place,
        );
        tested(number, place)?;
        Ok(Proposed::told(result))
    }

    /// The program's own proposal for a line, worked in binary64 from the field as it stands.
    pub fn estimate(&self, field: &Field, line: u32) -> Result<Vec<u32>, Refusal> {
        let mut proposal = vec![0; self.head.columns as usize];
        let mut place = 0;
        let number = raw::estimate(
            self.problem(),
            field.pressures(),
            line,
            &mut proposal,
            &mut place,
        );
        tested(number, place)?;
        Ok(proposal)
    }

    fn problem(&self) -> Problem<'_> {
        Problem {
            head: &self.head,
            weights: &self.weights,
            diagonals: &self.coefficients.diagonals,
            rights: &self.coefficients.rights,
            ups: &self.coefficients.ups,
            sources: &self.coefficients.sources,
        }
    }
}

/// The length of a coefficient film's file: seven headers of 3 bytes, shape and ceiling, and for
/// each cell 2 bytes of weight, three times 4 and one time 8.
pub(crate) fn file_length(cells: usize) -> usize {
    27 + 22 * cells
}

/// The places of a grid whose sides were tested.
pub(crate) fn area(rows: u32, columns: u32) -> usize {
    rows as usize * columns as usize
}
