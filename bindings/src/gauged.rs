//! Gauged films: a pad by its thicknesses, with the coefficients that these form.

use crate::answers::{Order, Outcome, Proposed, Relaxed};
use crate::coefficients::{area, file_length, CoefficientFilm, Coefficients, MOST_CELLS};
use crate::raw::{self, Formed, Gauge, Head};
use crate::refusal::{tested, Refusal};
use crate::{unweighted, Field};

/// A gauged film that was accepted: the numbers of its film file, and the coefficients that they
/// form.
///
/// Cells are counted by index from 0, by rows; lines, which are rows of the grid, from 1.
#[derive(Clone, Debug, PartialEq, Eq)]
pub struct Film {
    thicknesses: Vec<u8>,
    wedge: i32,
    steps: Option<Steps>,
    /// The same film by its coefficients, formed once, since every call on a field takes them.
    formed: CoefficientFilm,
}

/// Unequal grid steps: field 0A of a gauged film's file, which a film may have or not.
///
/// `along` : `across` is (grid step across)² : (grid step along)², where cells of a row are the step
/// along apart: a grid twice as coarse across has 4 and 1. Sources are left alone, so the wedge number
/// has to be taken `along` times (docs/MAKING-A-FILM.md).
#[derive(Clone, Copy, Debug, PartialEq, Eq, Hash)]
pub struct Steps {
    /// What links within a row are multiplied by, 1 to 4.
    pub along: u32,
    /// What links between rows are multiplied by, 1 to 4.
    pub across: u32,
}

impl From<Option<Steps>> for raw::Steps {
    fn from(steps: Option<Steps>) -> raw::Steps {
        match steps {
            Some(Steps { along, across }) => raw::Steps {
                given: 1,
                along,
                across,
            },
            None => raw::Steps::default(),
        }
    }
}

impl From<raw::Steps> for Option<Steps> {
    fn from(steps: raw::Steps) -> Option<Steps> {
        let raw::Steps {
            given,
            along,
            across,
        } = steps;
        (given != 0).then_some(Steps { along, across })
    }
}

/// The coefficients that a film's numbers form.
fn form(gauge: Gauge) -> Result<Coefficients, Refusal> {
    // The shape is not tested yet, but with any other number of weights the call is refused.
    let mut coefficients = Coefficients::room(gauge.weights.len());
    let formed = Formed {
        diagonals: &mut coefficients.diagonals,
        rights: &mut coefficients.rights,
        ups: &mut coefficients.ups,
        sources: &mut coefficients.sources,
    };
    let mut place = 0;
    tested(raw::form(gauge, formed, &mut place), place)?;
    Ok(coefficients)
}

/// Making films, and writing them.
impl Film {
    /// Reads a gauged film's file. One of a coefficient film is refused with 2 at its tag 06.
    ///
    /// Where field 03 is empty the film gets the least weights that hold it. To find them may take up
    /// to 4,000,000 relaxations, some hundredths of a second. If none up to 65,535 hold it, the file is
    /// refused with 16, and with 17 if that did not show by then.
    pub fn read(file: &[u8]) -> Result<Film, Refusal> {
        let (mut weights, mut thicknesses) = (vec![0; MOST_CELLS], vec![0; 1_156]);
        let (mut head, mut wedge, mut place) = (Head::default(), 0, 0);
        let mut steps = raw::Steps::default();
        let number = raw::read(
            file,
            &mut weights,
            &mut thicknesses,
            &mut head,
            &mut wedge,
            &mut steps,
            &mut place,
        );
        tested(number, place)?;
        weights.truncate(area(head.rows, head.columns));
        thicknesses.truncate(area(head.rows + 2, head.columns + 2));
        Film::from_parts(head, weights, thicknesses, wedge, steps.into())
    }

    /// Makes a film from its numbers, and finds its weights: thicknesses are for rows 0 to `rows` + 1
    /// and in each of them columns 0 to `columns` + 1, the boundary ring included. Without steps the
    /// grid is equal both ways.
    ///
    /// The film is read from a file without weights, so it is refused as [`Film::read`] refuses that
    /// file: with 16 or 17 where it gets none, and with 3 where there are too many thicknesses or too
    /// few.
    pub fn from_thicknesses(
        head: Head,
        thicknesses: &[u8],
        wedge: i32,
        steps: Option<Steps>,
    ) -> Result<Film, Refusal> {
        Film::read(&unweighted::gauged(head, thicknesses, wedge, steps))
    }

    /// Makes a film from the same numbers and weights of the caller's own, one for each cell by index:
    /// for films whose weights the library does not find.
    pub fn from_parts(
        head: Head,
        weights: Vec<u16>,
        thicknesses: Vec<u8>,
        wedge: i32,
        steps: Option<Steps>,
    ) -> Result<Film, Refusal> {
        let coefficients = form(Gauge {
            head: &head,
            weights: &weights,
            thicknesses: &thicknesses,
            wedge,
            steps: &raw::Steps::from(steps),
        })?;
        Ok(Film {
            thicknesses,
            wedge,
            steps,
            formed: CoefficientFilm::accepted(head, weights, coefficients),
        })
    }

    /// The film file. Reading it gives the same film again, and a film that was read from a file
    /// writes that file's own bytes; where it had no weights, those that were found are in place.
    pub fn write(&self) -> Result<Vec<u8>, Refusal> {
        // Five headers of 3 bytes, shape, ceiling and wedge, and the two bodies; one header more with
        // two steps.
        let steps_length = if self.steps.is_some() { 5 } else { 0 };
        let mut file = vec![0; 25 + 2 * self.cells() + self.thicknesses.len() + steps_length];
        let (steps, mut place) = (raw::Steps::from(self.steps), 0);
        let number = raw::write(self.gauge(&steps), &mut file, &mut place);
        tested(number, place)?;
        Ok(file)
    }

    /// Converts the film: the file of the coefficient film of the same problem. Its runs and its
    /// report are the same. Steps are worked into its links.
    pub fn convert(&self) -> Result<Vec<u8>, Refusal> {
        let mut file = vec![0; file_length(self.cells())];
        let (steps, mut place) = (raw::Steps::from(self.steps), 0);
        let number = raw::convert(self.gauge(&steps), &mut file, &mut place);
        tested(number, place)?;
        Ok(file)
    }

    /// The same film by its coefficients: the one that `convert` writes.
    pub fn as_coefficients(&self) -> &CoefficientFilm {
        &self.formed
    }

    fn gauge<'a>(&'a self, steps: &'a raw::Steps) -> Gauge<'a> {
        Gauge {
            head: self.formed.head(),
            weights: self.formed.weights(),
            thicknesses: &self.thicknesses,
            wedge: self.wedge,
            steps,
        }
    }
}

/// The film's numbers.
impl Film {
    /// Rows of the grid, 1 to 32.
    pub fn rows(&self) -> u32 {
        self.formed.rows()
    }

    /// Columns of the grid, 1 to 32.
    pub fn columns(&self) -> u32 {
        self.formed.columns()
    }

    /// Cells of the grid.
    pub fn cells(&self) -> usize {
        self.formed.cells()
    }

    /// The upper bound of every pressure, 1 to 16,777,216 steps.
    pub fn ceiling(&self) -> u32 {
        self.formed.ceiling()
    }

    /// A weight for each cell. With them for pressures, and no source, every slack is at least 1:
    /// so the film's matrix is Minkowski.
    pub fn weights(&self) -> &[u16] {
        self.formed.weights()
    }

    /// Thicknesses of the grid and the ring around it, by rows.
    pub fn thicknesses(&self) -> &[u8] {
        &self.thicknesses
    }

    /// The wedge number.
    pub fn wedge(&self) -> i32 {
        self.wedge
    }

    /// The steps, if the film has any: `Some` of 1 and 1 is another file than `None`.
    pub fn steps(&self) -> Option<Steps> {
        self.steps
    }

    /// The sum of each cell's four links.
    pub fn diagonals(&self) -> &[u32] {
        self.formed.diagonals()
    }

    /// Each cell's link to the next column, 0 in the last.
    pub fn rights(&self) -> &[u32] {
        self.formed.rights()
    }

    /// Each cell's link to the next row, 0 in the last.
    pub fn ups(&self) -> &[u32] {
        self.formed.ups()
    }

    /// Each cell's source.
    pub fn sources(&self) -> &[i64] {
        self.formed.sources()
    }
}

/// The calls on a field, which are those on the film's coefficients.
impl Film {
    /// Runs relaxations from the field as it stands, at most `budget` of them. With proposals, each
    /// line is first proposed its estimate.
    pub fn run(
        &self,
        field: &mut Field,
        budget: u32,
        order: Order,
        proposals: bool,
    ) -> Result<Outcome, Refusal> {
        self.formed.run(field, budget, order, proposals)
    }

    /// Relaxes one cell: raises it to its required pressure, with the others fixed.
    pub fn relax(&self, field: &mut Field, cell: usize) -> Result<Relaxed, Refusal> {
        self.formed.relax(field, cell)
    }

    /// A cell's slack: diagonal × pressure − the sum of link × neighbour's pressure + source. A
    /// field is feasible when no slack is negative.
    pub fn slack(&self, field: &Field, cell: usize) -> Result<i64, Refusal> {
        self.formed.slack(field, cell)
    }

    /// The film's margin: an estimate keeps this many weights below the real solution of its line.
    pub fn margin(&self) -> Result<u32, Refusal> {
        self.formed.margin()
    }

    /// Proposes pressures for a line, 1 to the number of rows: one for each column. Where the exact
    /// test accepts them, each cell gets the larger of proposal and pressure.
    pub fn propose(
        &self,
        field: &mut Field,
        line: u32,
        proposal: &[u32],
    ) -> Result<Proposed, Refusal> {
        self.formed.propose(field, line, proposal)
    }

    /// The program's own proposal for a line, worked in binary64 from the field as it stands.
    pub fn estimate(&self, field: &Field, line: u32) -> Result<Vec<u32>, Refusal> {
        self.formed.estimate(field, line)
    }
}
