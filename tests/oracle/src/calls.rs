//! The calls that take coefficients, and those on coefficient files, with their tests: each checks
//! what it was given and then does the plain work on slices. A refused call changes nothing.

use crate::checks::{check, check_limits, Given};
use crate::coefficient_film::{self, CoefficientFilm, COEFFICIENT_BUFFER};
use crate::coefficients::{Coefficients, System};
use crate::film::{
    check_ceiling, check_dominance, check_numbers, check_shape, check_weights, Numbers,
};
use crate::line::{self, Proposed};
use crate::relax::{self, Relaxed};
use crate::run::{self, Ordering, Outcome};
use crate::{refuse, Refusal, Whole};

/// Coefficients as a call is given them; the shape may be anything at all.
#[derive(Clone, Copy)]
pub struct Problem<'a> {
    pub rows: Whole,
    pub columns: Whole,
    pub ceiling: Whole,
    pub diagonals: &'a [Whole],
    pub rights: &'a [Whole],
    pub ups: &'a [Whole],
    pub sources: &'a [Whole],
    pub weights: &'a [u16],
}

impl<'a> Problem<'a> {
    /// The inputs that every call on a film has.
    pub fn given(self) -> Given<'a> {
        Given {
            rows: self.rows,
            columns: self.columns,
            ceiling: Some(self.ceiling),
            diagonals: Some(self.diagonals),
            rights: Some(self.rights),
            ups: Some(self.ups),
            sources: Some(self.sources),
            weights: Some(self.weights),
            ..Given::default()
        }
    }

    /// The coefficients, once the shape has been tested.
    fn system(self) -> System<'a> {
        System {
            rows: self.rows as usize,
            columns: self.columns as usize,
            diagonals: self.diagonals,
            rights: self.rights,
            ups: self.ups,
            sources: self.sources,
        }
    }

    /// The film that a file would have, once all has been tested.
    fn film(self) -> CoefficientFilm {
        CoefficientFilm {
            ceiling: self.ceiling as u32,
            weights: self.weights.to_vec(),
            coefficients: Coefficients {
                rows: self.rows as usize,
                columns: self.columns as usize,
                diagonals: self.diagonals.to_vec(),
                rights: self.rights.to_vec(),
                ups: self.ups.to_vec(),
                sources: self.sources.to_vec(),
            },
        }
    }
}

/// Document 01: spare of a cell in a field.
pub fn slack(problem: Problem, field: &[u32], cell: Whole) -> Result<Whole, Refusal> {
    check_cell(problem, field, cell)?;
    Ok(relax::slack(problem.system(), field, cell as usize))
}

/// Document 01: need of a cell.
pub fn required(problem: Problem, field: &[u32], cell: Whole) -> Result<Whole, Refusal> {
    check_cell(problem, field, cell)?;
    Ok(relax::required(problem.system(), field, cell as usize))
}

/// Document 01: visit of a cell.
pub fn relax(problem: Problem, field: &mut [u32], cell: Whole) -> Result<Relaxed, Refusal> {
    check_cell(problem, field, cell)?;
    let ceiling = problem.ceiling as u32;
    Ok(relax::relax(
        problem.system(),
        ceiling,
        field,
        cell as usize,
    ))
}

fn check_cell(problem: Problem, field: &[u32], cell: Whole) -> Result<(), Refusal> {
    check(&Given {
        field: Some(field),
        cell: Some(cell),
        ..problem.given()
    })
}

/// Document 01: K of a film.
pub fn margin(problem: Problem) -> Result<Whole, Refusal> {
    check(&problem.given())?;
    Ok(line::margin(problem.system(), problem.weights))
}

/// Document 01: line offer.
pub fn propose(
    problem: Problem,
    field: &mut [u32],
    line: Whole,
    offer: &[u32],
) -> Result<Proposed, Refusal> {
    check(&Given {
        field: Some(field),
        line: Some(line),
        line_lengths: &[offer.len()],
        ..problem.given()
    })?;
    let ceiling = problem.ceiling as u32;
    Ok(line::propose(
        problem.system(),
        ceiling,
        field,
        line as usize,
        offer,
    ))
}

/// Document 01: the program's own offer, into a lent slice of C numbers.
pub fn estimate(
    problem: Problem,
    field: &[u32],
    line: Whole,
    out: &mut [u32],
) -> Result<(), Refusal> {
    check(&Given {
        field: Some(field),
        line: Some(line),
        line_lengths: &[out.len()],
        ..problem.given()
    })?;
    let offer = line::estimate(problem.system(), problem.weights, field, line as usize);
    out.copy_from_slice(&offer);
    Ok(())
}

/// Document 01: run. The tests come before the budget is looked at.
pub fn run(
    problem: Problem,
    field: &mut [u32],
    budget: u32,
    ordering: Whole,
    proposals: bool,
) -> Result<Outcome, Refusal> {
    check(&Given {
        field: Some(field),
        ordering: Some(ordering),
        ..problem.given()
    })?;
    let ordering = Ordering::from_number(ordering).expect("tested above");
    Ok(run::run(
        problem.system(),
        problem.ceiling as u32,
        problem.weights,
        field,
        budget,
        ordering,
        proposals,
    ))
}

/// The five buffers that a caller lends to the reader of coefficient files.
pub struct Buffers<'a> {
    pub weights: &'a mut [u16],
    pub diagonals: &'a mut [u32],
    pub rights: &'a mut [u32],
    pub ups: &'a mut [u32],
    pub sources: &'a mut [i64],
}

impl Buffers<'_> {
    fn lengths(&self) -> [usize; 5] {
        [
            self.weights.len(),
            self.diagonals.len(),
            self.rights.len(),
            self.ups.len(),
            self.sources.len(),
        ]
    }
}

/// Document 02, W1: the coefficient file's reader. It fills the first N places of each buffer and
/// hands back rows, columns and ceiling. Wrong buffers come before the file is looked at.
pub fn read_coefficients(bytes: &[u8], buffers: Buffers) -> Result<(usize, usize, u32), Refusal> {
    if buffers.lengths() != [COEFFICIENT_BUFFER; 5] {
        return refuse(10, 0);
    }
    let film = coefficient_film::read(bytes)?;
    let coefficients = &film.coefficients;
    buffers.weights[..film.cells()].copy_from_slice(&film.weights);
    fill(buffers.diagonals, &coefficients.diagonals);
    fill(buffers.rights, &coefficients.rights);
    fill(buffers.ups, &coefficients.ups);
    fill(buffers.sources, &coefficients.sources);
    Ok((film.rows(), film.columns(), film.ceiling))
}

/// Puts numbers of a file into the first places of a buffer.
fn fill<T: TryFrom<Whole>>(buffer: &mut [T], numbers: &[Whole]) {
    for (place, &number) in buffer.iter_mut().zip(numbers) {
        let Ok(number) = T::try_from(number) else {
            unreachable!("{number} has come from a number of this width");
        };
        *place = number;
    }
}

/// Document 02, W1: the coefficient file's writer, into a lent slice that has exactly the file's
/// length. It tests 4, 10, 5, 6 at the offsets that the numbers would get, then 14 and 9 at the
/// cell.
pub fn write_coefficients(problem: Problem, out: &mut [u8]) -> Result<(), Refusal> {
    check_shape(problem.rows, problem.columns)?;
    let (rows, columns) = (problem.rows as usize, problem.columns as usize);
    let lists = [
        problem.diagonals,
        problem.rights,
        problem.ups,
        problem.sources,
    ];
    let cells = rows * columns;
    let fits = lists.iter().all(|list| list.len() == cells)
        && problem.weights.len() == cells
        && out.len() == coefficient_film::file_length(rows, columns);
    if !fits {
        return refuse(10, 0);
    }
    check_ceiling(problem.ceiling)?;
    check_weights(problem.weights)?;
    check_limits(problem.system())?;
    check_dominance(problem.system(), problem.weights)?;
    out.copy_from_slice(&coefficient_film::write(&problem.film()));
    Ok(())
}

/// Document 02, W1: the converter, into a lent slice that has exactly the coefficient file's length.
/// Its refusals are those of the forming call, at the gauged film's offsets.
pub fn convert(given: Numbers, out: &mut [u8]) -> Result<(), Refusal> {
    let length = out.len();
    let film = check_numbers(given, |rows, columns| {
        length == coefficient_film::file_length(rows, columns)
    })?;
    let converted = coefficient_film::convert(&film);
    out.copy_from_slice(&coefficient_film::write(&converted));
    Ok(())
}
