//! Reading a gauged film's file, forming coefficients and printing the report, in plain Rust: what
//! Film's calls do, with the same tests, as one would write it without proofs.

use crate::calls::{head, steps_of, Lent, Refused};
use crate::plain::{self, End};
use crate::plain_coefficients;
use crate::problem::System;
use film::{Head, Steps};
use film_oracle::film::Film;
use std::fmt::{self, Write};

/// A film's numbers as slices.
#[derive(Clone, Copy)]
pub struct Numbers<'a> {
    pub rows: usize,
    pub columns: usize,
    pub ceiling: u32,
    pub weights: &'a [u16],
    pub thicknesses: &'a [u8],
    pub wedge: i32,
    pub steps: Option<Steps>,
}

/// The coefficients of a cell.
pub struct Formed {
    pub diagonal: u32,
    pub right: u32,
    pub up: u32,
    pub source: i64,
}

impl<'a> Numbers<'a> {
    pub fn of(film: &'a Film) -> Numbers<'a> {
        Numbers {
            rows: film.rows,
            columns: film.columns,
            ceiling: film.ceiling,
            weights: &film.weights,
            thicknesses: &film.thickness,
            wedge: film.wedge,
            steps: steps_of(film),
        }
    }

    /// What links within a row and links between rows are multiplied by.
    pub fn factors(&self) -> Steps {
        self.steps.unwrap_or(Steps {
            along: 1,
            across: 1,
        })
    }

    /// Thickness at row 0 to R + 1 and column 0 to C + 1.
    fn thickness(&self, row: usize, column: usize) -> u32 {
        self.thicknesses[row * (self.columns + 2) + column].into()
    }

    /// Links of a cell to those before, after, below and above, the ring included.
    fn links(&self, steps: Steps, row: usize, column: usize) -> [u32; 4] {
        let here = self.thickness(row, column);
        [
            (steps.along, self.thickness(row, column - 1)),
            (steps.along, self.thickness(row, column + 1)),
            (steps.across, self.thickness(row - 1, column)),
            (steps.across, self.thickness(row + 1, column)),
        ]
        .map(|(step, there)| step * (here + there).pow(3))
    }

    /// A cell's coefficients, with the film's factors, which a caller has found once.
    pub fn formed(&self, steps: Steps, row: usize, column: usize) -> Formed {
        let [before, after, below, above] = self.links(steps, row, column);
        let rise =
            i64::from(self.thickness(row, column + 1)) - i64::from(self.thickness(row, column - 1));
        Formed {
            diagonal: before + after + below + above,
            right: if column < self.columns { after } else { 0 },
            up: if row < self.rows { above } else { 0 },
            source: i64::from(self.wedge) * rise,
        }
    }

    /// Weighted row sum.
    fn dominance(&self, steps: Steps, row: usize, column: usize) -> i64 {
        let (rows, columns) = (self.rows, self.columns);
        let cell = (row - 1) * columns + column - 1;
        let [before, after, below, above] = self.links(steps, row, column).map(i64::from);
        let weight = |inside: bool, at: usize| {
            if inside {
                self.weights[at].into()
            } else {
                0
            }
        };
        (before + after + below + above) * i64::from(self.weights[cell])
            - before * weight(column > 1, cell.wrapping_sub(1))
            - after * weight(column < columns, cell + 1)
            - below * weight(row > 1, cell.wrapping_sub(columns))
            - above * weight(row < rows, cell + columns)
    }

    fn not_dominant(&self) -> Result<(), Refused> {
        let steps = self.factors();
        for row in 1..=self.rows {
            for column in 1..=self.columns {
                if self.dominance(steps, row, column) < 1 {
                    return Err((9, (row - 1) * self.columns + column - 1));
                }
            }
        }
        Ok(())
    }
}

/// Reads a file into the lent buffers; hands back head, wedge and steps.
#[inline(never)]
pub fn read(
    file: &[u8],
    weights: &mut [u16],
    thicknesses: &mut [u8],
) -> Result<(Head, i32, Option<Steps>), Refused> {
    if weights.len() != 1_024 || thicknesses.len() != 1_156 {
        return Err((10, 0));
    }
    let mut found = [0; 1_024];
    let (rows, columns, ceiling, at) = opening(file, &mut found)?;
    let cells = rows * columns;
    let ringed = (rows + 2) * (columns + 2);
    let gauged = body(file, at, 4, ringed)?;
    test_thicknesses(gauged, at + 3)?;
    let wedge = long(body(file, at + 3 + ringed, 5, 4)?) as i32;
    test_wedge(wedge, at + 6 + ringed)?;
    let (steps, end) = optional_steps(file, at + 10 + ringed)?;
    test(file.len() == end, 2, end)?;
    let film = Numbers {
        rows,
        columns,
        ceiling,
        weights: &found[..cells],
        thicknesses: gauged,
        wedge,
        steps,
    };
    if at == WEIGHTS {
        let least = least_weights(film)?;
        weights[..cells].copy_from_slice(&least[..cells]);
    } else {
        film.not_dominant()?;
        weights[..cells].copy_from_slice(film.weights);
    }
    thicknesses[..ringed].copy_from_slice(gauged);
    Ok((head(rows, columns, ceiling), wedge, steps))
}

/// The weights of a gauged film whose file has none: its coefficients are formed for the search.
#[inline(never)]
fn least_weights(film: Numbers) -> Result<[u16; 1_024], Refused> {
    let cells = film.rows * film.columns;
    let mut lent = Lent::new(cells);
    fill(film, &mut lent);
    plain::least_weights(System {
        rows: film.rows,
        columns: film.columns,
        ceiling: film.ceiling,
        weights: film.weights,
        diagonals: &lent.diagonals,
        rights: &lent.rights,
        ups: &lent.ups,
        sources: &lent.sources,
    })
}

/// The steps, if their tag stands behind the last required field, and where the file has to end.
fn optional_steps(file: &[u8], at: usize) -> Result<(Option<Steps>, usize), Refused> {
    if file.get(at) != Some(&0x0a) {
        return Ok((None, at));
    }
    let body = body(file, at, 0x0a, 2)?;
    let steps = Steps {
        along: body[0].into(),
        across: body[1].into(),
    };
    test_steps(steps, at + 3)?;
    Ok((Some(steps), at + 5))
}

/// Where the body of field 03 begins; where its field ends too, if the file has no weights.
pub const WEIGHTS: usize = 15;

/// Rows, columns and ceiling of a film, and where the field behind field 03 begins.
type Opening = (usize, usize, u32, usize);

/// Fields 01 to 03, with which both kinds of film begin; the weights, if there are any, go to the
/// table. A part of each reader, as if it were written there.
#[inline(always)]
pub fn opening(file: &[u8], weights: &mut [u16; 1_024]) -> Result<Opening, Refused> {
    let shape = body(file, 0, 1, 2)?;
    let (rows, columns) = (usize::from(shape[0]), usize::from(shape[1]));
    test_shape(rows, columns)?;
    let ceiling = long(body(file, 5, 2, 4)?);
    test_ceiling(ceiling)?;
    let carried = carried(file, rows * columns);
    let pairs = body(file, 12, 3, 2 * carried)?.chunks_exact(2);
    for (weight, pair) in weights.iter_mut().zip(pairs) {
        *weight = u16::from_be_bytes([pair[0], pair[1]]);
    }
    test_weights(&weights[..carried])?;
    Ok((rows, columns, ceiling, WEIGHTS + 2 * carried))
}

/// As many weights as a file of so many cells has: all, or none where the length of field 03 is 0.
pub fn carried(file: &[u8], cells: usize) -> usize {
    match file.get(13..WEIGHTS) {
        Some([0, 0]) => 0,
        _ => cells,
    }
}

/// One field: header, tag, length, presence of the body.
pub fn body(file: &[u8], at: usize, tag: u8, length: usize) -> Result<&[u8], Refused> {
    test(file.len() >= at + 3, 1, file.len())?;
    test(file[at] == tag, 2, at)?;
    let told = u16::from_be_bytes([file[at + 1], file[at + 2]]);
    test(usize::from(told) == length, 3, at)?;
    test(file.len() >= at + 3 + length, 1, file.len())?;
    Ok(&file[at + 3..at + 3 + length])
}

fn long(body: &[u8]) -> u32 {
    u32::from_be_bytes([body[0], body[1], body[2], body[3]])
}

pub fn test(passed: bool, number: u32, place: usize) -> Result<(), Refused> {
    if passed {
        Ok(())
    } else {
        Err((number, place))
    }
}

pub fn test_shape(rows: usize, columns: usize) -> Result<(), Refused> {
    test((1..=32).contains(&rows), 4, 3)?;
    test((1..=32).contains(&columns), 4, 4)
}

pub fn test_ceiling(ceiling: u32) -> Result<(), Refused> {
    test((1..=16_777_216).contains(&ceiling), 5, 8)
}

pub fn test_weights(weights: &[u16]) -> Result<(), Refused> {
    match weights.iter().position(|&weight| weight == 0) {
        Some(cell) => Err((6, 15 + 2 * cell)),
        None => Ok(()),
    }
}

/// `at` is the offset of the first.
fn test_thicknesses(thicknesses: &[u8], at: usize) -> Result<(), Refused> {
    match thicknesses.iter().position(|h| !(1..=128).contains(h)) {
        Some(number) => Err((7, at + number)),
        None => Ok(()),
    }
}

fn test_wedge(wedge: i32, at: usize) -> Result<(), Refused> {
    test((-1_000_000_000..=1_000_000_000).contains(&wedge), 8, at)
}

fn test_steps(steps: Steps, at: usize) -> Result<(), Refused> {
    test((1..=4).contains(&steps.along), 15, at)?;
    test((1..=4).contains(&steps.across), 15, at + 1)
}

/// Forms the coefficients of a film's numbers in the lent slices.
#[inline(never)]
pub fn form(film: Numbers, lent: &mut Lent) -> Result<(), Refused> {
    test_shape(film.rows, film.columns)?;
    let lengths = [
        lent.diagonals.len(),
        lent.rights.len(),
        lent.ups.len(),
        lent.sources.len(),
    ];
    test(lengths == [film.rows * film.columns; 4], 10, 0)?;
    test_numbers(film)?;
    fill(film, lent);
    Ok(())
}

/// The tests of a film's numbers behind that of its shape.
#[inline(always)]
pub fn test_numbers(film: Numbers) -> Result<(), Refused> {
    let cells = film.rows * film.columns;
    let ringed = (film.rows + 2) * (film.columns + 2);
    let fits = film.weights.len() == cells && film.thicknesses.len() == ringed;
    test(fits, 10, 0)?;
    test_ceiling(film.ceiling)?;
    test_weights(film.weights)?;
    test_thicknesses(film.thicknesses, 18 + 2 * cells)?;
    test_wedge(film.wedge, 21 + 2 * cells + ringed)?;
    if let Some(steps) = film.steps {
        test_steps(steps, 28 + 2 * cells + ringed)?;
    }
    film.not_dominant()
}

fn fill(film: Numbers, lent: &mut Lent) {
    let steps = film.factors();
    for row in 1..=film.rows {
        for column in 1..=film.columns {
            let cell = (row - 1) * film.columns + column - 1;
            let formed = film.formed(steps, row, column);
            lent.diagonals[cell] = formed.diagonal;
            lent.rights[cell] = formed.right;
            lent.ups[cell] = formed.up;
            lent.sources[cell] = formed.source;
        }
    }
}

/// The report of an accepted film's file of either kind, after those tests that reading makes.
#[inline(never)]
pub fn report(file: &[u8], text: &mut String) -> Result<(), Refused> {
    if plain_coefficients::has_coefficients(file) {
        return plain_coefficients::report(file, text);
    }
    let (mut weights, mut thicknesses) = ([0; 1_024], [0; 1_156]);
    let (head, wedge, steps) = read(file, &mut weights, &mut thicknesses)?;
    let (rows, columns, ceiling) = (head.rows as usize, head.columns as usize, head.ceiling);
    let cells = rows * columns;
    let film = Numbers {
        rows,
        columns,
        ceiling,
        weights: &weights[..cells],
        thicknesses: &thicknesses[..(rows + 2) * (columns + 2)],
        wedge,
        steps,
    };
    let mut lent = Lent::new(cells);
    fill(film, &mut lent);
    let system = System {
        rows,
        columns,
        ceiling,
        weights: film.weights,
        diagonals: &lent.diagonals,
        rights: &lent.rights,
        ups: &lent.ups,
        sources: &lent.sources,
    };
    report_run(system, text);
    Ok(())
}

/// The reported run of an accepted film, and its text.
pub fn report_run(system: System, text: &mut String) {
    let cells = system.weights.len();
    let mut field = vec![0; cells];
    let ran = plain::run(system, &plain::forward(cells), &mut field, 4_000_000);
    text.clear();
    print(system, &field, ran, text).expect("text grows");
}

fn print(system: System, field: &[u32], ran: plain::Ran, text: &mut String) -> fmt::Result {
    let (rows, columns, ceiling) = (system.rows, system.columns, system.ceiling);
    let place = |cell: usize| (cell / columns + 1, cell % columns + 1);
    let (word, over) = match ran.end {
        End::Done => ("DONE", None),
        End::Stopped => ("STOPPED", None),
        End::Over(cell) => ("OVER", Some(cell)),
    };
    writeln!(text, "FILM {rows} {columns} CEILING {ceiling}")?;
    writeln!(text, "{word} {} {}", ran.visits, ran.raises)?;
    if let Some((row, column)) = over.map(place) {
        return writeln!(text, "{row} {column}");
    }
    // The greatest pressure so far, its column and its row. Rows come in order, so that of equals in
    // one column the lowest row stays.
    let mut peak = (0, 0, 0);
    for (cell, &pressure) in field.iter().enumerate() {
        let (row, column) = place(cell);
        let slack = plain::slack(system, field, cell);
        writeln!(text, "{row} {column} {pressure} {slack}")?;
        if (pressure, column) > (peak.0, peak.1) {
            peak = (pressure, column, row);
        }
    }
    let (pressure, column, row) = peak;
    writeln!(text, "PEAK {row} {column} {pressure}")
}
