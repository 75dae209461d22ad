//! Coefficient films in plain Rust: reading and writing their files, converting gauged films, and
//! the report, with the tests of Film's calls in the same order.

use crate::calls::{head, Refused};
use crate::plain;
use crate::plain_file::{
    body, carried, opening, report_run, test, test_ceiling, test_numbers, test_shape, test_weights,
    Numbers, WEIGHTS,
};
use crate::problem::System;
use film::raw::Coefficients;
use film::Head;

/// Places of every buffer that a reader is lent.
const PLACES: usize = 1_024;

/// Reads a file into the five lent buffers; hands back the head.
///
/// Nothing is written before the last test has passed: the numbers are decoded into tables of the
/// reader's own, and then copied. These tables, 22 kB, are cleared at each call; the lent buffers
/// are not.
#[inline(never)]
pub fn read(file: &[u8], lent: Coefficients) -> Result<Head, Refused> {
    let words = [lent.diagonals.len(), lent.rights.len(), lent.ups.len()];
    let fits = words == [PLACES; 3] && [lent.weights.len(), lent.sources.len()] == [PLACES; 2];
    test(fits, 10, 0)?;
    let (mut weights, mut sources) = ([0; PLACES], [0; PLACES]);
    let (mut diagonals, mut rights, mut ups) = ([0; PLACES], [0; PLACES], [0; PLACES]);
    let (rows, columns, ceiling, at_diagonals) = opening(file, &mut weights)?;
    let cells = rows * columns;
    let [at_rights, at_ups, at_sources, end] = offsets(at_diagonals, cells);
    decode(
        body(file, at_diagonals, 6, 4 * cells)?,
        &mut diagonals,
        u32::from_be_bytes,
    );
    decode(
        body(file, at_rights, 7, 4 * cells)?,
        &mut rights,
        u32::from_be_bytes,
    );
    decode(
        body(file, at_ups, 8, 4 * cells)?,
        &mut ups,
        u32::from_be_bytes,
    );
    decode(
        body(file, at_sources, 9, 8 * cells)?,
        &mut sources,
        i64::from_be_bytes,
    );
    test(file.len() == end, 2, end)?;
    let found = System {
        rows,
        columns,
        ceiling,
        weights: &weights[..cells],
        diagonals: &diagonals[..cells],
        rights: &rights[..cells],
        ups: &ups[..cells],
        sources: &sources[..cells],
    };
    test_limits(found)?;
    if at_diagonals == WEIGHTS {
        let least = plain::least_weights(found)?;
        lent.weights[..cells].copy_from_slice(&least[..cells]);
    } else {
        test_row_sums(found)?;
        lent.weights[..cells].copy_from_slice(found.weights);
    }
    hand_over(found, lent);
    Ok(head(rows, columns, ceiling))
}

/// The coefficients into the lent buffers, where the weights are already.
#[inline(always)]
fn hand_over(found: System, lent: Coefficients) {
    let cells = found.diagonals.len();
    lent.diagonals[..cells].copy_from_slice(found.diagonals);
    lent.rights[..cells].copy_from_slice(found.rights);
    lent.ups[..cells].copy_from_slice(found.ups);
    lent.sources[..cells].copy_from_slice(found.sources);
}

/// Where fields 07 to 09 begin, and where the file ends, by where field 06 begins.
fn offsets(diagonals: usize, cells: usize) -> [usize; 4] {
    let rights = diagonals + 3 + 4 * cells;
    let ups = rights + 3 + 4 * cells;
    let sources = ups + 3 + 4 * cells;
    [rights, ups, sources, sources + 3 + 8 * cells]
}

/// The numbers of a body, each of as many bytes as `number` takes.
fn decode<T, const BYTES: usize>(
    body: &[u8],
    table: &mut [T; PLACES],
    number: impl Fn([u8; BYTES]) -> T,
) {
    for (place, bytes) in table.iter_mut().zip(body.chunks_exact(BYTES)) {
        *place = number(bytes.try_into().expect("a chunk has its length"));
    }
}

/// Refusal 14, at the lowest cell that meets it.
fn test_limits(system: System) -> Result<(), Refused> {
    for row in 0..system.rows {
        for column in 0..system.columns {
            let cell = row * system.columns + column;
            let most_right = largest(column + 1 == system.columns);
            let most_up = largest(row + 1 == system.rows);
            let within = (1..=268_435_456).contains(&system.diagonals[cell])
                && system.rights[cell] <= most_right
                && system.ups[cell] <= most_up
                && system.sources[cell].unsigned_abs() <= 1 << 50;
            test(within, 14, cell)?;
        }
    }
    Ok(())
}

/// Refusal 9, at the lowest cell that meets it.
fn test_row_sums(system: System) -> Result<(), Refused> {
    (0..system.weights.len()).try_for_each(|cell| test(plain::dominance(system, cell) > 0, 9, cell))
}

/// The largest link, or one that leads out of the grid.
fn largest(outward: bool) -> u32 {
    if outward {
        0
    } else {
        67_108_864
    }
}

/// Writes a film's file into `out`.
#[inline(never)]
pub fn write(film: System, out: &mut [u8]) -> Result<(), Refused> {
    test_shape(film.rows, film.columns)?;
    let cells = film.rows * film.columns;
    let at_diagonals = WEIGHTS + 2 * cells;
    let [at_rights, at_ups, at_sources, end] = offsets(at_diagonals, cells);
    test(film.fits(cells) && out.len() == end, 10, 0)?;
    test_ceiling(film.ceiling)?;
    test_weights(film.weights)?;
    test_limits(film)?;
    test_row_sums(film)?;
    put_opening(film.rows, film.columns, film.ceiling, film.weights, out);
    put(out, at_diagonals, 6, film.diagonals, u32::to_be_bytes);
    put(out, at_rights, 7, film.rights, u32::to_be_bytes);
    put(out, at_ups, 8, film.ups, u32::to_be_bytes);
    put(out, at_sources, 9, film.sources, i64::to_be_bytes);
    Ok(())
}

/// Fields 01 to 03.
fn put_opening(rows: usize, columns: usize, ceiling: u32, weights: &[u16], out: &mut [u8]) {
    put(out, 0, 1, &[rows as u8, columns as u8], u8::to_be_bytes);
    put(out, 5, 2, &[ceiling], u32::to_be_bytes);
    put(out, 12, 3, weights, u16::to_be_bytes);
}

/// One field: its header, and numbers as its body.
fn put<T: Copy, const BYTES: usize>(
    out: &mut [u8],
    at: usize,
    tag: u8,
    numbers: &[T],
    bytes: impl Fn(T) -> [u8; BYTES],
) {
    let body = put_header(out, at, tag, BYTES * numbers.len());
    for (place, &number) in body.chunks_exact_mut(BYTES).zip(numbers) {
        place.copy_from_slice(&bytes(number));
    }
}

/// A field's header; hands back where its body goes.
fn put_header(out: &mut [u8], at: usize, tag: u8, length: usize) -> &mut [u8] {
    let field = &mut out[at..at + 3 + length];
    let (header, body) = field.split_at_mut(3);
    header[0] = tag;
    header[1..].copy_from_slice(&(length as u16).to_be_bytes());
    body
}

/// Writes the file of the coefficient film of a gauged film's problem into `out`: each cell's
/// coefficients are formed and put where they belong, with no table between.
#[inline(never)]
pub fn convert(film: Numbers, out: &mut [u8]) -> Result<(), Refused> {
    test_shape(film.rows, film.columns)?;
    let cells = film.rows * film.columns;
    let at_diagonals = WEIGHTS + 2 * cells;
    let [at_rights, at_ups, at_sources, end] = offsets(at_diagonals, cells);
    test(out.len() == end, 10, 0)?;
    test_numbers(film)?;
    put_opening(film.rows, film.columns, film.ceiling, film.weights, out);
    for (at, tag, bytes) in [
        (at_diagonals, 6, 4),
        (at_rights, 7, 4),
        (at_ups, 8, 4),
        (at_sources, 9, 8),
    ] {
        put_header(out, at, tag, bytes * cells);
    }
    let steps = film.factors();
    for row in 1..=film.rows {
        for column in 1..=film.columns {
            let cell = (row - 1) * film.columns + column - 1;
            let formed = film.formed(steps, row, column);
            put_number(out, at_diagonals, cell, formed.diagonal.to_be_bytes());
            put_number(out, at_rights, cell, formed.right.to_be_bytes());
            put_number(out, at_ups, cell, formed.up.to_be_bytes());
            put_number(out, at_sources, cell, formed.source.to_be_bytes());
        }
    }
    Ok(())
}

/// One cell's number in the field that begins at `at`.
fn put_number<const BYTES: usize>(out: &mut [u8], at: usize, cell: usize, number: [u8; BYTES]) {
    let place = at + 3 + BYTES * cell;
    out[place..place + BYTES].copy_from_slice(&number);
}

/// Whether the tag behind field 03 is 06, so that the report is that of a coefficient film.
pub fn has_coefficients(file: &[u8]) -> bool {
    let Some(&[rows, columns]) = file.get(3..5) else {
        return false;
    };
    let weights = carried(file, usize::from(rows) * usize::from(columns));
    file.get(WEIGHTS + 2 * weights) == Some(&0x06)
}

/// The report of an accepted coefficient film's file.
pub fn report(file: &[u8], text: &mut String) -> Result<(), Refused> {
    let (mut weights, mut sources) = ([0; PLACES], [0; PLACES]);
    let (mut diagonals, mut rights, mut ups) = ([0; PLACES], [0; PLACES], [0; PLACES]);
    let lent = Coefficients {
        weights: &mut weights,
        diagonals: &mut diagonals,
        rights: &mut rights,
        ups: &mut ups,
        sources: &mut sources,
    };
    let head = read(file, lent)?;
    let (rows, columns, ceiling) = (head.rows as usize, head.columns as usize, head.ceiling);
    let cells = rows * columns;
    let system = System {
        rows,
        columns,
        ceiling,
        weights: &weights[..cells],
        diagonals: &diagonals[..cells],
        rights: &rights[..cells],
        ups: &ups[..cells],
        sources: &sources[..cells],
    };
    report_run(system, text);
    Ok(())
}
