//! From a mesh of one's own to a film file, its report and its least field: a plane slider whose
//! columns get narrower towards the thin end, which no gauge grid has: its steps are even.
//!
//! The file goes to the path that is given, or else to `mesh.film` in the folder for temporary
//! files.

use film::{report, CoefficientFilm, Coefficients, Head, Order, Outcome, Refusal};
use std::error::Error;
use std::path::PathBuf;
use std::{env, fs};

/// Widths of the columns and height of the rows, in metres.
const WIDTHS: [f64; COLUMNS] = [10e-3, 8e-3, 6e-3, 4e-3, 3e-3, 2e-3];
const HEIGHT: f64 = 5e-3;
const ROWS: usize = 4;
const COLUMNS: usize = 6;

/// Thickness of the film at inlet and outlet, in metres; between them it falls in a straight line.
const INLET: f64 = 60e-6;
const OUTLET: f64 = 25e-6;

const VISCOSITY: f64 = 0.03; // Pa s
const SPEED: f64 = 5.0; // m/s, towards rising columns

// What a whole number stands for.
const LINK_STEP: f64 = 1e-18; // m³: the largest link is far below 67,108,864
const PRESSURE_STEP: f64 = 100.0; // Pa

/// 10 MPa: well above the peak to be expected, so that the film is not Over.
const CEILING: u32 = 100_000;

fn main() -> Result<(), Box<dyn Error>> {
    let given = env::args_os().nth(1).map(PathBuf::from);
    let path = given.unwrap_or_else(|| env::temp_dir().join("mesh.film"));
    let film = slider()?;
    let file = film.write()?;
    fs::write(&path, &file)?;
    println!("{}: {} bytes", path.display(), file.len());
    print!("{}", String::from_utf8(report(&file)?)?);
    show_field(&CoefficientFilm::read(&fs::read(&path)?)?)
}

/// The film of the mesh, with weights that are found.
fn slider() -> Result<CoefficientFilm, Refusal> {
    let head = Head {
        rows: ROWS as u32,
        columns: COLUMNS as u32,
        ceiling: CEILING,
    };
    CoefficientFilm::from_coefficients(head, &coefficients())
}

/// Reynolds' equation over each cell: through its four faces, each with a link of h³ · length /
/// distance, flows what the moving surface brings, 6 μ U · height · rise of the film over the cell.
///
/// The pressure is 0 on the rim of the pad, half a cell away from the outermost cells. Faces there
/// have no neighbour and count in the diagonal alone. Links are rounded before they are added up, so
/// that no diagonal is below the sum of its cell's links.
fn coefficients() -> Coefficients {
    let mut mesh = Coefficients::default();
    for (row, column) in (0..ROWS).flat_map(|row| (0..COLUMNS).map(move |column| (row, column))) {
        let (before, after) = (across(column), across(column + 1));
        let below = along(column, row == 0);
        let above = along(column, row + 1 == ROWS);
        let right = if column + 1 < COLUMNS { after } else { 0 };
        let up = if row + 1 < ROWS { above } else { 0 };
        let faces = [before, after, below, above];
        mesh.diagonals
            .push(faces.into_iter().fold(0, u32::saturating_add));
        mesh.rights.push(right);
        mesh.ups.push(up);
        mesh.sources.push(source(column));
    }
    mesh
}

/// The link between a column's cells and those of the column before, or the rim.
fn across(column: usize) -> u32 {
    let before = column.checked_sub(1).map_or(0.0, |before| WIDTHS[before]);
    let here = WIDTHS.get(column).unwrap_or(&0.0);
    link(thickness(edge(column)), HEIGHT, (before + here) / 2.0)
}

/// The link between a column's cells and their neighbours in the next row, or the rim.
fn along(column: usize, to_rim: bool) -> u32 {
    let middle = thickness((edge(column) + edge(column + 1)) / 2.0);
    let distance = if to_rim { HEIGHT / 2.0 } else { HEIGHT };
    link(middle, WIDTHS[column], distance)
}

/// Beyond what 32 bits hold the cast stops at their end, as their sum does, and the film is refused
/// with 14.
fn link(thickness: f64, length: f64, distance: f64) -> u32 {
    (thickness.powi(3) * length / distance / LINK_STEP).round() as u32
}

fn source(column: usize) -> i64 {
    let rise = thickness(edge(column + 1)) - thickness(edge(column));
    let brought = 6.0 * VISCOSITY * SPEED * HEIGHT * rise;
    (brought / (LINK_STEP * PRESSURE_STEP)).round() as i64
}

/// How far from the inlet a column begins.
fn edge(column: usize) -> f64 {
    WIDTHS[..column].iter().sum()
}

fn thickness(from_inlet: f64) -> f64 {
    INLET + (OUTLET - INLET) * from_inlet / edge(COLUMNS)
}

/// The least field in kPa, a row of cells in a line.
fn show_field(film: &CoefficientFilm) -> Result<(), Box<dyn Error>> {
    let mut field = film.zero_field();
    let outcome = film.run(&mut field, 4_000_000, Order::Forward, true)?;
    if !matches!(outcome, Outcome::Done(_)) {
        return Err(format!("no least field: {outcome:?}").into());
    }
    for row in field.pressures().chunks(film.columns() as usize) {
        for &steps in row {
            print!("{:8.1}", f64::from(steps) * PRESSURE_STEP / 1e3);
        }
        println!();
    }
    Ok(())
}
