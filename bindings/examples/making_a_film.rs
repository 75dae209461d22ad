//! From a table of gauged thicknesses to a film file, its report and its load, and from the file
//! back to the table: the worked example of docs/MAKING-A-FILM.md.
//!
//! The file goes to the path that is given, or else to `slider.film` in the folder for temporary
//! files.

use film::{report, Field, Film, Head, Order, Outcome, Refusal};
use std::error::Error;
use std::path::PathBuf;
use std::{env, fs};

/// Cells of the grid. The table has a place more on each side, the ring: the pad's edge, where the
/// pressure is the ambient one.
const ROWS: usize = 3;
const COLUMNS: usize = 5;

/// Gauged thicknesses in micrometres. The film narrows towards rising columns, where the moving
/// surface goes, and widens again behind the last of them, where the pad's edge is relieved.
const TABLE: [[f64; COLUMNS + 2]; ROWS + 2] = [
    [60.2, 51.3, 42.6, 33.8, 27.2, 25.1, 35.0],
    [60.0, 51.0, 42.2, 33.4, 26.7, 24.8, 34.6],
    [59.8, 50.8, 42.0, 33.2, 26.5, 24.5, 34.4],
    [60.0, 51.0, 42.3, 33.4, 26.8, 24.7, 34.7],
    [60.3, 51.4, 42.6, 33.9, 27.1, 25.2, 35.1],
];
const MICROMETRE: f64 = 1e-6;

// Oil, motion and grid, in SI units.
const VISCOSITY: f64 = 0.03; // Pa s
const SPEED: f64 = 5.0; // m/s, towards rising columns
const GRID_STEP: f64 = 5e-3; // m, along rows and along columns

// What a whole number stands for.
const THICKNESS_STEP: f64 = 0.5e-6; // m: the largest thickness, 128 steps, is 64 micrometres
const PRESSURE_STEP: f64 = 100.0; // Pa

/// 10 MPa: well above the peak to be expected, so that the film is not Over.
const CEILING: u32 = 100_000;

fn main() -> Result<(), Box<dyn Error>> {
    let path = path();
    let film = slider()?;
    let file = film.write()?;
    fs::write(&path, &file)?;
    println!(
        "{}: {} bytes, wedge {}",
        path.display(),
        file.len(),
        film.wedge()
    );
    print!("{}", String::from_utf8(report(&file)?)?);
    show_load(&film)?;
    show_table(&Film::read(&fs::read(&path)?)?);
    Ok(())
}

fn path() -> PathBuf {
    let given = env::args_os().nth(1).map(PathBuf::from);
    given.unwrap_or_else(|| env::temp_dir().join("slider.film"))
}

fn slider() -> Result<Film, Box<dyn Error>> {
    let thicknesses = thicknesses()?;
    let head = Head {
        rows: ROWS as u32,
        columns: COLUMNS as u32,
        ceiling: CEILING,
    };
    // Weights are found. No steps: the grid is equal both ways.
    Ok(Film::from_thicknesses(head, &thicknesses, wedge(), None)?)
}

/// The table in whole steps, by rows, the ring included.
fn thicknesses() -> Result<Vec<u8>, String> {
    let table = TABLE.iter().flatten();
    table.map(|gauged| steps(gauged * MICROMETRE)).collect()
}

fn steps(thickness: f64) -> Result<u8, String> {
    let steps = (thickness / THICKNESS_STEP).round();
    if (1.0..=128.0).contains(&steps) {
        Ok(steps as u8)
    } else {
        let gauged = thickness / MICROMETRE;
        Err(format!("{gauged:.1} µm is {steps} steps, not 1 to 128"))
    }
}

/// The wedge number. Beyond what 32 bits hold the cast stops at their end, and the film is refused
/// with 8.
fn wedge() -> i32 {
    let real = 24.0 * VISCOSITY * SPEED * GRID_STEP / (THICKNESS_STEP.powi(2) * PRESSURE_STEP);
    real.round() as i32
}

/// The least field in units: peak and lift.
fn show_load(film: &Film) -> Result<(), Refusal> {
    let mut field = Field::zero(film);
    let outcome = film.run(&mut field, 4_000_000, Order::Forward, false)?;
    if !matches!(outcome, Outcome::Done(_)) {
        println!("no least field: {outcome:?}");
        return Ok(());
    }
    let pascals = |steps: u32| f64::from(steps) * PRESSURE_STEP;
    let peak = field.pressures().iter().copied().max().map_or(0.0, pascals);
    let total: f64 = field.pressures().iter().copied().map(pascals).sum();
    println!("peak {:.1} kPa", peak / 1e3);
    println!("lift {:.1} N", total * GRID_STEP * GRID_STEP);
    Ok(())
}

/// The thicknesses of a film in micrometres, as they were rounded.
fn show_table(film: &Film) {
    for row in film.thicknesses().chunks(film.columns() as usize + 2) {
        for &steps in row {
            print!("{:6.1}", f64::from(steps) * THICKNESS_STEP / MICROMETRE);
        }
        println!();
    }
}
