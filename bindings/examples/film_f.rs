//! Prints the least pressure field of film F: for each cell its row, column, pressure and slack.

use film::{Field, Film, Order, Refusal};

/// Film F as its film file: one row of two cells, ceiling 100, wedge 100.
const FILM_F: [u8; 41] = [
    0x01, 0, 2, 1, 2, // rows and columns
    0x02, 0, 4, 0, 0, 0, 100, // ceiling
    0x03, 0, 4, 0, 1, 0, 1, // weights
    0x04, 0, 12, 1, 1, 1, 1, 3, 2, 1, 1, 1, 1, 1, 1, // thicknesses, by rows
    0x05, 0, 4, 0, 0, 0, 100, // wedge
];

fn main() -> Result<(), Refusal> {
    let film = Film::read(&FILM_F)?;
    let mut field = Field::zero(&film);
    let outcome = film.run(&mut field, 4_000_000, Order::Forward, false)?;
    println!("{outcome:?}");
    for (cell, pressure) in field.pressures().iter().enumerate() {
        let (row, column) = (
            cell / film.columns() as usize,
            cell % film.columns() as usize,
        );
        let slack = film.slack(&field, cell)?;
        println!("{} {} {pressure} {slack}", row + 1, column + 1);
    }
    Ok(())
}
