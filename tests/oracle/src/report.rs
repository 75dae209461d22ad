//! The report on a file's bytes (document 01, "The report"), of either kind of film (document 02, W1).

use crate::coefficient_film::{self, convert, CoefficientFilm};
use crate::film::{self, weights_end};
use crate::relax::slack;
use crate::run::{run, Answer, Ordering, Outcome};
use crate::Refusal;

/// Relaxations that the reported run may use.
pub const REPORT_BUDGET: u32 = 4_000_000;

/// The report as bytes: one run from zero, forward, without proposals. Every line ends with one
/// line feed.
pub fn report(bytes: &[u8]) -> Vec<u8> {
    let text = match read(bytes) {
        Ok(film) => report_film(&film),
        Err(refusal) => format!("REFUSED {} {}\n", refusal.number, refusal.place),
    };
    text.into_bytes()
}

/// The film of a file of either kind, as coefficients: the coefficient reader where the tag after
/// field 03 is 06.
pub fn read(bytes: &[u8]) -> Result<CoefficientFilm, Refusal> {
    if tag_after_weights(bytes) == Some(0x06) {
        coefficient_film::read(bytes)
    } else {
        film::read(bytes).map(|film| convert(&film))
    }
}

/// The byte after field 03, by the shape and by the length of that field that stand in the file: None
/// where the file ends before it. Fields 01 to 03 need not be good ones, since both readers refuse them
/// alike.
fn tag_after_weights(bytes: &[u8]) -> Option<u8> {
    let (rows, columns) = (*bytes.get(3)?, *bytes.get(4)?);
    let cells = usize::from(rows) * usize::from(columns);
    bytes.get(weights_end(bytes, cells)).copied()
}

/// The run that a report shows, and the field it leaves.
pub fn reported_run(film: &CoefficientFilm) -> (Outcome, Vec<u32>) {
    let mut field = vec![0; film.cells()];
    let outcome = run(
        film.system(),
        film.ceiling,
        &film.weights,
        &mut field,
        REPORT_BUDGET,
        Ordering::Forward,
        false,
    );
    (outcome, field)
}

fn report_film(film: &CoefficientFilm) -> String {
    let (outcome, field) = reported_run(film);
    let (word, over) = match outcome.answer {
        Answer::Done => ("DONE", None),
        Answer::Stopped => ("STOPPED", None),
        Answer::Over(cell) => ("OVER", Some(cell)),
    };
    let mut text = format!(
        "FILM {} {} CEILING {}\n{} {} {}\n",
        film.rows(),
        film.columns(),
        film.ceiling,
        word,
        outcome.visits,
        outcome.raises
    );
    match over {
        Some(cell) => text.push_str(&format!("{}\n", place(film, cell))),
        None => text.push_str(&field_lines(film, &field)),
    }
    text
}

/// A line for each cell by index, then the peak.
fn field_lines(film: &CoefficientFilm, field: &[u32]) -> String {
    let mut text = String::new();
    for (cell, pressure) in field.iter().enumerate() {
        let slack = slack(film.system(), field, cell);
        text.push_str(&format!("{} {pressure} {slack}\n", place(film, cell)));
    }
    let peak = peak(film, field);
    text.push_str(&format!("PEAK {} {}\n", place(film, peak), field[peak]));
    text
}

/// The cell of the greatest pressure; among equals the one of the greatest column, and there of the
/// lowest row (document 02, W3). It is the first to be met from the last column back, each column from
/// row 1 up.
fn peak(film: &CoefficientFilm, field: &[u32]) -> usize {
    let (rows, columns) = (film.rows(), film.columns());
    let greatest = field.iter().max().expect("a film has cells");
    (0..columns)
        .rev()
        .flat_map(|column| (0..rows).map(move |row| row * columns + column))
        .find(|&cell| field[cell] == *greatest)
        .expect("one of them has it")
}

/// r and c of a cell, from (1, 1).
fn place(film: &CoefficientFilm, cell: usize) -> String {
    let columns = film.columns();
    format!("{} {}", cell / columns + 1, cell % columns + 1)
}
