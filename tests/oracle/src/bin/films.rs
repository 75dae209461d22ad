//! Writes the sample films into a directory, and says on standard output what their reports show, and what
//! the search took where the program finds the weights.

use film_oracle::coefficients::form;
use film_oracle::film::read_fields;
use film_oracle::report::report;
use film_oracle::samples::samples;
use film_oracle::weights::{search, SEARCH_BUDGET};
use std::path::Path;
use std::{env, fs, io, process};

fn main() -> io::Result<()> {
    let arguments: Vec<String> = env::args().skip(1).collect();
    let [directory] = arguments.as_slice() else {
        eprintln!("usage: films DIRECTORY");
        process::exit(2);
    };
    fs::create_dir_all(directory)?;
    for (name, bytes) in samples() {
        fs::write(Path::new(directory).join(format!("{name}.film")), &bytes)?;
        println!("{name}.film: {} bytes", bytes.len());
        let text = String::from_utf8(report(&bytes)).expect("a report is plain text");
        show_ends(&text);
        show_search(&bytes);
    }
    Ok(())
}

/// The first two lines and the last one of a report.
fn show_ends(text: &str) {
    let lines: Vec<&str> = text.lines().collect();
    for (number, line) in lines.iter().enumerate() {
        if number < 2 || number + 1 == lines.len() {
            println!("    {line}");
        }
    }
}

/// The search of a gauged film without weights: its answer, visits and raises, and the greatest weight that
/// it came to.
fn show_search(bytes: &[u8]) {
    let Ok(film) = read_fields(bytes) else {
        return;
    };
    if film.weights.is_empty() {
        let (outcome, found) = search(form(&film).system(), SEARCH_BUDGET);
        let greatest = found.iter().max().expect("a film has cells");
        println!(
            "    search: {:?}, {} visits, {} raises, greatest weight {greatest}",
            outcome.answer, outcome.visits, outcome.raises
        );
    }
}
