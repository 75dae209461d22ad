//! Reading films without weights, and the search for them.

use crate::page::{percent, remark, whole, Section};
use crate::sections::{coefficient_files, files};
use film_oracle::coefficient_film::{self, convert};
use film_oracle::coefficients::form;
use film_oracle::film::{read, write, Film};
use film_oracle::run::Outcome;
use film_oracle::samples;
use film_oracle::weights::{search, SEARCH_BUDGET};

const NOTE: &str = "\
`film_read` of files without weights, and plain Rust doing the same with the same tests: the reading of section 4,
then the loop of section 1, from zero with source −1 in each cell and 65,535 for ceiling, 4,000,000 relaxations at
most. `with weights` is the same film with the found weights in its file. `the search alone` is the difference of
the two: forming, where the film is gauged, and the search, less the test of the weights that are in the file. As
coefficients the film is read by `film_read_coefficients`. The last row has the longest search. Microseconds a
call; relaxations, in millions a second, are by the time of the row.";

pub fn section() -> Section {
    Section {
        title: "7. Weights found by the program",
        note: NOTE.to_string(),
        heads: vec![
            "film read",
            "relaxations",
            "raises",
            "Film µs",
            "Rust µs",
            "time ratio",
            "Film M/s",
            "Rust M/s",
            "",
        ],
        rows: rows(),
    }
}

fn rows() -> Vec<Vec<String>> {
    let rough = samples::rough_pad();
    let gauged = |film: &Film| files::read_times(&write(film));
    let meshed = |film: &Film| {
        let file = coefficient_film::write(&convert(film));
        coefficient_files::read_times(&file)
    };
    let mut rows = found_rows("rough-pad.film, 32 × 32", &rough, &gauged);
    rows.extend(found_rows(
        "rough-pad.film as coefficients",
        &rough,
        &meshed,
    ));
    for (name, film) in [
        (
            "no-weights.film, 3 × 3: refused with 16",
            samples::no_weights(),
        ),
        ("stopped.film without weights: refused with 17", stopped()),
    ] {
        rows.push(row(name, Some(searched(&film)), gauged(&film)));
    }
    rows
}

/// The same film with the weights that the oracle finds.
fn found(film: &Film) -> Film {
    read(&write(film)).expect("a film that has weights")
}

/// The film that is Stopped, without its weights: the search for them is stopped too.
fn stopped() -> Film {
    Film {
        weights: Vec::new(),
        ..samples::stopped()
    }
}

/// The oracle's search.
fn searched(film: &Film) -> Outcome {
    search(form(film).system(), SEARCH_BUDGET).0
}

/// Rows of a film that weights are found for, by how its reading is timed.
fn found_rows(name: &str, film: &Film, times: &dyn Fn(&Film) -> [f64; 2]) -> Vec<Vec<String>> {
    let counts = Some(searched(film));
    let (without, with) = (times(film), times(&found(film)));
    let alone = [without[0] - with[0], without[1] - with[1]];
    vec![
        row(&format!("{name}, without weights"), counts, without),
        row(&format!("{name}, with weights"), None, with),
        row("the search alone", counts, alone),
    ]
}

fn row(name: &str, counts: Option<Outcome>, [film, rust]: [f64; 2]) -> Vec<String> {
    let counted = |text: &dyn Fn(Outcome) -> String| counts.map_or(String::new(), text);
    let speed =
        |time: f64| counted(&|counts| format!("{:.1}", 1e3 * f64::from(counts.visits) / time));
    vec![
        name.to_string(),
        counted(&|counts| whole(counts.visits)),
        counted(&|counts| percent(counts.raises, counts.visits)),
        format!("{:.1}", film / 1e3),
        format!("{:.1}", rust / 1e3),
        format!("{:.3}", film / rust),
        speed(film),
        speed(rust),
        remark(film / rust),
    ]
}
