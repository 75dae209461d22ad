//! The report program as a whole, from a process's start to its end.

use crate::clock::by_turns;
use crate::page::{remark, Section};
use crate::plain_file;
use film_oracle::report::report;
use std::env;
use std::fs::{self, File};
use std::io::{self, Read, Write};
use std::path::Path;
use std::process::Command;

/// Film's program. `bench/run` has `./film` prove it, and starts the measurement at the top of the tree.
const PROGRAM: &str = "target/bin/film_report";

/// The argument with which this program prints a report: the other side of the rows.
pub const MODE: &str = "report";

const NOTE: &str = "\
`film_report`, which `./film` runs, and a process that does the same in plain Rust: reading, forming, run and
printing of sections 1 and 4. Each has a sample film as its standard input and prints the report into a pipe.
Microseconds from a process's start to its end; film F's go into the start. mesh.film is a coefficient film, and
rough-pad.film has no weights, which are found first.";

pub fn section() -> Section {
    let films = [
        "film-f",
        "tilted-pad",
        "journal",
        "over",
        "stopped",
        "mesh",
        "rough-pad",
    ];
    Section {
        title: "6. The report program as a whole",
        note: NOTE.to_string(),
        heads: vec!["film", "answer", "Film µs", "Rust µs", "time ratio", ""],
        rows: films.into_iter().map(row).collect(),
    }
}

fn row(name: &str) -> Vec<String> {
    let path = format!("films/{name}.film");
    let own = env::current_exe().expect("this program's path");
    let film = || printed(Path::new(PROGRAM), &[], &path);
    let rust = || printed(&own, &[MODE], &path);
    let expected = report(&fs::read(&path).expect("a sample film"));
    assert!(film() == expected, "what film_report prints of {path}");
    assert!(rust() == expected, "what plain Rust prints of {path}");
    let [film, rust] = by_turns([&mut || drop(film()), &mut || drop(rust())]);
    let text = String::from_utf8_lossy(&expected);
    vec![
        format!("{name}.film"),
        text.lines().nth(1).unwrap_or_default().to_string(),
        format!("{:.0}", film / 1e3),
        format!("{:.0}", rust / 1e3),
        format!("{:.3}", film / rust),
        remark(film / rust),
    ]
}

/// What a program prints of a film file on its standard input.
fn printed(program: &Path, arguments: &[&str], path: &str) -> Vec<u8> {
    let film = File::open(path).expect("a sample film");
    let ended = Command::new(program).args(arguments).stdin(film).output();
    let output = ended.unwrap_or_else(|error| panic!("{}: {error}", program.display()));
    output.stdout
}

/// Prints the report of the film on standard input.
pub fn print_report() -> io::Result<()> {
    let (mut file, mut text) = (Vec::new(), String::new());
    io::stdin().read_to_end(&mut file)?;
    plain_file::report(&file, &mut text).expect("an accepted film");
    io::stdout().write_all(text.as_bytes())
}
