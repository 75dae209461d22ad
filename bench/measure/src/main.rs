//! Measures Film's calls, by turns with what they are compared with, and prints the page of results.
//! Usage: measure RUSTC DATE [FILE]: the compiler's version and the date for the head of the page,
//! and a file to write it to as Markdown too. `measure report` prints the report of the film on
//! standard input, in plain Rust.

mod calls;
mod clock;
mod page;
mod plain;
mod plain_coefficients;
mod plain_file;
mod problem;
mod real;
mod sections;

use page::Page;
use std::{env, fs, io, process, thread};

fn main() -> io::Result<()> {
    let arguments: Vec<String> = env::args().skip(1).collect();
    let (compiler, date, file) = match arguments.as_slice() {
        [mode] if mode == sections::program::MODE => return sections::program::print_report(),
        [compiler, date] => (compiler, date, None),
        [compiler, date, file] => (compiler, date, Some(file)),
        _ => {
            eprintln!("usage: measure RUSTC DATE [FILE], or measure report < FILE");
            process::exit(2);
        }
    };
    let page = Page {
        machine: machine(compiler, date)?,
        rules: rules(),
        sections: vec![
            sections::relaxations::section(),
            sections::real_numbers::section(),
            sections::proposals::section(),
            sections::files::section(),
            sections::growth::section(),
            sections::program::section(),
            sections::search::section(),
        ],
    };
    print!("{}", page.text());
    match file {
        Some(file) => fs::write(file, page.markdown()),
        None => Ok(()),
    }
}

/// The machine that measured, the compiler of the Rust side, and the day.
fn machine(compiler: &str, date: &str) -> io::Result<String> {
    let told = fs::read_to_string("/proc/cpuinfo")?;
    let model = told
        .lines()
        .find(|line| line.starts_with("model name"))
        .and_then(|line| line.split_once(": "))
        .map_or("unknown processor", |(_, model)| model);
    let cores = thread::available_parallelism()?;
    Ok(format!(
        "Film measured on {date}: {model}, {cores} cores, {compiler}, both sides -O3 for x86-64."
    ))
}

fn rules() -> String {
    format!(
        "Each time is the best of {} turns; the sides of a row take turns in one run. Every ratio is Film's figure by the \
         other's:\nbelow 1 Film is faster, or needs less. Before a row is measured its sides are checked to agree.",
        clock::TURNS
    )
}
