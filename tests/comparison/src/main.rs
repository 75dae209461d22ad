//! Compares every call of the library libfilm.a with the test oracle: random films and lists of calls,
//! from a seed that is printed.

mod binding;
mod coefficient_calls;
mod damage;
mod fields;
mod films;
mod lent;
mod lists;
mod numbers;
mod problems;
mod random;
mod tally;
mod trial;
mod unweighted;

use random::Random;
use std::io::IsTerminal;
use std::panic::{catch_unwind, AssertUnwindSafe};
use std::path::Path;
use std::process::exit;
use std::time::{Duration, Instant, SystemTime};
use std::{env, fs, io};
use tally::Tally;
use trial::Disagreement;

const USAGE: &str = "usage: compare [--seed S] [--count FILMS] [--first FILM]
tests/compare --help says more.";

struct Arguments {
    seed: u64,
    count: u64,
    first: u64,
}

fn main() {
    let Some(arguments) = arguments() else {
        eprintln!("{USAGE}");
        exit(2);
    };
    let Arguments { seed, count, first } = arguments;
    println!("seed {seed}");
    let mut tally = Tally::default();
    let mut progress = Progress::new();
    for film in first..first + count {
        compare(seed, film, &mut tally);
        progress.show(film + 1 - first, tally.calls());
    }
    progress.end(count, tally.calls());
    tally.print();
    let calls = tally.calls();
    println!("{count} films, {calls} calls compared, 0 disagree (seed {seed})");
}

fn arguments() -> Option<Arguments> {
    let mut arguments = Arguments {
        seed: clock_seed(),
        count: 100_000,
        first: 0,
    };
    let mut words = env::args().skip(1);
    while let Some(word) = words.next() {
        let number = words.next()?.parse().ok()?;
        match word.as_str() {
            "--seed" => arguments.seed = number,
            "--count" => arguments.count = number,
            "--first" => arguments.first = number,
            _ => return None,
        }
    }
    Some(arguments)
}

/// Another seed for each run.
fn clock_seed() -> u64 {
    let now = SystemTime::now().duration_since(SystemTime::UNIX_EPOCH);
    now.map_or(1, |since| since.as_micros() as u64)
}

/// The trial of one film. Ends the program if a call disagrees.
fn compare(seed: u64, film: u64, tally: &mut Tally) {
    let trial = || lists::compare(&mut Random::new(seed, film), tally);
    match catch_unwind(AssertUnwindSafe(trial)) {
        Ok(Ok(())) => return,
        Ok(Err(disagreement)) => tell(seed, film, &disagreement),
        Err(_) => eprintln!("film {film} of seed {seed}: the oracle or the comparison failed"),
    }
    eprintln!("again: tests/compare --seed {seed} --first {film} --count 1");
    exit(1);
}

/// Prints a disagreement, and keeps it in a file.
fn tell(seed: u64, film: u64, disagreement: &Disagreement) {
    let text = describe(seed, film, disagreement);
    eprintln!();
    print!("{text}");
    match keep(seed, film, disagreement, &text) {
        Ok(()) => eprintln!("kept in target/comparison/{seed}-{film}.txt, the film file beside it"),
        Err(error) => eprintln!("could not be kept under target/: {error}"),
    }
}

fn describe(seed: u64, film: u64, disagreement: &Disagreement) -> String {
    let file = &disagreement.file;
    let mut text = format!("Disagreement, film {film} of seed {seed}. The film file:\n{file:?}");
    if file.0.is_empty() {
        text.push_str("(none or an empty one: the film is among the calls)");
    }
    text.push_str("\nThe calls, the last of which disagrees:\n");
    for step in &disagreement.steps {
        text.push_str(&format!("  {step:?}\n"));
    }
    for difference in &disagreement.differences {
        text.push_str(&format!("{difference}\n"));
    }
    text
}

fn keep(seed: u64, film: u64, disagreement: &Disagreement, text: &str) -> io::Result<()> {
    let folder = Path::new(env!("CARGO_MANIFEST_DIR")).join("../../target/comparison");
    fs::create_dir_all(&folder)?;
    fs::write(folder.join(format!("{seed}-{film}.txt")), text)?;
    fs::write(
        folder.join(format!("{seed}-{film}.film")),
        &disagreement.file.0,
    )
}

/// A line on standard error: written over a few times a second on a terminal, else now and then.
struct Progress {
    shown: Instant,
    terminal: bool,
}

impl Progress {
    fn new() -> Progress {
        Progress {
            shown: Instant::now(),
            terminal: io::stderr().is_terminal(),
        }
    }

    fn show(&mut self, films: u64, calls: u64) {
        let pause = if self.terminal { 300 } else { 10_000 };
        if self.shown.elapsed() > Duration::from_millis(pause) {
            self.print(films, calls);
            self.shown = Instant::now();
        }
    }

    fn print(&self, films: u64, calls: u64) {
        let (start, end) = if self.terminal {
            ("\r", "")
        } else {
            ("", "\n")
        };
        eprint!("{start}{films} films done, {calls} calls compared{end}");
    }

    /// The last line stays.
    fn end(&self, films: u64, calls: u64) {
        self.print(films, calls);
        if self.terminal {
            eprintln!();
        }
    }
}
