//! Writes the test vectors into the folder of the program that compares them: data/NAME.film and
//! data/NAME.report for each film, `args` with the two names in turn, and `stdout`, what the program
//! prints where every report is the same. Ends with a table of the answers.

use film_oracle::report::report;
use film_oracle::vectors::all;
use std::collections::BTreeMap;
use std::path::Path;
use std::{env, fs, io, process};

fn main() -> io::Result<()> {
    let arguments: Vec<String> = env::args().skip(1).collect();
    let [directory] = arguments.as_slice() else {
        eprintln!("usage: vectors CRATE");
        process::exit(2);
    };
    let directory = Path::new(directory);
    let data = directory.join("data");
    if data.exists() {
        fs::remove_dir_all(&data)?;
    }
    fs::create_dir_all(&data)?;
    let mut arguments = String::new();
    let mut prints = String::new();
    let mut counts: BTreeMap<String, usize> = BTreeMap::new();
    let mut size = 0;
    for (name, bytes) in all() {
        let report = report(&bytes);
        fs::write(data.join(format!("{name}.film")), &bytes)?;
        fs::write(data.join(format!("{name}.report")), &report)?;
        arguments.push_str(&format!("{name}.film\n{name}.report\n"));
        prints.push_str(&format!("{name}.film: same\n"));
        *counts.entry(kind(&report)).or_default() += 1;
        size += bytes.len() + report.len();
    }
    fs::write(directory.join("args"), &arguments)?;
    fs::write(directory.join("stdout"), &prints)?;
    println!("{:10} {:4}", "films", counts.values().sum::<usize>());
    for (kind, count) in counts {
        println!("{kind:10} {count:4}");
    }
    println!("{size} bytes");
    Ok(())
}

/// The answer word, or the word REFUSED with its number.
fn kind(report: &[u8]) -> String {
    let text = String::from_utf8_lossy(report);
    let lines: Vec<&str> = text.lines().collect();
    let (line, words) = match lines.as_slice() {
        [refused] => (refused, 2),
        lines => (&lines[1], 1),
    };
    let words: Vec<&str> = line.split(' ').take(words).collect();
    words.join(" ")
}
