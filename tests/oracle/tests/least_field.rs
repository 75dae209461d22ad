//! Done really holds the least field: by trying every field of small films, and by recomputing
//! every report of the vectors in another way.

use film_oracle::coefficient_film::{self, convert, CoefficientFilm};
use film_oracle::film::{self, Film};
use film_oracle::relax::{feasible, required};
use film_oracle::report::{self, report};
use film_oracle::run::{run, Answer, Ordering, Outcome};
use film_oracle::samples::{journal_thickness, made, meshed, stepped, Faces};
use film_oracle::vectors::all;
use std::cmp::Reverse;
use std::collections::HashSet;

const ORDERINGS: [Ordering; 3] = [Ordering::Forward, Ordering::Backward, Ordering::RedBlack];

struct Generator(u64);

impl Generator {
    fn below(&mut self, limit: u64) -> u64 {
        self.0 ^= self.0 << 13;
        self.0 ^= self.0 >> 7;
        self.0 ^= self.0 << 17;
        self.0 % limit
    }
}

/// Every field from `start` up to the ceiling, one after another.
fn next_field(field: &mut [u32], start: &[u32], ceiling: u32) -> bool {
    for (pressure, &least) in field.iter_mut().zip(start) {
        if *pressure < ceiling {
            *pressure += 1;
            return true;
        }
        *pressure = least;
    }
    false
}

/// Cell by cell the lowest pressure of any feasible field at or above the start; None where there
/// is no such field.
fn least_by_trial(film: &CoefficientFilm, start: &[u32]) -> Option<Vec<u32>> {
    let mut least: Option<Vec<u32>> = None;
    let mut field = start.to_vec();
    loop {
        if feasible(film.system(), film.ceiling, &field) {
            let best = least.get_or_insert_with(|| field.clone());
            for (lowest, &pressure) in best.iter_mut().zip(&field) {
                *lowest = pressure.min(*lowest);
            }
        }
        if !next_field(&mut field, start, film.ceiling) {
            return least;
        }
    }
}

fn run_all(
    film: &CoefficientFilm,
    field: &mut [u32],
    ordering: Ordering,
    proposals: bool,
) -> Outcome {
    run(
        film.system(),
        film.ceiling,
        &film.weights,
        field,
        u32::MAX,
        ordering,
        proposals,
    )
}

impl Generator {
    /// The zero field, or any that keeps the ceiling.
    fn start(&mut self, film: &CoefficientFilm, zero: bool) -> Vec<u32> {
        (0..film.cells())
            .map(|_| self.below(u64::from(film.ceiling) + 1) as u32)
            .map(|pressure| if zero { 0 } else { pressure })
            .collect()
    }

    fn within(&mut self, low: i64, high: i64) -> i64 {
        low + self.below((high - low + 1) as u64) as i64
    }

    fn gauged(&mut self, shape: (usize, usize), ceiling: u32) -> Film {
        let wedge = self.within(-1_500, 1_499) as i32;
        let numbers: Vec<u8> = (0..36).map(|_| 1 + self.below(4) as u8).collect();
        made(shape, ceiling, wedge, |r, c| numbers[6 * r + c])
    }

    /// The same with steps, and a wedge that still lifts beside them.
    fn stepped(&mut self, shape: (usize, usize), ceiling: u32) -> Film {
        let mut film = self.gauged(shape, ceiling);
        film.wedge *= 3;
        let steps = (self.within(1, 4) as u32, self.within(1, 4) as u32);
        stepped(&film, steps)
    }

    /// Coefficients that come from no gauge: small ones, links of 0 among them.
    fn mesh(&mut self, shape: (usize, usize), ceiling: u32) -> CoefficientFilm {
        let numbers: Vec<[i64; 4]> = (0..16)
            .map(|_| {
                [
                    self.within(1, 5),
                    self.within(0, 6),
                    self.within(0, 6),
                    self.within(-20, 8),
                ]
            })
            .collect();
        meshed(shape, ceiling, |r, c| {
            let [loss, right, up, source] = numbers[4 * (r - 1) + c - 1].map(i128::from);
            Faces {
                loss,
                right,
                up,
                source,
            }
        })
    }
}

#[test]
fn small_films_by_trial() {
    let mut generator = Generator(0x1234_5678_9abc_def1);
    let shapes = [(1, 1), (1, 2), (2, 1), (1, 3), (2, 2), (3, 1), (1, 4)];
    let (mut done, mut over) = (0, 0);
    for round in 0..4_200 {
        let shape = shapes[round % shapes.len()];
        let ceiling = 2 + generator.below(5) as u32;
        let film = match round / 1_400 {
            0 => convert(&generator.gauged(shape, ceiling)),
            1 => generator.mesh(shape, ceiling),
            _ => convert(&generator.stepped(shape, ceiling)),
        };
        let start = generator.start(&film, round % 2 == 0);
        let least = least_by_trial(&film, &start);
        for ordering in ORDERINGS {
            for proposals in [false, true] {
                let mut field = start.clone();
                let outcome = run_all(&film, &mut field, ordering, proposals);
                match (&least, outcome.answer) {
                    (Some(least), Answer::Done) => assert_eq!(&field, least),
                    (None, Answer::Over(_)) => {}
                    other => panic!("{other:?}"),
                }
            }
        }
        match least {
            Some(_) => done += 1,
            None => over += 1,
        }
    }
    // Both answers must really have been tried.
    assert!(done > 600 && over > 200, "{done} {over}");
}

/// A report taken apart.
struct Parsed {
    word: String,
    visits: u64,
    raises: u64,
    cells: Vec<[i128; 4]>,
    last: Vec<String>,
}

fn parse(text: &str) -> Parsed {
    assert!(text.ends_with('\n') && text.is_ascii());
    let lines: Vec<Vec<&str>> = text.lines().map(|l| l.split(' ').collect()).collect();
    let cells = lines[2..lines.len() - 1]
        .iter()
        .map(|words| {
            let numbers: Vec<i128> = words.iter().map(|w| w.parse().unwrap()).collect();
            numbers.try_into().unwrap()
        })
        .collect();
    Parsed {
        word: lines[1][0].to_string(),
        visits: lines[1][1].parse().unwrap(),
        raises: lines[1][2].parse().unwrap(),
        cells,
        last: lines[lines.len() - 1]
            .iter()
            .map(|w| w.to_string())
            .collect(),
    }
}

/// The slack by the difference form of Reynolds' equation, a sum of flows through the four faces,
/// straight from thicknesses: neither diagonals nor links are formed. Flows along a row have the first
/// step for a factor, flows between rows the second. `pressures` has the ring's zeros around it.
fn slack_by_flows(film: &Film, pressures: &[i128], r: usize, c: usize) -> i128 {
    let wide = film.columns + 2;
    let h = |r: usize, c: usize| i128::from(film.thickness[r * wide + c]);
    let p = |r: usize, c: usize| pressures[r * wide + c];
    let (along, across) = match film.steps {
        Some(steps) => (i128::from(steps.along), i128::from(steps.across)),
        None => (1, 1),
    };
    let flow = |i, j| (h(r, c) + h(i, j)).pow(3) * (p(r, c) - p(i, j));
    let row = flow(r, c - 1) + flow(r, c + 1);
    let column = flow(r - 1, c) + flow(r + 1, c);
    along * row + across * column + i128::from(film.wedge) * (h(r, c + 1) - h(r, c - 1))
}

/// A number of a file, where it lies.
fn number(file: &[u8], at: usize, width: usize) -> i128 {
    file[at..at + width]
        .iter()
        .fold(0, |high, &low| 256 * high + i128::from(low))
}

/// The slack as a sum of flows too, straight from a coefficient file's bytes: what a cell loses is
/// its diagonal less its links.
fn slack_by_faces(file: &[u8], pressures: &[i128], r: usize, c: usize) -> i128 {
    let (rows, columns) = (usize::from(file[3]), usize::from(file[4]));
    let cells = rows * columns;
    let index = |r: usize, c: usize| (r - 1) * columns + c - 1;
    let right = |r, c| number(file, 21 + 6 * cells + 4 * index(r, c), 4);
    let up = |r, c| number(file, 24 + 10 * cells + 4 * index(r, c), 4);
    let p = |r: usize, c: usize| pressures[r * (columns + 2) + c];
    let mut loss = number(file, 18 + 2 * cells + 4 * index(r, c), 4);
    let mut out = 0;
    let mut flow = |link: i128, other: i128| {
        loss -= link;
        out += link * (p(r, c) - other);
    };
    if c > 1 {
        flow(right(r, c - 1), p(r, c - 1));
    }
    if c < columns {
        flow(right(r, c), p(r, c + 1));
    }
    if r > 1 {
        flow(up(r - 1, c), p(r - 1, c));
    }
    if r < rows {
        flow(up(r, c), p(r + 1, c));
    }
    let source = number(file, 27 + 14 * cells + 8 * index(r, c), 8);
    let negative = source >= 1 << 63;
    out + loss * p(r, c) + source - if negative { 1 << 64 } else { 0 }
}

/// The slack in the other way, by the kind of the film.
fn slack_again(file: &[u8], pressures: &[i128], r: usize, c: usize) -> i128 {
    match film::read(file) {
        Ok(gauged) => slack_by_flows(&gauged, pressures, r, c),
        Err(_) => slack_by_faces(file, pressures, r, c),
    }
}

/// The field of a report with the ring's zeros around it.
fn padded(film: &CoefficientFilm, parsed: &Parsed) -> Vec<i128> {
    let wide = film.columns() + 2;
    let mut pressures = vec![0; (film.rows() + 2) * wide];
    for &[r, c, pressure, _] in &parsed.cells {
        pressures[r as usize * wide + c as usize] = pressure;
    }
    pressures
}

/// The last line: greatest by pressure, then by column, then by falling row.
fn peak_line(cells: &[[i128; 4]]) -> String {
    let ranks = cells.iter().map(|&[r, c, p, _]| (p, c, Reverse(r)));
    let (pressure, c, Reverse(r)) = ranks.max().unwrap();
    format!("PEAK {r} {c} {pressure}")
}

fn check_field(name: &str, file: &[u8], film: &CoefficientFilm, parsed: &Parsed) {
    assert_eq!(parsed.cells.len(), film.cells(), "{name}");
    let pressures = padded(film, parsed);
    for (cell, &[r, c, pressure, slack]) in parsed.cells.iter().enumerate() {
        assert_eq!(r as usize, cell / film.columns() + 1, "{name}");
        assert_eq!(c as usize, cell % film.columns() + 1, "{name}");
        assert!((0..=i128::from(film.ceiling)).contains(&pressure), "{name}");
        let again = slack_again(file, &pressures, r as usize, c as usize);
        assert_eq!(slack, again, "{name}");
        if parsed.word == "DONE" {
            assert!(slack >= 0, "{name}");
            // One step less in this cell alone would not do.
            let lower = film.coefficients.diagonals[cell];
            assert!(pressure == 0 || slack < lower, "{name}");
        }
    }
    assert_eq!(parsed.last.join(" "), peak_line(&parsed.cells), "{name}");
}

/// Visits, raises and total keep document 01's bounds.
fn check_counts(name: &str, film: &CoefficientFilm, parsed: &Parsed) {
    let cells = film.cells() as u64;
    assert!(parsed.visits <= 4_000_000 && parsed.raises <= parsed.visits);
    match parsed.word.as_str() {
        "DONE" => assert!(parsed.visits >= cells + parsed.raises, "{name}"),
        "STOPPED" => assert_eq!(parsed.visits, 4_000_000, "{name}"),
        "OVER" => assert!(parsed.raises < parsed.visits, "{name}"),
        other => panic!("{name}: {other}"),
    }
    if parsed.word != "OVER" {
        let total: i128 = parsed.cells.iter().map(|cell| cell[2]).sum();
        let most = i128::from(cells) * (1 + total);
        assert!(i128::from(parsed.visits) <= most, "{name}");
        assert!(i128::from(parsed.raises) <= total, "{name}");
    }
}

/// The least field by rounds in which all cells rise at once, each by the round before.
fn least_by_rounds(film: &CoefficientFilm) -> Vec<u32> {
    let mut field = vec![0; film.cells()];
    loop {
        let risen: Vec<u32> = (0..film.cells())
            .map(|cell| required(film.system(), &field, cell) as u32)
            .collect();
        if risen == field {
            return field;
        }
        field = risen;
    }
}

/// Other orderings and proposals, and rounds of all cells at once, reach the same least field. Hands
/// back how many cells the proposals raised.
fn check_other_runs(name: &str, film: &CoefficientFilm, parsed: &Parsed) -> u32 {
    let mut proposed = 0;
    let least: Vec<u32> = parsed.cells.iter().map(|cell| cell[2] as u32).collect();
    assert_eq!(least_by_rounds(film), least, "{name}");
    for ordering in ORDERINGS {
        for proposals in [false, true] {
            let mut field = vec![0; film.cells()];
            let outcome = run_all(film, &mut field, ordering, proposals);
            assert_eq!(outcome.answer, Answer::Done, "{name}");
            assert_eq!(field, least, "{name}");
            proposed += outcome.proposed;
        }
    }
    proposed
}

/// What the file's film is written as, by its kind.
fn written_again(file: &[u8]) -> Vec<u8> {
    match film::read(file) {
        Ok(gauged) => film::write(&gauged),
        Err(_) => coefficient_film::write(&coefficient_film::read(file).unwrap()),
    }
}

#[test]
fn every_vector_recomputed() {
    let mut names = HashSet::new();
    let mut last_visits = HashSet::new();
    let mut proposed = 0;
    for (name, bytes) in all() {
        assert!(names.insert(name.clone()), "{name} twice");
        let text = String::from_utf8(report(&bytes)).unwrap();
        let Ok(film) = report::read(&bytes) else {
            assert!(text.starts_with("REFUSED ") && text.lines().count() == 1);
            continue;
        };
        // Only a file that carries its weights is written back byte for byte.
        let written = written_again(&bytes);
        if bytes[13..15] != [0, 0] {
            assert_eq!(written, bytes, "{name}");
        }
        let parsed = parse(&text);
        if parsed.word == "OVER" {
            assert_eq!(text.lines().count(), 3, "{name}");
        } else {
            check_field(&name, &written, &film, &parsed);
        }
        check_counts(&name, &film, &parsed);
        if parsed.word == "DONE" && parsed.visits < 1_000_000 {
            proposed += check_other_runs(&name, &film, &parsed);
        }
        if parsed.visits == 4_000_000 {
            let negative = parsed.cells.iter().any(|cell| cell[3] < 0);
            last_visits.insert((parsed.word, negative));
        }
    }
    assert!(proposed > 1_000, "{proposed}");
    // Each answer is met on the budget's last visit, Stopped with and without negative slacks.
    let met = |word: &str, negative| last_visits.contains(&(word.to_string(), negative));
    assert!(met("DONE", false) && met("OVER", false));
    assert!(met("STOPPED", false) && met("STOPPED", true));
}

/// A cosine that differs in its last digit between machines must not change the sample.
#[test]
fn journal_is_far_from_halves() {
    for column in 0..34 {
        let fraction = journal_thickness(column).fract();
        assert!((fraction - 0.5).abs() > 1e-6, "column {column}");
    }
}
