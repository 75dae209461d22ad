//! The PEAK line (document 02, W3): the greatest pressure, then the greatest column, then the lowest row.

use film_oracle::coefficient_film;
use film_oracle::film::write;
use film_oracle::report::report;
use film_oracle::samples::{apart, flat_top, made};
use film_oracle::vectors::all;
use std::collections::HashSet;

/// Row, column and pressure.
type Cell = [i64; 3];

/// A report's lines that matter here: the second, the cells and the last.
struct Shown {
    answer: String,
    cells: Vec<Cell>,
    peak: String,
}

/// None where a report has no cells.
fn shown(file: &[u8]) -> Option<Shown> {
    let text = String::from_utf8(report(file)).unwrap();
    let lines: Vec<&str> = text.lines().collect();
    let peak = lines[lines.len() - 1].to_string();
    peak.starts_with("PEAK ").then(|| Shown {
        answer: lines[1].to_string(),
        cells: lines[2..lines.len() - 1].iter().map(cell).collect(),
        peak,
    })
}

fn cell(line: &&str) -> Cell {
    let numbers: Vec<i64> = line.split(' ').map(|word| word.parse().unwrap()).collect();
    [numbers[0], numbers[1], numbers[2]]
}

/// A way to choose among equals by row and column: the one of the greatest rank is named.
type Rank = fn(i64, i64) -> (i64, i64);

const ASKED: Rank = |r, c| (c, -r);

/// The seven other ways.
const OTHERS: [(&str, Rank); 7] = [
    ("lowest index, as before W3", |r, c| (-r, -c)),
    ("greatest column, then greatest row", |r, c| (c, r)),
    ("last index", |r, c| (r, c)),
    ("lowest row, then greatest column", |r, c| (-r, c)),
    ("least column, then lowest row", |r, c| (-c, -r)),
    ("least column, then greatest row", |r, c| (-c, r)),
    ("greatest row, then least column", |r, c| (r, -c)),
];

/// The line by such a rule.
fn line(cells: &[Cell], rank: Rank) -> String {
    let named = cells.iter().max_by_key(|[r, c, p]| (*p, rank(*r, *c)));
    let [r, c, pressure] = named.unwrap();
    format!("PEAK {r} {c} {pressure}")
}

/// What is shown of a film without links that has these pressures.
fn shown_of(pressures: &[&[u32]]) -> Shown {
    let shown = shown(&coefficient_film::write(&apart(pressures))).unwrap();
    let field: Vec<i64> = shown.cells.iter().map(|cell| cell[2]).collect();
    let wanted: Vec<i64> = pressures.concat().into_iter().map(i64::from).collect();
    assert_eq!(field, wanted);
    shown
}

fn peak_of(pressures: &[&[u32]]) -> String {
    shown_of(pressures).peak
}

/// A film at zero pressure names its last column in row 1.
#[test]
fn zero_pressure() {
    for (rows, columns) in [(1, 1), (1, 6), (6, 1), (3, 4), (5, 2), (32, 32)] {
        let wanted = format!("PEAK 1 {columns} 0");
        for wedge in [0, 100] {
            let diverging = made((rows, columns), 9, wedge, |_, c| 3 + c as u8);
            assert_eq!(shown(&write(&diverging)).unwrap().peak, wanted);
        }
        let row: &[u32] = &vec![0; columns];
        assert_eq!(peak_of(&vec![row; rows]), wanted);
    }
}

#[test]
fn one_cell_one_row_one_column() {
    assert_eq!(peak_of(&[&[7]]), "PEAK 1 1 7");
    assert_eq!(peak_of(&[&[3, 5, 5, 2]]), "PEAK 1 3 5");
    assert_eq!(peak_of(&[&[5, 1, 5, 0]]), "PEAK 1 3 5");
    assert_eq!(peak_of(&[&[5, 4, 3, 2]]), "PEAK 1 1 5");
    assert_eq!(peak_of(&[&[5, 5, 5, 5]]), "PEAK 1 4 5");
    assert_eq!(peak_of(&[&[3], &[5], &[5], &[2]]), "PEAK 2 1 5");
    assert_eq!(peak_of(&[&[2], &[3], &[4], &[5]]), "PEAK 4 1 5");
    assert_eq!(peak_of(&[&[5], &[5], &[5], &[5]]), "PEAK 1 1 5");
}

#[test]
fn flat_tops() {
    // Neither the lowest index nor the last one.
    let turned: [&[u32]; 3] = [&[5, 1, 0], &[1, 1, 5], &[0, 5, 1]];
    assert_eq!(peak_of(&turned), "PEAK 2 3 5");
    // The column comes first, even in the last row.
    assert_eq!(peak_of(&[&[5, 5, 0], &[0, 1, 5]]), "PEAK 2 3 5");
    // In one column the lowest row.
    assert_eq!(peak_of(&[&[1, 2], &[0, 5], &[3, 5]]), "PEAK 2 2 5");
    assert_eq!(peak_of(&[&[5, 0], &[5, 1], &[5, 4]]), "PEAK 1 1 5");
    // A greater pressure comes before every column.
    assert_eq!(peak_of(&[&[1, 5, 5], &[6, 5, 5]]), "PEAK 2 1 6");
    assert_eq!(peak_of(&[&[6, 5, 5], &[1, 5, 5]]), "PEAK 1 1 6");
}

/// Every field of pressures 0 to 2 on two small grids.
#[test]
fn every_small_field() {
    for (number, columns) in (0..729).flat_map(|number| [(number, 2), (number, 3)]) {
        let pressures: Vec<u32> = (0..6).map(|cell| number / 3_u32.pow(cell) % 3).collect();
        let rows: Vec<&[u32]> = pressures.chunks(columns).collect();
        let shown = shown_of(&rows);
        assert_eq!(shown.peak, line(&shown.cells, ASKED), "{rows:?}");
    }
}

/// The sample: which cells its flat top has, and which one is named by this rule and by others.
#[test]
fn flat_top_sample() {
    let shown = shown(&write(&flat_top())).unwrap();
    let top = shown.cells.iter().map(|cell| cell[2]).max().unwrap();
    let flat: Vec<[i64; 2]> = shown
        .cells
        .iter()
        .filter(|cell| cell[2] == top)
        .map(|cell| [cell[0], cell[1]])
        .collect();
    let column_8 = (3..=6).map(|r| [r, 8]);
    let column_9 = (4..=6).map(|r| [r, 9]);
    let mut wanted: Vec<[i64; 2]> = column_8.chain(column_9).collect();
    wanted.sort();
    assert_eq!(flat, wanted);
    assert_eq!(shown.peak, "PEAK 4 9 8");
    let [(_, lowest), _, (_, last), ..] = OTHERS;
    assert_eq!(line(&shown.cells, lowest), "PEAK 3 8 8");
    assert_eq!(line(&shown.cells, last), "PEAK 6 9 8");
}

/// The vector of this name, without its number.
fn vector(name: &str) -> Shown {
    let vectors = all();
    let (_, bytes) = vectors.iter().find(|(n, _)| &n[4..] == name).unwrap();
    shown(bytes).unwrap()
}

/// On the octagon every rule names a cell of its own.
#[test]
fn octagon() {
    let octagon = vector("flat-octagon-4x5");
    assert_eq!(octagon.peak, "PEAK 2 4 9");
    let mut lines = HashSet::from([octagon.peak]);
    for (rule, rank) in OTHERS {
        assert!(lines.insert(line(&octagon.cells, rank)), "{rule}");
    }
}

/// A run that stops as its climbing cell comes up to the others: it is one of the equals.
#[test]
fn stopped() {
    let stopped = vector("flat-stopped-3x4");
    assert!(stopped.answer.starts_with("STOPPED 4000000 "));
    assert_eq!(stopped.cells[1], [1, 2, 666_668]);
    assert_eq!(stopped.peak, "PEAK 2 3 666668");
}

/// Every vector names the cell of this rule, and each other rule prints another line on several of them.
#[test]
fn no_other_rule_prints_the_vectors() {
    let mut unlike = [0; OTHERS.len()];
    for (name, bytes) in all() {
        let Some(shown) = shown(&bytes) else {
            continue;
        };
        assert_eq!(shown.peak, line(&shown.cells, ASKED), "{name}");
        for ((_, rank), count) in OTHERS.iter().zip(&mut unlike) {
            *count += u32::from(line(&shown.cells, *rank) != shown.peak);
        }
    }
    for ((rule, _), count) in OTHERS.iter().zip(unlike) {
        assert!(count >= 5, "{rule}: {count}");
    }
}
