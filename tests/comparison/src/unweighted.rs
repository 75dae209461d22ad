//! Films without weights: random ones of both kinds, and how long the search for their weights takes.

use crate::films::{self, bare};
use crate::numbers::{head, Problem};
use crate::problems::{self, HIGHEST_LINK};
use crate::random::Random;
use film_oracle::checks::check_limits;
use film_oracle::coefficient_film::{self, CoefficientFilm};
use film_oracle::coefficients::{form, Coefficients};
use film_oracle::film::{self, thickness_count, Film};
use film_oracle::run::Answer;
use film_oracle::samples::{unweighted_mesh, Faces};
use film_oracle::weights::{search, LARGEST_WEIGHT, SEARCH_BUDGET};
use film_oracle::Whole;

/// Whether a file leaves its weights to be found: field 03 is empty.
pub fn is_unweighted(file: &[u8]) -> bool {
    file.get(13..15) == Some(&[0, 0])
}

/// A file as it is written again: its own bytes, with weights in place where it had none.
pub fn written_again(file: &[u8], weights: &[u16]) -> Vec<u8> {
    if !is_unweighted(file) {
        return file.to_vec();
    }
    let body: Vec<u8> = weights.iter().flat_map(|w| w.to_be_bytes()).collect();
    let length = (body.len() as u16).to_be_bytes();
    [&file[..13], &length, &body, &file[15..]].concat()
}

/// How a search ends that may take no more than most need, and what it has found by then.
pub fn searched_soon(coefficients: &Coefficients) -> (Answer, Vec<u32>) {
    let budget = 20_000 + 300 * coefficients.diagonals.len() as u32;
    let (outcome, found) = search(coefficients.system(), budget);
    (outcome.answer, found)
}

fn ends_soon(coefficients: &Coefficients) -> bool {
    searched_soon(coefficients).0 != Answer::Stopped
}

/// Whether reading a file needs no long search: that is made of few films alone.
pub fn read_soon(file: &[u8]) -> bool {
    if !is_unweighted(file) {
        return true;
    }
    if let Ok(film) = film::read_fields(file) {
        return ends_soon(&form(&film));
    }
    match coefficient_film::read_fields(file) {
        // Beyond the limits there is no search.
        Ok(film) => check_limits(film.system()).is_err() || ends_soon(&film.coefficients),
        Err(_) => true,
    }
}

/// A gauged film whose weights are found soon.
pub fn film(random: &mut Random) -> Film {
    Film {
        weights: Vec::new(),
        ..films::accepted(random)
    }
}

/// A coefficient film whose search ends soon: one that weights hold, or one with lower diagonals, which
/// mostly none do.
pub fn problem(random: &mut Random) -> Problem {
    for _ in 0..4 {
        let mut problem = problems::accepted(random);
        problem.weights.clear();
        if random.chance(40) {
            lower_diagonals(random, &mut problem);
        }
        if ends_soon(&problem.film().coefficients) {
            return problem;
        }
    }
    // Each cell on its own: weights of 1 hold it.
    let mut problem = problems::accepted(random);
    problem.weights.clear();
    problem.rights.fill(0);
    problem.ups.fill(0);
    problem
}

fn lower_diagonals(random: &mut Random, problem: &mut Problem) {
    for _ in 0..1 + random.below(3) {
        let at = random.below(problem.diagonals.len());
        let diagonal = problem.diagonals[at];
        let less = random.within(1, diagonal.into()) as u32;
        problem.diagonals[at] = random.pick(&[less, 1 + diagonal / 2, diagonal.max(2) - 1]);
    }
}

/// A file whose search is long: Done late, or refused with 16 or 17.
pub fn slow_file(random: &mut Random) -> Vec<u8> {
    match random.below(4) {
        0 | 1 => film::write(&thick_pad(random)),
        2 => coefficient_film::write(&closed_mesh(random)),
        _ => coefficient_film::write(&climbing(random).film()),
    }
}

/// A thick pad inside two thin courses, the ring and the outermost cells: hardly anything flows out, so
/// weights climb by some 1 a round. With 62 cells and more the budget ends before they pass 65,535.
fn thick_pad(random: &mut Random) -> Film {
    let (rows, columns) = random.pick(&[(3, 3), (3, 4), (5, 4), (5, 5), (7, 9), (32, 32)]);
    let thick = random.within(60, 128) as u8;
    let mut thickness = vec![1; thickness_count(rows, columns)];
    for r in 2..rows {
        let row = &mut thickness[r * (columns + 2)..(r + 1) * (columns + 2)];
        row[2..columns].fill(thick);
    }
    Film {
        wedge: random.signed(1_000) as i32,
        ..bare((rows, columns), thickness, films::steps(random))
    }
}

/// A mesh that loses nothing at its rim, so that no weights hold it, or next to nothing at one cell.
fn closed_mesh(random: &mut Random) -> CoefficientFilm {
    let (rows, columns) = random.pick(&[(1, 2), (5, 6), (6, 10), (2, 31), (8, 9), (25, 32)]);
    let cells = rows * columns;
    let most = 1 + random.spread(HIGHEST_LINK - 1);
    let links: Vec<[i64; 2]> = (0..cells)
        .map(|_| [random.within(1, most), random.within(1, most)])
        .collect();
    let leak = random.below(2 * cells);
    unweighted_mesh((rows, columns), 1_000, |r, c| {
        let cell = (r - 1) * columns + c - 1;
        let [right, up] = links[cell].map(Whole::from);
        Faces {
            loss: Whole::from(cell == leak),
            right,
            up,
            source: 0,
        }
    })
}

/// Two neighbours with link L and diagonals L and L + 1, among cells without links. The first wants one
/// more than the second has, the second as much as the first: both rise by 1 a round, to L + 2 and L + 1.
/// That is near the greatest weight; or the search is Done near its last visit, as the first has its last
/// raise in round L + 2, and N quiet visits follow.
fn climbing(random: &mut Random) -> Problem {
    let (rows, columns) = random.pick(&[(1, 2), (3, 5), (7, 9), (2, 31), (6, 11)]);
    let cells = rows * columns;
    let rounds = SEARCH_BUDGET as usize / cells;
    let (link, at) = if rounds > LARGEST_WEIGHT as usize {
        let near = i64::from(LARGEST_WEIGHT) - 2 + random.within(-2, 2);
        (near as u32, random.below(columns - 1))
    } else {
        let last = SEARCH_BUDGET as i64 - (rounds * cells) as i64 - 1;
        (rounds as u32 - 2, (last + random.within(-2, 2)) as usize)
    };
    let mut problem = Problem {
        head: head(rows, columns, 1_000),
        rights: vec![0; cells],
        ups: vec![0; cells],
        diagonals: vec![10; cells],
        sources: vec![0; cells],
        weights: Vec::new(),
    };
    problem.rights[at] = link;
    problem.diagonals[at] = link;
    problem.diagonals[at + 1] = link + 1;
    problem
}
