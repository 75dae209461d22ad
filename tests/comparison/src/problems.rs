//! Random films as coefficients, from no gauge: all that the limits allow.

use crate::films::{any_ceiling, shape, HIGHEST_CEILING};
use crate::numbers::{head, Problem};
use crate::random::Random;
use film_oracle::report::REPORT_BUDGET;

pub const HIGHEST_LINK: i64 = 1 << 26;
pub const HIGHEST_DIAGONAL: i64 = 1 << 28;
pub const HIGHEST_SOURCE: i64 = 1 << 50;
/// The greatest real pressure that an estimate takes.
const HIGHEST_ESTIMATE: i64 = 1 << 25;

/// A random film that the numeric calls accept.
pub fn accepted(random: &mut Random) -> Problem {
    let shape = shape(random);
    shaped(random, shape)
}

/// The same of a given shape.
pub fn shaped(random: &mut Random, (rows, columns): (usize, usize)) -> Problem {
    let cells = rows * columns;
    let mut problem = Problem {
        head: head(rows, columns, any_ceiling(random)),
        weights: weights(random, cells),
        diagonals: Vec::new(),
        rights: links(random, cells),
        ups: links(random, cells),
        sources: Vec::new(),
    };
    clear_ends(&mut problem);
    problem.diagonals = diagonals(random, &mut problem);
    problem.sources = sources(random, &problem);
    problem
}

/// A random film with a field whose slacks are all 0, which may be above the ceiling. An estimate
/// of a line of it comes out whole but for rounding, so one rounding more or less moves it by 1.
pub fn exact(random: &mut Random) -> (Problem, Vec<u32>) {
    let mut problem = accepted(random);
    let largest = *problem.diagonals.iter().max().expect("a film has cells");
    let most = (HIGHEST_SOURCE / i64::from(largest)).min(HIGHEST_ESTIMATE);
    let most = random.pick(&[most, most.min(problem.head.ceiling.into()), most.min(1_000)]);
    let even = random.chance(20);
    let field: Vec<u32> = (0..problem.cells())
        .map(|_| if even { most } else { random.within(0, most) } as u32)
        .collect();
    problem.sources = (0..problem.cells())
        .map(|cell| balancing_source(&problem, &field, cell))
        .collect();
    (problem, field)
}

/// Two cells whose link is one less than their diagonals. With sources of −s the k-th relaxation of a
/// run from zero raises its cell to k, until k passes s: here near the report's budget, so that the
/// run is Done, Over or Stopped on its last relaxations.
pub fn climbing(random: &mut Random) -> Problem {
    let budget = i64::from(REPORT_BUDGET);
    let diagonal = random.pick(&[HIGHEST_LINK, HIGHEST_LINK + 1, budget + 10]) as u32;
    let near = (budget + random.within(-2, 2)) as u32;
    let reach = budget + random.within(-6, 6);
    let (rows, columns) = random.pick(&[(1, 2), (2, 1)]);
    let mut problem = Problem {
        head: head(rows, columns, random.pick(&[HIGHEST_CEILING, near])),
        weights: vec![random.within(1, 65_535) as u16; 2],
        diagonals: vec![diagonal; 2],
        rights: vec![diagonal - 1; 2],
        ups: vec![diagonal - 1; 2],
        sources: vec![-reach; 2],
    };
    clear_ends(&mut problem);
    problem
}

/// The source that makes a cell's slack 0.
fn balancing_source(problem: &Problem, field: &[u32], cell: usize) -> i64 {
    let bearing = i64::from(problem.diagonals[cell]) * i64::from(field[cell]);
    (pull(problem, field, cell) - bearing).clamp(-HIGHEST_SOURCE, HIGHEST_SOURCE)
}

fn weights(random: &mut Random, cells: usize) -> Vec<u16> {
    let law = random.below(5);
    let most = random.within(1, 65_535);
    let mut weight = || match law {
        0 => most,
        1 => random.within(1, 5),
        2 => 1 + random.spread(65_534),
        3 => random.pick(&[1, 2, 65_534, 65_535]),
        _ => random.within(1, most),
    };
    (0..cells).map(|_| weight() as u16).collect()
}

fn links(random: &mut Random, cells: usize) -> Vec<u32> {
    let law = random.below(5);
    let most = random.spread(HIGHEST_LINK);
    let mut link = || match law {
        0 => most,
        1 => random.spread(HIGHEST_LINK),
        2 => random.pick(&[0, 0, 0, most]),
        3 => random.pick(&[HIGHEST_LINK, HIGHEST_LINK - 1, most]),
        _ => random.within(0, most),
    };
    (0..cells).map(|_| link() as u32).collect()
}

/// No link leaves the grid.
fn clear_ends(problem: &mut Problem) {
    let columns = problem.head.columns as usize;
    let cells = problem.cells();
    for cell in (columns - 1..cells).step_by(columns) {
        problem.rights[cell] = 0;
    }
    problem.ups[cells - columns..].fill(0);
}

/// Diagonals at or above the least that the weights hold, which make large margins; links are
/// halved until these fit.
fn diagonals(random: &mut Random, problem: &mut Problem) -> Vec<u32> {
    let mut least = least_diagonals(problem);
    while least.iter().any(|&diagonal| diagonal > HIGHEST_DIAGONAL) {
        for link in problem.rights.iter_mut().chain(&mut problem.ups) {
            *link /= 2;
        }
        least = least_diagonals(problem);
    }
    let law = random.below(4);
    let raised = |diagonal: i64| match law {
        0 => diagonal,
        1 => diagonal + random.within(0, 1),
        2 => diagonal + random.spread(HIGHEST_DIAGONAL),
        _ => diagonal + random.spread(diagonal),
    };
    let limited = |diagonal: i64| diagonal.min(HIGHEST_DIAGONAL) as u32;
    least.into_iter().map(raised).map(limited).collect()
}

fn least_diagonals(problem: &Problem) -> Vec<i64> {
    (0..problem.cells())
        .map(|cell| {
            let weight = i64::from(problem.weights[cell]);
            (pull(problem, &problem.weights, cell) + weight) / weight
        })
        .collect()
}

/// The sum of link × neighbour's number, for weights or pressures.
fn pull<T: Copy + Into<i64>>(problem: &Problem, numbers: &[T], cell: usize) -> i64 {
    let columns = problem.head.columns as usize;
    let term = |link: u32, other: usize| {
        let number = numbers.get(other).map_or(0, |&number| number.into());
        i64::from(link) * number
    };
    let mut sum = term(problem.rights[cell], cell + 1);
    sum += term(problem.ups[cell], cell + columns);
    // The last column's right link is 0, so the cell before may be that of the row before.
    if cell > 0 {
        sum += term(problem.rights[cell - 1], cell - 1);
    }
    if cell >= columns {
        sum += term(problem.ups[cell - columns], cell - columns);
    }
    sum
}

/// Sources of any size, or such that the pressures lie below the ceiling.
fn sources(random: &mut Random, problem: &Problem) -> Vec<i64> {
    let law = random.below(5);
    let target = random.spread(problem.head.ceiling.into());
    let mut source = |diagonal: u32| match law {
        0 => random.signed(HIGHEST_SOURCE),
        1 => random.pick(&[-HIGHEST_SOURCE, 0, HIGHEST_SOURCE]),
        2 => -random.spread(i64::from(diagonal) * 8),
        3 => random.within(-1, 1) - i64::from(diagonal) * random.within(0, target),
        _ => random.signed(i64::from(diagonal) * (1 + target)),
    };
    let diagonals = problem.diagonals.iter();
    diagonals
        .map(|&diagonal| source(diagonal).clamp(-HIGHEST_SOURCE, HIGHEST_SOURCE))
        .collect()
}
