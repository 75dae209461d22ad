//! Random fields and line proposals, many of them at the edge between two answers.

use crate::numbers::Sides;
use crate::random::Random;
use film_oracle::line::{self, Proposed};
use film_oracle::relax::{pull, slack};
use film_oracle::run::{run, Answer, Ordering};

/// A start field of an accepted film: any, or one made from a field that fits it, if it is known.
pub fn start(random: &mut Random, sides: &Sides, known: Option<&[u32]>) -> Vec<u32> {
    match known {
        Some(known) if random.chance(80) => {
            let ceiling = sides.plain.head.ceiling;
            let mut field: Vec<u32> = known.iter().map(|&p| p.min(ceiling)).collect();
            lower_line(random, &mut field, sides.plain.head.columns as usize);
            field
        }
        _ => any_start(random, sides),
    }
}

/// Lowers a line, so that a proposal for it can be accepted.
fn lower_line(random: &mut Random, field: &mut [u32], columns: usize) {
    let first = random.below(field.len() / columns) * columns;
    let kept = random.pick(&[0, 0, 1]);
    for pressure in &mut field[first..first + columns] {
        *pressure = kept * (*pressure / 2);
    }
}

fn any_start(random: &mut Random, sides: &Sides) -> Vec<u32> {
    let ceiling = sides.plain.head.ceiling;
    let cells = sides.plain.cells();
    let most = random.spread(ceiling.into());
    match random.below(10) {
        0..=3 => vec![0; cells],
        4 => vec![ceiling; cells],
        5 => (0..cells)
            .map(|_| random.within(0, ceiling.into()) as u32)
            .collect(),
        6 => (0..cells).map(|_| random.spread(most) as u32).collect(),
        7 => {
            // Some way up to the least field.
            let mut field = vec![0; cells];
            visits(sides, &mut field, Sweep::forward(1 + most as u32 % 100));
            field
        }
        _ => near_least(random, sides),
    }
}

/// The least field, with a cell or two a step away from it.
fn near_least(random: &mut Random, sides: &Sides) -> Vec<u32> {
    let mut field = raised(sides, &vec![0; sides.plain.cells()]);
    if random.chance(40) {
        lower_line(random, &mut field, sides.plain.head.columns as usize);
    }
    for _ in 0..random.below(3) {
        nudge(random, &mut field);
    }
    let ceiling = sides.plain.head.ceiling;
    field
        .iter()
        .map(|&pressure| pressure.min(ceiling))
        .collect()
}

/// The field that relaxations lead to from a start, or that they reach with some thousand of them.
fn raised(sides: &Sides, start: &[u32]) -> Vec<u32> {
    let mut field = start.to_vec();
    let budget = 1_000 + 20 * start.len() as u32;
    visits(sides, &mut field, Sweep::forward(budget));
    field
}

/// How a run goes.
#[derive(Clone, Copy, Debug)]
pub struct Sweep {
    pub budget: u32,
    pub order: u32,
    pub proposals: bool,
}

impl Sweep {
    fn forward(budget: u32) -> Sweep {
        Sweep {
            budget,
            order: 0,
            proposals: false,
        }
    }
}

/// Runs on a field of the generator's own: how many visits Done or Over took, if either came.
pub fn visits(sides: &Sides, field: &mut [u32], sweep: Sweep) -> Option<u32> {
    let outcome = run(
        sides.system(),
        sides.plain.head.ceiling,
        &sides.plain.weights,
        field,
        sweep.budget,
        Ordering::from_number(sweep.order.into()).expect("a good order"),
        sweep.proposals,
    );
    (outcome.answer != Answer::Stopped).then_some(outcome.visits)
}

/// A cell whose slack is negative, if any: there relaxations and proposals can raise.
pub fn short_cell(random: &mut Random, sides: &Sides, field: &[u32]) -> Option<usize> {
    let cells = field.len();
    let first = random.below(cells);
    (first..first + cells)
        .map(|cell| cell % cells)
        .find(|&cell| slack(sides.system(), field, cell) < 0)
}

/// One more or less in one place.
fn nudge(random: &mut Random, pressures: &mut [u32]) {
    if pressures.is_empty() {
        return;
    }
    let at = random.below(pressures.len());
    pressures[at] = if random.chance(50) {
        pressures[at].saturating_add(1)
    } else {
        pressures[at].saturating_sub(1)
    };
}

/// A proposal for a line of an accepted film, on a field that it accepts.
pub fn proposal(random: &mut Random, sides: &Sides, field: &[u32], line: usize) -> Vec<u32> {
    let columns = sides.plain.head.columns as usize;
    let row = (line - 1) * columns..line * columns;
    let mut proposal = match random.below(12) {
        0..=2 => estimate(sides, field, line),
        3 => raised(sides, field)[row].to_vec(),
        4..=7 => highest_accepted(random, sides, field, line),
        8 | 9 => one_cell(random, sides, field, line),
        10 => {
            let most = random.spread(u32::MAX.into());
            (0..columns).map(|_| random.spread(most) as u32).collect()
        }
        _ => extreme(random, sides, &field[row]),
    };
    if random.chance(40) {
        nudge(random, &mut proposal);
    }
    proposal
}

fn estimate(sides: &Sides, field: &[u32], line: usize) -> Vec<u32> {
    line::estimate(sides.system(), &sides.plain.weights, field, line)
}

/// The line of the field that relaxations lead to, lowered evenly by as little as makes it accepted,
/// or by one step less.
fn highest_accepted(random: &mut Random, sides: &Sides, field: &[u32], line: usize) -> Vec<u32> {
    let columns = sides.plain.head.columns as usize;
    let above = &raised(sides, field)[(line - 1) * columns..line * columns];
    let lowered = |by: u32| -> Vec<u32> { above.iter().map(|&p| p.saturating_sub(by)).collect() };
    let accepted = |by: u32| {
        let mut field = field.to_vec();
        let ceiling = sides.plain.head.ceiling;
        let answer = line::propose(sides.system(), ceiling, &mut field, line, &lowered(by));
        answer != Proposed::Rejected
    };
    // Steps of 1 at first, later of a tenth: a weak film wants a large one.
    let mut by = 0_u32;
    while by < 1 << 20 && !accepted(by) {
        by += 1 + by / 10;
    }
    lowered(by.saturating_sub(random.below(2) as u32))
}

/// A rise of one cell alone, to the greatest pressure whose slack is at most 0, or one step more.
fn one_cell(random: &mut Random, sides: &Sides, field: &[u32], line: usize) -> Vec<u32> {
    let columns = sides.plain.head.columns as usize;
    let mut proposal = vec![0; columns];
    let column = random.below(columns);
    let cell = (line - 1) * columns + column;
    let system = sides.system();
    let wanted = pull(system, field, cell) - system.sources[cell];
    let highest = wanted.div_euclid(system.diagonals[cell]);
    proposal[column] = (highest + random.below(2) as i128).clamp(0, u32::MAX.into()) as u32;
    proposal
}

/// What raises nothing, or goes beyond the ceiling.
fn extreme(random: &mut Random, sides: &Sides, row: &[u32]) -> Vec<u32> {
    let ceiling = sides.plain.head.ceiling;
    let highest = random.pick(&[0, ceiling, ceiling + 1, u32::MAX]);
    let mut proposal = row.to_vec();
    let at = random.below(row.len());
    proposal[at] = highest;
    proposal
}
