//! The trial of one film: which calls are made, and with what.

use crate::binding;
use crate::damage;
use crate::fields::{self, Sweep};
use crate::films::{self, quick};
use crate::lent::Differences;
use crate::numbers::{Gauge, Problem};
use crate::problems;
use crate::random::Random;
use crate::tally::Tally;
use crate::trial::{Compared, Disagreement, File, Step, Trial, REPORT_ROOM};
use crate::unweighted;
use film_oracle::coefficient_film::{self, convert, CoefficientFilm, COEFFICIENT_BUFFER};
use film_oracle::film::{file_length, write, Film, THICKNESS_BUFFER, WEIGHT_BUFFER};
use film_oracle::report;

/// Makes a film of either kind, accepted or damaged, and its calls.
pub fn compare(random: &mut Random, tally: &mut Tally) -> Compared {
    match random.below(3_000) {
        0 | 1 => return slow_film(random, tally),
        2..=4 => return long_input(random, tally),
        5 | 6 => return slow_search(random, tally),
        _ => {}
    }
    match random.below(100) {
        0..=34 => accepted_film(random, tally),
        35..=47 => damaged_film(random, tally),
        48..=74 => coefficients(random, tally),
        75..=87 => damaged_coefficients(random, tally),
        88..=93 => unweighted_film(random, tally),
        _ => unweighted_coefficients(random, tally),
    }
}

fn accepted_film(random: &mut Random, tally: &mut Tally) -> Compared {
    let film = films::accepted(random);
    let converted = convert(&film);
    let files = [write(&film), coefficient_film::write(&converted)];
    let mut trial = Trial::new(files[0].clone(), tally);
    gauged(&mut trial, films::gauge(random, &film))?;
    for file in &files {
        read(&mut trial, file)?;
    }
    if random.chance(30) {
        wrong_lengths(random, &mut trial, &film)?;
    }
    lists_alike(random, &mut trial, &files)?;
    numeric(random, &mut trial, Problem::from(&converted), None)?;
    binding::compare(random, &mut trial, &film)?;
    if quick(&converted) {
        reported(random, &mut trial, &files[0])?;
        return reported(random, &mut trial, &files[1]);
    }
    // A long run is made of one of the two alone, and not of every film.
    match random.below(8) {
        kind @ 0..=1 => reported(random, &mut trial, &files[kind]),
        _ => Ok(()),
    }
}

/// The report of a file, by the library and by the package.
fn reported(random: &mut Random, trial: &mut Trial, file: &[u8]) -> Compared {
    binding::compare_report(trial, file)?;
    let room = REPORT_ROOM + random.below(20);
    trial.step(Step::Report(File(file.to_vec()), room))
}

/// A film whose report uses its budget up, or nearly so.
fn slow_film(random: &mut Random, tally: &mut Tally) -> Compared {
    let file = match (random.below(3), films::slow(random)) {
        (0, Some(film)) => write(&film),
        (1, Some(film)) => coefficient_film::write(&convert(&film)),
        _ => coefficient_film::write(&problems::climbing(random).film()),
    };
    let mut trial = Trial::new(file.clone(), tally);
    read(&mut trial, &file)?;
    trial.step(Step::Report(File(file), REPORT_ROOM))
}

/// A coefficient film of the largest shape, whole, cut by a byte or with bytes that follow it.
fn long_input(random: &mut Random, tally: &mut Tally) -> Compared {
    let film = problems::shaped(random, (32, 32)).film();
    let mut file = coefficient_film::write(&film);
    let whole = file.len();
    let any = whole + random.below(20_000);
    let length = random.pick(&[whole - 1, whole, whole + 1, any]);
    file.resize(length, random.byte());
    let mut trial = Trial::new(file.clone(), tally);
    read(&mut trial, &file)?;
    if length != whole || quick(&film) {
        trial.step(Step::Report(File(file), REPORT_ROOM))?;
    }
    Ok(())
}

fn damaged_film(random: &mut Random, tally: &mut Tally) -> Compared {
    let film = films::accepted(random);
    let mut trial = Trial::new(Vec::new(), tally);
    for _ in 0..4 {
        let file = damage::file(random, &film);
        damaged_file(random, &mut trial, file)?;
    }
    for _ in 0..4 {
        gauged(&mut trial, damage::gauge(random, &film))?;
    }
    wrong_lengths(random, &mut trial, &film)
}

fn damaged_coefficients(random: &mut Random, tally: &mut Tally) -> Compared {
    let problem = problems::accepted(random);
    let mut trial = Trial::new(Vec::new(), tally);
    for _ in 0..4 {
        let file = damage::coefficient_file(random, &problem);
        damaged_file(random, &mut trial, file)?;
    }
    for _ in 0..4 {
        meshed(&mut trial, damage::problem(random, &problem))?;
    }
    wrong_coefficient_lengths(random, &mut trial, &problem)
}

/// A gauged film without weights, and the coefficient film of the same problem, without them too: the
/// same ones are found.
fn unweighted_film(random: &mut Random, tally: &mut Tally) -> Compared {
    let film = unweighted::film(random);
    let files = [write(&film), coefficient_film::write(&convert(&film))];
    let mut trial = Trial::new(files[0].clone(), tally);
    for file in &files {
        read(&mut trial, file)?;
    }
    binding::compare_made(&mut trial, &film)?;
    lists_alike(random, &mut trial, &files)?;
    let found = film_oracle::film::read(&files[0]).expect("weights that are found soon");
    gauged(&mut trial, films::gauge(random, &found))?;
    binding::compare(random, &mut trial, &found)?;
    alike_reports(random, &mut trial, &files, &convert(&found))?;
    // Calls on its numbers want weights, and so do those on its coefficients.
    gauged(&mut trial, films::gauge(random, &film))?;
    unweighted_calls(random, &mut trial, Problem::from(&film))?;
    for _ in 0..3 {
        let file = damage::file(random, &film);
        damaged_file(random, &mut trial, file)?;
    }
    Ok(())
}

/// A coefficient film without weights, which may have none.
fn unweighted_coefficients(random: &mut Random, tally: &mut Tally) -> Compared {
    let problem = unweighted::problem(random);
    let file = coefficient_film::write(&problem.film());
    let mut trial = Trial::new(file.clone(), tally);
    read(&mut trial, &file)?;
    binding::compare_made_coefficients(&mut trial, &problem)?;
    match coefficient_film::read(&file) {
        Ok(found) => {
            meshed(&mut trial, Problem::from(&found))?;
            list(random, &mut trial, &file)?;
            binding::compare_coefficients(random, &mut trial, &found)?;
            alike_reports(random, &mut trial, &[file], &found)?;
        }
        Err(_) => damaged_file(random, &mut trial, file)?,
    }
    meshed(&mut trial, problem.clone())?;
    unweighted_calls(random, &mut trial, problem.clone())?;
    for _ in 0..3 {
        let file = damage::coefficient_file(random, &problem);
        damaged_file(random, &mut trial, file)?;
    }
    Ok(())
}

/// Files without weights have the report of the film that is found, whose own files have it too.
fn alike_reports(
    random: &mut Random,
    trial: &mut Trial,
    files: &[Vec<u8>],
    found: &CoefficientFilm,
) -> Compared {
    for file in files {
        let placed = unweighted::written_again(file, &found.weights);
        read(trial, &placed)?;
        if quick(found) {
            reported(random, trial, file)?;
            reported(random, trial, &placed)?;
            let mut differences = Differences::default();
            differences.same("report in place", film::report(file), film::report(&placed));
            trial.ended(differences)?;
        }
    }
    Ok(())
}

/// Numeric calls with a slice of no weights.
fn unweighted_calls(random: &mut Random, trial: &mut Trial, problem: Problem) -> Compared {
    trial.step(Step::Film(problem.clone()))?;
    trial.step(Step::Field(vec![0; problem.cells()]))?;
    for _ in 0..2 {
        let step = any_call(random, &problem);
        trial.step(step)?;
    }
    Ok(())
}

/// A film without weights whose search is long, or as long as it may be.
fn slow_search(random: &mut Random, tally: &mut Tally) -> Compared {
    let file = unweighted::slow_file(random);
    let mut trial = Trial::new(file.clone(), tally);
    read(&mut trial, &file)?;
    // The report makes the search once more, so it is not that of every such film.
    if random.chance(30) {
        trial.step(Step::Report(File(file), REPORT_ROOM))?;
    }
    Ok(())
}

/// Reads a damaged file, which becomes the trial's, and reports on it.
fn damaged_file(random: &mut Random, trial: &mut Trial, file: Vec<u8>) -> Compared {
    if !unweighted::read_soon(&file) {
        return Ok(());
    }
    trial.file = File(file.clone());
    read(trial, &file)?;
    binding::compare_file(trial, &file)?;
    // Damage may leave a file that is accepted.
    match report::read(&file) {
        Ok(film) if !quick(&film) => Ok(()),
        _ => reported(random, trial, &file),
    }
}

/// Both readers get the file: one of them at least refuses it.
fn read(trial: &mut Trial, file: &[u8]) -> Compared {
    let file = File(file.to_vec());
    trial.step(Step::Read(file.clone(), WEIGHT_BUFFER, THICKNESS_BUFFER))?;
    trial.step(Step::ReadCoefficients(file, [COEFFICIENT_BUFFER; 5]))
}

/// Writes the film, forms its coefficients and converts it, in slices of the right length for its
/// shape.
fn gauged(trial: &mut Trial, gauge: Gauge) -> Compared {
    let (rows, columns) = (
        gauge.head.rows.min(99) as usize,
        gauge.head.columns.min(99) as usize,
    );
    let length = file_length(rows, columns, gauge.given_steps().is_some());
    trial.step(Step::Write(gauge.clone(), length))?;
    trial.step(Step::Form(gauge.clone(), [rows * columns; 4]))?;
    let length = coefficient_film::file_length(rows, columns);
    trial.step(Step::Convert(gauge, length))
}

/// Writes a film as coefficients, in a slice of the right length for its shape.
fn meshed(trial: &mut Trial, problem: Problem) -> Compared {
    let length = coefficient_film::file_length(
        problem.head.rows.min(99) as usize,
        problem.head.columns.min(99) as usize,
    );
    trial.step(Step::WriteCoefficients(problem, length))
}

/// Every call on a gauged film's numbers, with lent slices of wrong lengths.
fn wrong_lengths(random: &mut Random, trial: &mut Trial, film: &Film) -> Compared {
    let gauge = if random.chance(70) {
        films::gauge(random, film)
    } else {
        damage::gauge(random, film)
    };
    let mut lengths = [film.cells(); 4];
    let which = random.below(4);
    lengths[which] = damage::length(random, film.cells());
    trial.step(Step::Form(gauge.clone(), lengths))?;
    let given = gauge.given_steps().is_some();
    let length = match random.below(4) {
        0 => file_length(film.rows, film.columns, !given),
        _ => damage::length(random, file_length(film.rows, film.columns, given)),
    };
    trial.step(Step::Write(gauge.clone(), length))?;
    let length = coefficient_film::file_length(film.rows, film.columns);
    let length = damage::length(random, length);
    trial.step(Step::Convert(gauge, length))?;
    let file = trial.file.clone();
    let (weights, thicknesses) = if random.chance(50) {
        (damage::length(random, WEIGHT_BUFFER), THICKNESS_BUFFER)
    } else {
        (WEIGHT_BUFFER, damage::length(random, THICKNESS_BUFFER))
    };
    trial.step(Step::Read(file, weights, thicknesses))?;
    wrong_room(random, trial)
}

/// Every call on a coefficient film's numbers, with lent slices of wrong lengths.
fn wrong_coefficient_lengths(
    random: &mut Random,
    trial: &mut Trial,
    problem: &Problem,
) -> Compared {
    let problem = if random.chance(70) {
        problem.clone()
    } else {
        damage::problem(random, problem)
    };
    let length = damage::length(random, 27 + 22 * problem.weights.len());
    trial.step(Step::WriteCoefficients(problem, length))?;
    let mut lengths = [COEFFICIENT_BUFFER; 5];
    let which = random.below(5);
    lengths[which] = damage::length(random, COEFFICIENT_BUFFER);
    let file = trial.file.clone();
    trial.step(Step::ReadCoefficients(file, lengths))?;
    wrong_room(random, trial)
}

/// A report in too small a slice.
fn wrong_room(random: &mut Random, trial: &mut Trial) -> Compared {
    let room = random.pick(&[0, 1, 40, 4_096, REPORT_ROOM - 1]);
    let file = trial.file.clone();
    trial.step(Step::Report(file, room))
}

/// A film that comes as coefficients.
fn coefficients(random: &mut Random, tally: &mut Tally) -> Compared {
    let (problem, known) = if random.chance(40) {
        (problems::accepted(random), None)
    } else {
        let (problem, field) = problems::exact(random);
        (problem, Some(field))
    };
    let film = problem.film();
    let file = coefficient_film::write(&film);
    let mut trial = Trial::new(file.clone(), tally);
    meshed(&mut trial, problem.clone())?;
    read(&mut trial, &file)?;
    if random.chance(30) {
        wrong_coefficient_lengths(random, &mut trial, &problem)?;
    }
    list(random, &mut trial, &file)?;
    numeric(random, &mut trial, problem, known.as_deref())?;
    binding::compare_coefficients(random, &mut trial, &film)?;
    if quick(&film) {
        reported(random, &mut trial, &file)?;
    }
    Ok(())
}

/// A call of a list, and the library's field after it.
type Made = (Step, Vec<u32>);

/// A list of runs and proposals, refused ones among them, on the film that each side reads from a
/// file, from the zero field.
fn list(
    random: &mut Random,
    trial: &mut Trial,
    file: &[u8],
) -> Result<Vec<Made>, Box<Disagreement>> {
    trial.step(Step::Begin(File(file.to_vec())))?;
    let mut made = Vec::new();
    for _ in 0..2 + random.below(4) {
        let step = match random.below(10) {
            0 | 1 => refused_list_call(random, trial),
            2..=5 => good_proposal(random, trial),
            _ => good_run(random, trial),
        };
        trial.step(step.clone())?;
        made.push((step, trial.library_field().to_vec()));
    }
    Ok(made)
}

/// The same list begun from a gauged film's file and from the converted one's: the library's field
/// is the same after each call.
fn lists_alike(random: &mut Random, trial: &mut Trial, files: &[Vec<u8>; 2]) -> Compared {
    let made = list(random, trial, &files[0])?;
    trial.step(Step::Begin(File(files[1].clone())))?;
    for (step, field) in made {
        trial.step(step)?;
        let mut differences = Differences::default();
        differences.same("converted field", &field[..], trial.library_field());
        trial.ended(differences)?;
    }
    Ok(())
}

/// Calls on one film and one field, and refused ones among them.
fn numeric(
    random: &mut Random,
    trial: &mut Trial,
    problem: Problem,
    known: Option<&[u32]>,
) -> Compared {
    trial.step(Step::Film(problem.clone()))?;
    trial.step(Step::Margin)?;
    for _ in 0..1 + random.below(3) {
        let field = fields::start(random, trial.sides(), known);
        trial.step(Step::Field(field))?;
        for _ in 0..3 + random.below(6) {
            let step = good_call(random, trial);
            trial.step(step)?;
        }
        for _ in 0..random.below(4) {
            let step = refused_call(random, trial);
            trial.step(step)?;
        }
        damaged_calls(random, trial, &problem)?;
        let step = good_call(random, trial);
        trial.step(step)?;
        bad_field(random, trial)?;
    }
    Ok(())
}

/// A call that is answered.
fn good_call(random: &mut Random, trial: &Trial) -> Step {
    let columns = trial.sides().plain.head.columns as usize;
    let cell = good_cell(random, trial);
    match random.below(12) {
        0 | 1 => Step::Relax(cell),
        2 => Step::Slack(cell),
        3 | 4 => Step::Estimate(1 + (cell / columns) as u32, columns),
        5..=8 => good_proposal(random, trial),
        _ => good_run(random, trial),
    }
}

/// Any cell, or one that can be raised.
fn good_cell(random: &mut Random, trial: &Trial) -> usize {
    let any = random.below(trial.sides().plain.cells());
    let short = fields::short_cell(random, trial.sides(), trial.field());
    match short {
        Some(short) if random.chance(70) => short,
        _ => any,
    }
}

/// A proposal for a line of the grid, of its length.
fn good_proposal(random: &mut Random, trial: &Trial) -> Step {
    let columns = trial.sides().plain.head.columns as usize;
    let line = 1 + good_cell(random, trial) / columns;
    let proposal = fields::proposal(random, trial.sides(), trial.field(), line);
    Step::Propose(line as u32, proposal)
}

/// A run with a small budget, or with one around N, or around the last visit of a run that ends by
/// itself.
fn good_run(random: &mut Random, trial: &Trial) -> Step {
    let cells = trial.sides().plain.cells() as i64;
    let most = 1_000 + 10 * cells as u32;
    let mut sweep = Sweep {
        budget: most,
        order: random.below(3) as u32,
        proposals: random.chance(50),
    };
    let budget = match random.below(8) {
        0 | 1 => random.within(0, 3),
        2 => cells + random.within(-1, 1),
        3 | 4 => random.within(1, 3 * cells),
        5 => most.into(),
        _ => {
            let mut field = trial.field().to_vec();
            let last = fields::visits(trial.sides(), &mut field, sweep);
            let beside = i64::from(last.unwrap_or(most)) + random.within(-1, 1);
            match last {
                Some(_) if random.chance(10) => u32::MAX.into(),
                _ => beside,
            }
        }
    };
    sweep.budget = budget as u32;
    Step::Run(sweep)
}

/// A call with a bad line, cell, ordering or length.
fn refused_call(random: &mut Random, trial: &Trial) -> Step {
    let problem = &trial.sides().plain;
    let cells = problem.cells();
    let any = random.any_u32() as usize;
    let cell = random.pick(&[cells, cells + 1, usize::MAX, any]);
    match random.below(5) {
        0 => Step::Relax(cell),
        1 => Step::Slack(cell),
        2 => Step::Estimate(bad_line(random, trial), any_length(random, trial)),
        _ => refused_list_call(random, trial),
    }
}

/// A proposal or a run, with a bad line, ordering or length.
fn refused_list_call(random: &mut Random, trial: &Trial) -> Step {
    if random.chance(50) {
        let line = bad_line(random, trial);
        let length = any_length(random, trial);
        return Step::Propose(line, (0..length).map(|_| random.any_u32()).collect());
    }
    let any = random.any_u32();
    Step::Run(Sweep {
        budget: random.pick(&[0, 1, 100]),
        order: random.pick(&[3, 4, 256, u32::MAX, any | 4]),
        proposals: random.chance(50),
    })
}

/// A line outside the grid, or now and then its first one.
fn bad_line(random: &mut Random, trial: &Trial) -> u32 {
    let any = random.any_u32();
    random.pick(&[0, trial.sides().plain.head.rows + 1, u32::MAX, any, 1])
}

/// The length of a line, or a wrong one.
fn any_length(random: &mut Random, trial: &Trial) -> usize {
    let columns = trial.sides().plain.head.columns as usize;
    if random.chance(50) {
        columns
    } else {
        damage::length(random, columns)
    }
}

/// Calls on the same field with a film that has faults, and then the film again.
fn damaged_calls(random: &mut Random, trial: &mut Trial, problem: &Problem) -> Compared {
    for _ in 0..1 + random.below(3) {
        let damaged = damage::problem(random, problem);
        trial.step(Step::Film(damaged))?;
        let step = any_call(random, problem);
        trial.step(step)?;
    }
    trial.step(Step::Film(problem.clone()))
}

/// A call that fits the film, or that has a fault of its own.
fn any_call(random: &mut Random, problem: &Problem) -> Step {
    let cell = random.below(problem.cells() + 1);
    let line = random.below(problem.head.rows as usize + 2) as u32;
    let columns = problem.head.columns as usize;
    match random.below(6) {
        0 => Step::Relax(cell),
        1 => Step::Slack(cell),
        2 => Step::Margin,
        3 => Step::Propose(line, vec![random.any_u32(); columns]),
        4 => Step::Estimate(line, columns),
        _ => Step::Run(Sweep {
            budget: random.within(0, 50) as u32,
            order: random.below(4) as u32,
            proposals: random.chance(50),
        }),
    }
}

/// A field with a pressure above the ceiling, or of the wrong length; any call after it.
fn bad_field(random: &mut Random, trial: &mut Trial) -> Compared {
    let ceiling = trial.sides().plain.head.ceiling;
    let mut field = trial.field().to_vec();
    if random.chance(70) {
        for _ in 0..1 + random.below(2) {
            let at = random.below(field.len());
            field[at] = random.pick(&[ceiling + 1, u32::MAX, 1 << 31, ceiling]);
        }
    } else {
        let length = damage::length(random, field.len());
        field.resize(length, 0);
    }
    trial.step(Step::Field(field))?;
    let problem = trial.sides().plain.clone();
    for _ in 0..2 {
        let step = any_call(random, &problem);
        trial.step(step)?;
    }
    Ok(())
}
