//! The safe package `film` on the same films: it must tell what the oracle tells.

use crate::fields;
use crate::lent::Differences;
use crate::numbers::{head, Problem, Sides};
use crate::random::Random;
use crate::trial::{Compared, Trial};
use crate::unweighted::written_again;
use film::{AnyFilm, Counts, Field, Head, Order, Outcome, Proposed, Relaxed};
use film_oracle::coefficient_film::{self, convert, CoefficientFilm};
use film_oracle::film::Film;
use film_oracle::run::Answer;
use film_oracle::{calls, Refusal, Whole};

/// A result as the package tells it.
type Told<T> = Result<T, film::Refusal>;

/// Reads a file, accepted or not, as a film of each kind and of either, and writes it again.
pub fn compare_file(trial: &mut Trial, file: &[u8]) -> Compared {
    let mut differences = Differences::default();
    let gauged = film::Film::read(file);
    let coefficients = film::CoefficientFilm::read(file);
    let either = AnyFilm::read(file);
    let written = [
        gauged.as_ref().ok().map(|film| film.write()),
        coefficients.as_ref().ok().map(|film| film.write()),
        either.as_ref().ok().map(|film| film.write()),
    ];
    let wanted = film_oracle::report::read(file).map_err(refusal);
    let again = match &wanted {
        Ok(film) => Ok(written_again(file, &film.weights)),
        Err(refusal) => Err(*refusal),
    };
    for written in written.into_iter().flatten() {
        differences.same("written again", again.clone(), written);
        trial.tally.add("package", "write");
    }
    let told = either.map(|film| read_lists(film.as_coefficients()));
    differences.same("AnyFilm::read", wanted.map(|film| lists(&film)), told);
    let wanted = film_oracle::film::read(file).map(|film| numbers(&film));
    let told = gauged.map(|film| read_numbers(&film));
    differences.same("Film::read", wanted.map_err(refusal), told);
    let wanted = coefficient_film::read(file).map(|film| lists(&film));
    let told = coefficients.map(|film| read_lists(&film));
    differences.same("CoefficientFilm::read", wanted.map_err(refusal), told);
    for _ in 0..3 {
        trial.tally.add("package", "read");
    }
    trial.ended(differences)
}

/// A gauged film made without weights, which may be refused: it is that of its file.
pub fn compare_made(trial: &mut Trial, film: &Film) -> Compared {
    let mut differences = Differences::default();
    let steps = film.steps.map(|steps| film::Steps {
        along: steps.along,
        across: steps.across,
    });
    let head = head(film.rows, film.columns, film.ceiling);
    let told = film::Film::from_thicknesses(head, &film.thickness, film.wedge, steps);
    let wanted = film_oracle::film::read(&film_oracle::film::write(film));
    differences.same(
        "from_thicknesses()",
        wanted.map(|film| numbers(&film)).map_err(refusal),
        told.map(|film| read_numbers(&film)),
    );
    trial.tally.add("package", "make");
    trial.ended(differences)
}

/// The same of a coefficient film.
pub fn compare_made_coefficients(trial: &mut Trial, problem: &Problem) -> Compared {
    let mut differences = Differences::default();
    let mesh = film::Coefficients {
        diagonals: problem.diagonals.clone(),
        rights: problem.rights.clone(),
        ups: problem.ups.clone(),
        sources: problem.sources.clone(),
    };
    let told = film::CoefficientFilm::from_coefficients(problem.head, &mesh);
    let wanted = coefficient_film::read(&coefficient_film::write(&problem.film()));
    differences.same(
        "from_coefficients()",
        wanted.map(|film| lists(&film)).map_err(refusal),
        told.map(|film| read_lists(&film)),
    );
    trial.tally.add("package", "make");
    trial.ended(differences)
}

/// The report of a file, accepted or not.
pub fn compare_report(trial: &mut Trial, file: &[u8]) -> Compared {
    let mut differences = Differences::default();
    let wanted = film_oracle::report::report(file);
    differences.same("report()", Ok(wanted), film::report(file));
    trial.tally.add("package", "report");
    trial.ended(differences)
}

/// Head, weights, thicknesses, wedge and steps.
type Numbers = (Head, Vec<u16>, Vec<u8>, i32, Option<[u32; 2]>);

fn numbers(film: &Film) -> Numbers {
    (
        head(film.rows, film.columns, film.ceiling),
        film.weights.clone(),
        film.thickness.clone(),
        film.wedge,
        film.steps.map(|steps| [steps.along, steps.across]),
    )
}

fn read_numbers(film: &film::Film) -> Numbers {
    let head = Head {
        rows: film.rows(),
        columns: film.columns(),
        ceiling: film.ceiling(),
    };
    let (weights, thicknesses) = (film.weights().to_vec(), film.thicknesses().to_vec());
    let steps = film.steps().map(|steps| [steps.along, steps.across]);
    (head, weights, thicknesses, film.wedge(), steps)
}

/// Head, weights, diagonals, rights, ups and sources.
type Lists = (Head, Vec<u16>, [Vec<u32>; 3], Vec<i64>);

fn lists(film: &CoefficientFilm) -> Lists {
    let problem = Problem::from(film);
    let unsigned = [problem.diagonals, problem.rights, problem.ups];
    (problem.head, problem.weights, unsigned, problem.sources)
}

fn read_lists(film: &film::CoefficientFilm) -> Lists {
    let head = Head {
        rows: film.rows(),
        columns: film.columns(),
        ceiling: film.ceiling(),
    };
    let unsigned = [film.diagonals(), film.rights(), film.ups()].map(|list| list.to_vec());
    (
        head,
        film.weights().to_vec(),
        unsigned,
        film.sources().to_vec(),
    )
}

/// Every call of the package on an accepted gauged film.
pub fn compare(random: &mut Random, trial: &mut Trial, film: &Film) -> Compared {
    let file = trial.file.0.clone();
    compare_file(trial, &file)?;
    let package = film::Film::read(&file).expect("compared just now");
    let converted = convert(film);
    let mut differences = Differences::default();
    let file = coefficient_film::write(&converted);
    differences.same("convert()", Ok(file), package.convert());
    trial.tally.add("package", "convert");
    trial.ended(differences)?;
    compare_calls(random, trial, package, &converted)
}

/// Every call of the package on an accepted coefficient film.
pub fn compare_coefficients(
    random: &mut Random,
    trial: &mut Trial,
    film: &CoefficientFilm,
) -> Compared {
    let file = trial.file.0.clone();
    compare_file(trial, &file)?;
    let package = film::CoefficientFilm::read(&file).expect("compared just now");
    compare_calls(random, trial, package, film)
}

/// The calls on a field, with one field for all.
fn compare_calls(
    random: &mut Random,
    trial: &mut Trial,
    package: impl Calls,
    film: &CoefficientFilm,
) -> Compared {
    let sides = Sides::new(Problem::from(film));
    let mut pair = Pair {
        package,
        field: fields::start(random, &sides, None),
        sides,
        differences: Differences::default(),
    };
    pair.coefficients();
    pair.cell(random);
    pair.line(random);
    pair.run(random);
    for call in ["margin", "slack", "relax", "estimate", "propose", "run"] {
        trial.tally.add("package", call);
    }
    trial.ended(pair.differences)
}

/// What the package's films of both kinds have: the calls of each are tried.
trait Calls {
    fn cells(&self) -> usize;
    fn lists(&self) -> ([&[u32]; 3], &[i64]);
    fn margin(&self) -> Told<u32>;
    fn slack(&self, field: &Field, cell: usize) -> Told<i64>;
    fn relax(&self, field: &mut Field, cell: usize) -> Told<Relaxed>;
    fn estimate(&self, field: &Field, line: u32) -> Told<Vec<u32>>;
    fn propose(&self, field: &mut Field, line: u32, proposal: &[u32]) -> Told<Proposed>;
    fn run(&self, field: &mut Field, budget: u32, order: Order, proposals: bool) -> Told<Outcome>;
}

macro_rules! calls_of {
    ($film:ty) => {
        impl Calls for $film {
            fn cells(&self) -> usize {
                self.cells()
            }
            fn lists(&self) -> ([&[u32]; 3], &[i64]) {
                let unsigned = [self.diagonals(), self.rights(), self.ups()];
                (unsigned, self.sources())
            }
            fn margin(&self) -> Told<u32> {
                self.margin()
            }
            fn slack(&self, field: &Field, cell: usize) -> Told<i64> {
                self.slack(field, cell)
            }
            fn relax(&self, field: &mut Field, cell: usize) -> Told<Relaxed> {
                self.relax(field, cell)
            }
            fn estimate(&self, field: &Field, line: u32) -> Told<Vec<u32>> {
                self.estimate(field, line)
            }
            fn propose(&self, field: &mut Field, line: u32, proposal: &[u32]) -> Told<Proposed> {
                self.propose(field, line, proposal)
            }
            fn run(
                &self,
                field: &mut Field,
                budget: u32,
                order: Order,
                proposals: bool,
            ) -> Told<Outcome> {
                self.run(field, budget, order, proposals)
            }
        }
    };
}

calls_of!(film::Film);
calls_of!(film::CoefficientFilm);

/// A film on both sides.
struct Pair<P> {
    package: P,
    sides: Sides,
    /// The oracle's field.
    field: Vec<u32>,
    differences: Differences,
}

impl<P: Calls> Pair<P> {
    fn coefficients(&mut self) {
        let plain = &self.sides.plain;
        let package = &self.package;
        let differences = &mut self.differences;
        let unsigned = [&plain.diagonals[..], &plain.rights, &plain.ups];
        let lists = (unsigned, &plain.sources[..]);
        differences.same("coefficients", lists, package.lists());
        differences.same("cells()", plain.cells(), package.cells());
        let margin = calls::margin(self.sides.oracle()).map(|margin| margin as u32);
        differences.same("margin()", margin.map_err(refusal), package.margin());
    }

    /// A slack and a relaxation, at a cell that may be outside.
    fn cell(&mut self, random: &mut Random) {
        let cell = random.below(self.field.len() + 1);
        let mut field = Field::from(self.field.clone());
        let slack = calls::slack(self.sides.oracle(), &self.field, cell as Whole);
        let told = self.package.slack(&field, cell);
        let slack = slack.map(|slack| slack as i64).map_err(refusal);
        self.differences.same("slack()", slack, told);

        let relaxed = calls::relax(self.sides.oracle(), &mut self.field, cell as Whole);
        let told = self.package.relax(&mut field, cell);
        let wanted = relaxed.map(|relaxed| match relaxed {
            film_oracle::relax::Relaxed::Kept => Relaxed::Quiet,
            film_oracle::relax::Relaxed::Raised => Relaxed::Raised(self.field[cell]),
            film_oracle::relax::Relaxed::Over => Relaxed::Over,
        });
        self.ended("relax()", wanted, told, &field);
    }

    /// An estimate and a proposal, for a line that may be outside.
    fn line(&mut self, random: &mut Random) {
        let line = random.below(self.sides.plain.head.rows as usize + 2);
        let mut field = Field::from(self.field.clone());
        let mut estimate = vec![0; self.sides.plain.head.columns as usize];
        let oracle = self.sides.oracle();
        let wanted = calls::estimate(oracle, &self.field, line as Whole, &mut estimate);
        let told = self.package.estimate(&field, line as u32);
        let wanted = wanted.map(|()| estimate.clone()).map_err(refusal);
        self.differences.same("estimate()", wanted, told);

        let proposed = calls::propose(oracle, &mut self.field, line as Whole, &estimate);
        let told = self.package.propose(&mut field, line as u32, &estimate);
        let wanted = proposed.map(|proposed| match proposed {
            film_oracle::line::Proposed::Accepted(cells) => Proposed::Accepted(cells as u32),
            film_oracle::line::Proposed::Rejected => Proposed::Rejected,
        });
        self.ended("propose()", wanted, told, &field);
    }

    fn run(&mut self, random: &mut Random) {
        let orders = [Order::Forward, Order::Backward, Order::RedBlack];
        let number = random.below(3);
        let (budget, proposals) = (random.below(1_000) as u32, random.chance(50));
        let mut field = Field::from(self.field.clone());
        let oracle = self.sides.oracle();
        let wanted = calls::run(oracle, &mut self.field, budget, number as Whole, proposals);
        let told = self
            .package
            .run(&mut field, budget, orders[number], proposals);
        self.ended("run()", wanted.map(outcome), told, &field);
    }

    fn ended<T: PartialEq + std::fmt::Debug>(
        &mut self,
        what: &str,
        wanted: Result<T, Refusal>,
        told: Told<T>,
        field: &Field,
    ) {
        self.differences.same(what, wanted.map_err(refusal), told);
        self.differences
            .same("field", &self.field[..], field.pressures());
    }
}

fn outcome(outcome: film_oracle::run::Outcome) -> Outcome {
    let counts = Counts {
        visits: outcome.visits,
        raises: outcome.raises,
        accepted: outcome.proposed,
    };
    match outcome.answer {
        Answer::Done => Outcome::Done(counts),
        Answer::Stopped => Outcome::Stopped(counts),
        Answer::Over(cell) => Outcome::Over(cell, counts),
    }
}

fn refusal(refusal: Refusal) -> film::Refusal {
    film::Refusal {
        number: refusal.number.into(),
        place: refusal.place,
    }
}
