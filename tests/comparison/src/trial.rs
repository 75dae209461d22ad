//! One film's trial: a list of calls, each made on the oracle and on the library. The calls on a
//! film share one field, as each side left it.

use crate::coefficient_calls;
use crate::fields::Sweep;
use crate::lent::{Differences, Lent};
use crate::numbers::{head, steps, Gauge, Problem, Sides};
use crate::tally::{answer, Tally};
use crate::unweighted::is_unweighted;
use film::raw::{self, Formed, Ran};
use film::Head;
use film_oracle::film::{read_into, write_into};
use film_oracle::line::Proposed;
use film_oracle::relax::Relaxed;
use film_oracle::report;
use film_oracle::run::{Answer, Outcome};
use film_oracle::{calls, coefficients, Refusal};
use std::fmt;

/// What results hold before a call, so that one which the call should leave alone shows.
const UNSET: u32 = 0xdead_beef;
pub const UNSET_HEAD: Head = Head {
    rows: UNSET,
    columns: UNSET,
    ceiling: UNSET,
};
pub const UNSET_STEPS: raw::Steps = raw::Steps {
    given: UNSET,
    along: UNSET - 1,
    across: UNSET - 2,
};
const UNSET_SLACK: i64 = -0x5ead_beef_5ead_beef;
pub const UNSET_PLACE: usize = 0x0bad_cafe_0bad_cafe;

/// The room that the report's call asks for.
pub const REPORT_ROOM: usize = 33_288;

/// The bytes of a file, printed in hexadecimal.
#[derive(Clone)]
pub struct File(pub Vec<u8>);

impl fmt::Debug for File {
    fn fmt(&self, f: &mut fmt::Formatter) -> fmt::Result {
        self.0.iter().try_for_each(|byte| write!(f, "{byte:02x}"))
    }
}

/// A call and its inputs, or what the calls after it work on.
#[derive(Clone, Debug)]
pub enum Step {
    /// The film of the calls that follow.
    Film(Problem),
    /// The field that the calls that follow share.
    Field(Vec<u32>),
    /// The file of the calls that follow, of either kind: each side has what it reads from it, and the
    /// zero field.
    Begin(File),
    /// The file, and the lengths of the two buffers.
    Read(File, usize, usize),
    /// The file, and the lengths of the buffers for weights, diagonals, rights, ups and sources.
    ReadCoefficients(File, [usize; 5]),
    /// The film's numbers, and the length of the slice for the file.
    Write(Gauge, usize),
    /// The film's coefficients, and the length of the slice for the coefficient file.
    WriteCoefficients(Problem, usize),
    /// The film's numbers, and the length of the slice for the coefficient file.
    Convert(Gauge, usize),
    /// The film's numbers, and the lengths of the slices for diagonals, rights, ups and sources.
    Form(Gauge, [usize; 4]),
    /// The cell.
    Relax(usize),
    /// The cell.
    Slack(usize),
    Margin,
    /// The line and the proposal.
    Propose(u32, Vec<u32>),
    /// The line, and the length of the slice for the estimate.
    Estimate(u32, usize),
    Run(Sweep),
    /// The file, and the length of the slice for the text.
    Report(File, usize),
}

/// The two sides of a trial, and its calls so far.
pub struct Trial<'a> {
    /// The film file that the trial began with.
    pub file: File,
    pub steps: Vec<Step>,
    pub tally: &'a mut Tally,
    sides: Sides,
    /// The oracle's field.
    field: Vec<u32>,
    /// The library's.
    lent: Lent<u32>,
}

/// A call on which the two sides disagree: the last one of the steps.
pub struct Disagreement {
    pub file: File,
    pub steps: Vec<Step>,
    pub differences: Vec<String>,
}

/// What a trial, or a part of it, comes to.
pub type Compared = Result<(), Box<Disagreement>>;

impl<'a> Trial<'a> {
    pub fn new(file: Vec<u8>, tally: &'a mut Tally) -> Trial<'a> {
        Trial {
            file: File(file),
            steps: Vec::new(),
            tally,
            sides: Sides::new(Problem::default()),
            field: Vec::new(),
            lent: Lent::new(&[], UNSET),
        }
    }

    pub fn sides(&self) -> &Sides {
        &self.sides
    }

    pub fn field(&self) -> &[u32] {
        &self.field
    }

    /// The library's field, which is the same unless a step has shown a difference.
    pub fn library_field(&self) -> &[u32] {
        self.lent.slice()
    }

    /// Makes a step on both sides and compares all that it told and all that it was lent.
    pub fn step(&mut self, step: Step) -> Compared {
        self.steps.push(step.clone());
        let mut differences = Differences::default();
        match step {
            Step::Film(problem) => self.sides = Sides::new(problem),
            Step::Field(field) => self.set_field(field),
            Step::Begin(file) => {
                self.sides = coefficient_calls::film(&file.0, self.tally, &mut differences);
                self.set_field(vec![0; self.sides.plain.cells()]);
            }
            Step::Read(file, weights, thicknesses) => {
                read(&file.0, weights, thicknesses, self.tally, &mut differences)
            }
            Step::ReadCoefficients(file, lengths) => {
                coefficient_calls::read(&file.0, lengths, self.tally, &mut differences)
            }
            Step::Write(gauge, length) => write(&gauge, length, self.tally, &mut differences),
            Step::WriteCoefficients(problem, length) => {
                coefficient_calls::write(problem, length, self.tally, &mut differences)
            }
            Step::Convert(gauge, length) => {
                coefficient_calls::convert(&gauge, length, self.tally, &mut differences)
            }
            Step::Form(gauge, lengths) => form(&gauge, lengths, self.tally, &mut differences),
            Step::Report(file, length) => report(&file.0, length, self.tally, &mut differences),
            step => self.on_field(step, &mut differences),
        }
        self.ended(differences)
    }

    fn set_field(&mut self, field: Vec<u32>) {
        self.lent = Lent::new(&field, UNSET);
        self.field = field;
    }

    /// The trial's state after a comparison.
    pub fn ended(&self, differences: Differences) -> Compared {
        if differences.none() {
            return Ok(());
        }
        Err(Box::new(Disagreement {
            file: self.file.clone(),
            steps: self.steps.clone(),
            differences: differences.lines().to_vec(),
        }))
    }

    /// A call on the shared film and field. No other slice may have changed.
    fn on_field(&mut self, step: Step, differences: &mut Differences) {
        match step {
            Step::Relax(cell) => self.relax(cell, differences),
            Step::Slack(cell) => self.slack(cell, differences),
            Step::Margin => self.margin(differences),
            Step::Propose(line, proposal) => self.propose(line, &proposal, differences),
            Step::Estimate(line, length) => self.estimate(line, length, differences),
            Step::Run(sweep) => self.run(sweep, differences),
            other => unreachable!("no call on a field: {other:?}"),
        }
        differences.lent("field", &self.field, &self.lent);
        self.sides.compare(differences);
    }

    fn relax(&mut self, cell: usize, differences: &mut Differences) {
        let wanted = calls::relax(self.sides.oracle(), &mut self.field, cell as i128);
        let (result, word) = match wanted {
            Ok(Relaxed::Kept) => ([0, 0], "quiet"),
            Ok(Relaxed::Raised) => ([1, self.field[cell]], "raised"),
            Ok(Relaxed::Over) => ([2, 0], "over"),
            Err(_) => ([UNSET; 2], ""),
        };
        let (mut told, mut place) = ([UNSET; 2], UNSET_PLACE);
        let problem = self.sides.library();
        let number = raw::relax(problem, self.lent.slice_mut(), cell, &mut told, &mut place);
        refusals(&wanted, number, place, differences);
        differences.same("result", result, told);
        self.tally.add("relax", answer(number, word));
    }

    fn slack(&mut self, cell: usize, differences: &mut Differences) {
        let wanted = calls::slack(self.sides.oracle(), &self.field, cell as i128);
        let (mut told, mut place) = (UNSET_SLACK, UNSET_PLACE);
        let problem = self.sides.library();
        let number = raw::slack(problem, self.lent.slice(), cell, &mut told, &mut place);
        refusals(&wanted, number, place, differences);
        differences.same("slack", wanted.unwrap_or(UNSET_SLACK.into()), told.into());
        self.tally.add("slack", answer(number, "answered"));
    }

    fn margin(&mut self, differences: &mut Differences) {
        let wanted = calls::margin(self.sides.oracle());
        let (mut told, mut place) = (UNSET, UNSET_PLACE);
        let number = raw::margin(self.sides.library(), &mut told, &mut place);
        refusals(&wanted, number, place, differences);
        differences.same("margin", wanted.unwrap_or(UNSET.into()), told.into());
        self.tally.add("margin", answer(number, "answered"));
    }

    fn propose(&mut self, line: u32, proposal: &[u32], differences: &mut Differences) {
        let wanted = calls::propose(self.sides.oracle(), &mut self.field, line.into(), proposal);
        let (result, word) = match wanted {
            Ok(Proposed::Accepted(cells)) => ([1, cells as u32], "accepted"),
            Ok(Proposed::Rejected) => ([0, 0], "rejected"),
            Err(_) => ([UNSET; 2], ""),
        };
        let (mut told, mut place) = ([UNSET; 2], UNSET_PLACE);
        let lent = Lent::new(proposal, UNSET);
        let number = raw::propose(
            self.sides.library(),
            self.lent.slice_mut(),
            line,
            lent.slice(),
            &mut told,
            &mut place,
        );
        refusals(&wanted, number, place, differences);
        differences.same("result", result, told);
        differences.lent("proposal", proposal, &lent);
        self.tally.add("propose", answer(number, word));
    }

    fn estimate(&mut self, line: u32, length: usize, differences: &mut Differences) {
        let mut proposal = vec![UNSET; length];
        let mut lent = Lent::new(&proposal, UNSET - 1);
        let oracle = self.sides.oracle();
        let wanted = calls::estimate(oracle, &self.field, line.into(), &mut proposal);
        let mut place = UNSET_PLACE;
        let number = raw::estimate(
            self.sides.library(),
            self.lent.slice(),
            line,
            lent.slice_mut(),
            &mut place,
        );
        refusals(&wanted, number, place, differences);
        differences.lent("estimate", &proposal, &lent);
        let zeros = proposal.iter().all(|&pressure| pressure == 0);
        let word = if zeros { "zeros" } else { "above zero" };
        self.tally.add("estimate", answer(number, word));
    }

    fn run(&mut self, sweep: Sweep, differences: &mut Differences) {
        let Sweep {
            budget,
            order,
            proposals,
        } = sweep;
        let oracle = self.sides.oracle();
        let wanted = calls::run(oracle, &mut self.field, budget, order.into(), proposals);
        let mut told = Ran {
            result: [UNSET; 4],
            cell: UNSET_PLACE,
            place: UNSET_PLACE,
        };
        let (result, cell, word) = match wanted {
            Ok(outcome) => ran(outcome),
            Err(_) => (told.result, told.cell, ""),
        };
        let number = raw::run(
            self.sides.library(),
            self.lent.slice_mut(),
            budget,
            order,
            proposals,
            &mut told,
        );
        refusals(&wanted, number, told.place, differences);
        differences.same("result", result, told.result);
        differences.same("cell", cell, told.cell);
        let call = match (proposals, order) {
            (false, 0) => "run 0",
            (false, 1) => "run 1",
            (false, 2) => "run 2",
            (true, 0) => "run 0 proposals",
            (true, 1) => "run 1 proposals",
            (true, 2) => "run 2 proposals",
            _ => "run 3 and more",
        };
        self.tally.add(call, answer(number, word));
    }
}

/// A run's result and cell in the library's numbers, and its word.
fn ran(outcome: Outcome) -> ([u32; 4], usize, &'static str) {
    let (ended, cell, word) = match outcome.answer {
        Answer::Done => (0, UNSET_PLACE, "done"),
        Answer::Stopped => (1, UNSET_PLACE, "stopped"),
        Answer::Over(cell) => (2, cell, "over"),
    };
    let result = [ended, outcome.visits, outcome.raises, outcome.proposed];
    (result, cell, word)
}

/// The number that was answered, and the place: an answer leaves it as it was.
pub fn refusals<T>(
    wanted: &Result<T, Refusal>,
    number: u32,
    place: usize,
    differences: &mut Differences,
) {
    let (wanted_number, wanted_place) = match wanted {
        Ok(_) => (0, UNSET_PLACE),
        Err(refusal) => (refusal.number.into(), refusal.place),
    };
    differences.same("number", wanted_number, number);
    differences.same("place", wanted_place, place);
}

fn read(
    file: &[u8],
    weights: usize,
    thicknesses: usize,
    tally: &mut Tally,
    differences: &mut Differences,
) {
    let (mut weights, mut thicknesses) = (vec![0xabcd; weights], vec![0xee; thicknesses]);
    let mut lent_weights = Lent::new(&weights, 0xabce);
    let mut lent_thicknesses = Lent::new(&thicknesses, 0xef);
    let lent_file = Lent::new(file, 1);
    let wanted = read_into(file, &mut weights, &mut thicknesses);
    let (mut told, mut told_wedge, mut place) = (UNSET_HEAD, UNSET as i32, UNSET_PLACE);
    let mut told_steps = Lent::new(&[UNSET_STEPS], raw::Steps::default());
    let (wanted_head, wedge, wanted_steps) = match wanted {
        Ok((rows, columns, ceiling, wedge, found)) => {
            let found = steps(found, UNSET_STEPS);
            (head(rows, columns, ceiling), wedge, found)
        }
        Err(_) => (told, told_wedge, UNSET_STEPS),
    };
    let number = raw::read(
        lent_file.slice(),
        lent_weights.slice_mut(),
        lent_thicknesses.slice_mut(),
        &mut told,
        &mut told_wedge,
        &mut told_steps.slice_mut()[0],
        &mut place,
    );
    refusals(&wanted, number, place, differences);
    differences.same("head", wanted_head, told);
    differences.same("wedge", wedge, told_wedge);
    differences.lent("steps", &[wanted_steps], &told_steps);
    differences.lent("weights", &weights, &lent_weights);
    differences.lent("thicknesses", &thicknesses, &lent_thicknesses);
    differences.lent("file", file, &lent_file);
    tally.add("read", answer(number, read_word(file, wanted_steps)));
}

/// The word that tells what a film that was read has.
fn read_word(file: &[u8], steps: raw::Steps) -> &'static str {
    match (is_unweighted(file), steps.given) {
        (false, 0) => "accepted",
        (false, _) => "with steps",
        (true, 0) => "weights found",
        (true, _) => "weights found, with steps",
    }
}

/// Lends a film's numbers to a call, and looks whether they are unchanged.
pub fn with_gauge(
    gauge: &Gauge,
    differences: &mut Differences,
    call: impl FnOnce(raw::Gauge) -> u32,
) -> u32 {
    let (head, steps) = (gauge.head, gauge.steps);
    let weights = Lent::new(&gauge.weights, 1);
    let thicknesses = Lent::new(&gauge.thicknesses, 1);
    let number = call(raw::Gauge {
        head: &head,
        weights: weights.slice(),
        thicknesses: thicknesses.slice(),
        wedge: gauge.wedge,
        steps: &steps,
    });
    differences.same("head", gauge.head, head);
    differences.same("steps", gauge.steps, steps);
    differences.lent("weights", &gauge.weights, &weights);
    differences.lent("thicknesses", &gauge.thicknesses, &thicknesses);
    number
}

fn write(gauge: &Gauge, length: usize, tally: &mut Tally, differences: &mut Differences) {
    let mut out = vec![0xee; length];
    let mut lent = Lent::new(&out, 0xef);
    let wanted = write_into(gauge.oracle(), &mut out);
    let mut place = UNSET_PLACE;
    let number = with_gauge(gauge, differences, |gauge| {
        raw::write(gauge, lent.slice_mut(), &mut place)
    });
    refusals(&wanted, number, place, differences);
    differences.lent("file", &out, &lent);
    tally.add("write", answer(number, "written"));
}

fn form(gauge: &Gauge, lengths: [usize; 4], tally: &mut Tally, differences: &mut Differences) {
    let unset = |length: usize| vec![UNSET; length];
    let (mut diagonals, mut rights) = (unset(lengths[0]), unset(lengths[1]));
    let (mut ups, mut sources) = (unset(lengths[2]), vec![UNSET_SLACK; lengths[3]]);
    let mut lent_diagonals = Lent::new(&diagonals, UNSET - 1);
    let mut lent_rights = Lent::new(&rights, UNSET - 1);
    let mut lent_ups = Lent::new(&ups, UNSET - 1);
    let mut lent_sources = Lent::new(&sources, UNSET_SLACK - 1);
    let wanted = coefficients::form_call(gauge.oracle(), &lengths);
    if let Ok(formed) = &wanted {
        diagonals = formed.diagonals.iter().map(|&d| d as u32).collect();
        rights = formed.rights.iter().map(|&link| link as u32).collect();
        ups = formed.ups.iter().map(|&link| link as u32).collect();
        sources = formed.sources.iter().map(|&s| s as i64).collect();
    }
    let mut place = UNSET_PLACE;
    let number = with_gauge(gauge, differences, |gauge| {
        let formed = Formed {
            diagonals: lent_diagonals.slice_mut(),
            rights: lent_rights.slice_mut(),
            ups: lent_ups.slice_mut(),
            sources: lent_sources.slice_mut(),
        };
        raw::form(gauge, formed, &mut place)
    });
    refusals(&wanted, number, place, differences);
    differences.lent("diagonals", &diagonals, &lent_diagonals);
    differences.lent("rights", &rights, &lent_rights);
    differences.lent("ups", &ups, &lent_ups);
    differences.lent("sources", &sources, &lent_sources);
    tally.add("form", answer(number, "formed"));
}

fn report(file: &[u8], length: usize, tally: &mut Tally, differences: &mut Differences) {
    let mut out = vec![0xee; length];
    let mut lent = Lent::new(&out, 0xef);
    let lent_file = Lent::new(file, 1);
    let wanted = if length < REPORT_ROOM {
        film_oracle::refuse(10, 0)
    } else {
        Ok(report::report(file))
    };
    let mut wanted_length = UNSET_PLACE;
    if let Ok(text) = &wanted {
        out[..text.len()].copy_from_slice(text);
        wanted_length = text.len();
    }
    let (mut told_length, mut place) = (UNSET_PLACE, UNSET_PLACE);
    let number = raw::report(
        lent_file.slice(),
        lent.slice_mut(),
        &mut told_length,
        &mut place,
    );
    refusals(&wanted, number, place, differences);
    differences.same("length", wanted_length, told_length);
    differences.lent("text", &out, &lent);
    differences.lent("file", file, &lent_file);
    let word = wanted.as_deref().map_or("", report_word);
    tally.add("report", answer(number, word));
}

/// The word that tells a report's kind.
fn report_word(text: &[u8]) -> &'static str {
    let line = text.split(|&byte| byte == b'\n').nth(1).unwrap_or(&[]);
    match line.first() {
        Some(b'D') if flat_top(text) => "DONE with a flat top",
        Some(b'D') => "DONE",
        Some(b'S') => "STOPPED",
        Some(b'O') => "OVER",
        _ => "REFUSED",
    }
}

/// Whether more than one column of a report has the greatest pressure.
fn flat_top(text: &[u8]) -> bool {
    let text = String::from_utf8_lossy(text);
    let lines: Vec<Vec<&str>> = text
        .lines()
        .skip(2)
        .map(|line| line.split(' ').collect())
        .collect();
    let Some((peak, cells)) = lines.split_last() else {
        return false;
    };
    cells
        .iter()
        .any(|cell| cell[2] == peak[3] && cell[1] != peak[2])
}
