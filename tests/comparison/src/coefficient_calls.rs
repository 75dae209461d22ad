//! The calls on coefficient files, and films as the library reads them: each made on the oracle and
//! on the library.

use crate::lent::{Differences, Lent};
use crate::numbers::{head, Gauge, Problem, Sides};
use crate::tally::{answer, Tally};
use crate::trial::{refusals, with_gauge, UNSET_HEAD, UNSET_PLACE, UNSET_STEPS};
use crate::unweighted::is_unweighted;
use film::raw::{self, Formed};
use film_oracle::calls::{self, Buffers};
use film_oracle::coefficient_film::COEFFICIENT_BUFFER;
use film_oracle::film::{Film, THICKNESS_BUFFER, WEIGHT_BUFFER};
use film_oracle::report;

/// The buffers of one side, with noise that is another number at every place: what is written shows,
/// and so does what is moved.
#[derive(Clone)]
struct Noise {
    weights: Vec<u16>,
    diagonals: Vec<u32>,
    rights: Vec<u32>,
    ups: Vec<u32>,
    sources: Vec<i64>,
}

impl Noise {
    /// Of these lengths: weights, diagonals, rights, ups and sources.
    fn new(lengths: [usize; 5]) -> Noise {
        let noise =
            |which: usize| (0..lengths[which]).map(move |at| mixed((which * 0x1_0000 + at) as u64));
        Noise {
            weights: noise(0).map(|number| number as u16).collect(),
            diagonals: noise(1).map(|number| number as u32).collect(),
            rights: noise(2).map(|number| number as u32).collect(),
            ups: noise(3).map(|number| number as u32).collect(),
            sources: noise(4).map(|number| number as i64).collect(),
        }
    }

    fn oracle(&mut self) -> Buffers<'_> {
        Buffers {
            weights: &mut self.weights,
            diagonals: &mut self.diagonals,
            rights: &mut self.rights,
            ups: &mut self.ups,
            sources: &mut self.sources,
        }
    }

    fn lent(&self) -> LentBuffers {
        LentBuffers {
            weights: Lent::new(&self.weights, 0xabce),
            diagonals: Lent::new(&self.diagonals, 0xdead_beee),
            rights: Lent::new(&self.rights, 0xdead_beee),
            ups: Lent::new(&self.ups, 0xdead_beee),
            sources: Lent::new(&self.sources, -0x5ead_beee),
        }
    }
}

/// Steele's mixing of a number's bits.
fn mixed(number: u64) -> u64 {
    let z = number.wrapping_mul(0x9e37_79b9_7f4a_7c15);
    let z = (z ^ (z >> 30)).wrapping_mul(0xbf58_476d_1ce4_e5b9);
    z ^ (z >> 27)
}

struct LentBuffers {
    weights: Lent<u16>,
    diagonals: Lent<u32>,
    rights: Lent<u32>,
    ups: Lent<u32>,
    sources: Lent<i64>,
}

impl LentBuffers {
    fn library(&mut self) -> raw::Coefficients<'_> {
        raw::Coefficients {
            weights: self.weights.slice_mut(),
            diagonals: self.diagonals.slice_mut(),
            rights: self.rights.slice_mut(),
            ups: self.ups.slice_mut(),
            sources: self.sources.slice_mut(),
        }
    }

    fn compare(&self, wanted: &Noise, differences: &mut Differences) {
        differences.lent("weights", &wanted.weights, &self.weights);
        differences.lent("diagonals", &wanted.diagonals, &self.diagonals);
        differences.lent("rights", &wanted.rights, &self.rights);
        differences.lent("ups", &wanted.ups, &self.ups);
        differences.lent("sources", &wanted.sources, &self.sources);
    }
}

pub fn read(file: &[u8], lengths: [usize; 5], tally: &mut Tally, differences: &mut Differences) {
    let mut buffers = Noise::new(lengths);
    let mut lent = buffers.lent();
    let lent_file = Lent::new(file, 1);
    let wanted = calls::read_coefficients(file, buffers.oracle());
    let (mut told, mut place) = (UNSET_HEAD, UNSET_PLACE);
    let wanted_head = match wanted {
        Ok((rows, columns, ceiling)) => head(rows, columns, ceiling),
        Err(_) => told,
    };
    let number = raw::read_coefficients(lent_file.slice(), lent.library(), &mut told, &mut place);
    refusals(&wanted, number, place, differences);
    differences.same("head", wanted_head, told);
    lent.compare(&buffers, differences);
    differences.lent("file", file, &lent_file);
    let word = if is_unweighted(file) {
        "weights found"
    } else {
        "accepted"
    };
    tally.add("read_coefficients", answer(number, word));
}

pub fn write(problem: Problem, length: usize, tally: &mut Tally, differences: &mut Differences) {
    let mut out = vec![0xee; length];
    let mut lent = Lent::new(&out, 0xef);
    let sides = Sides::new(problem);
    let wanted = calls::write_coefficients(sides.oracle(), &mut out);
    let mut place = UNSET_PLACE;
    let number = raw::write_coefficients(sides.library(), lent.slice_mut(), &mut place);
    refusals(&wanted, number, place, differences);
    differences.lent("file", &out, &lent);
    sides.compare(differences);
    tally.add("write_coefficients", answer(number, "written"));
}

pub fn convert(gauge: &Gauge, length: usize, tally: &mut Tally, differences: &mut Differences) {
    let mut out = vec![0xee; length];
    let mut lent = Lent::new(&out, 0xef);
    let wanted = calls::convert(gauge.oracle(), &mut out);
    let mut place = UNSET_PLACE;
    let number = with_gauge(gauge, differences, |gauge| {
        raw::convert(gauge, lent.slice_mut(), &mut place)
    });
    refusals(&wanted, number, place, differences);
    differences.lent("file", &out, &lent);
    tally.add("convert", answer(number, "converted"));
}

/// The film of an accepted file of either kind, as each side reads it.
pub fn film(file: &[u8], tally: &mut Tally, differences: &mut Differences) -> Sides {
    let (plain, told, kind) = match film_oracle::film::read(file) {
        Ok(film) => (Problem::from(&film), formed(file, &film), "gauged"),
        Err(_) => {
            let film = report::read(file).expect("a list begins from an accepted file");
            (
                Problem::from(&film),
                loaded(file, film.cells()),
                "coefficients",
            )
        }
    };
    differences.same("number", Ok(()), told.as_ref().map(|_| ()).map_err(|&n| n));
    let sides = Sides::read(plain, &told.unwrap_or_default());
    sides.compare(differences);
    tally.add("list", kind);
    sides
}

/// A coefficient file's film as the library reads it, or the number of its refusal.
fn loaded(file: &[u8], cells: usize) -> Result<Problem, u32> {
    let mut buffers = Noise::new([COEFFICIENT_BUFFER; 5]).lent();
    let (mut head, mut place) = (UNSET_HEAD, UNSET_PLACE);
    answered(raw::read_coefficients(
        file,
        buffers.library(),
        &mut head,
        &mut place,
    ))?;
    Ok(Problem {
        head,
        weights: buffers.weights.slice()[..cells].to_vec(),
        diagonals: buffers.diagonals.slice()[..cells].to_vec(),
        rights: buffers.rights.slice()[..cells].to_vec(),
        ups: buffers.ups.slice()[..cells].to_vec(),
        sources: buffers.sources.slice()[..cells].to_vec(),
    })
}

/// A gauged film's coefficients as the library reads and forms them, or the number of a refusal.
fn formed(file: &[u8], film: &Film) -> Result<Problem, u32> {
    let (mut weights, mut thicknesses) = (vec![0; WEIGHT_BUFFER], vec![0; THICKNESS_BUFFER]);
    let (mut head, mut wedge, mut place) = (UNSET_HEAD, 0, UNSET_PLACE);
    // Lent on as reading leaves them: the call that forms looks at those of the film alone.
    let mut steps = UNSET_STEPS;
    answered(raw::read(
        file,
        &mut weights,
        &mut thicknesses,
        &mut head,
        &mut wedge,
        &mut steps,
        &mut place,
    ))?;
    weights.truncate(film.cells());
    thicknesses.truncate(film.thickness.len());
    let mut told = Problem {
        head,
        weights: weights.clone(),
        diagonals: vec![0; film.cells()],
        rights: vec![0; film.cells()],
        ups: vec![0; film.cells()],
        sources: vec![0; film.cells()],
    };
    let gauge = raw::Gauge {
        head: &head,
        weights: &weights,
        thicknesses: &thicknesses,
        wedge,
        steps: &steps,
    };
    let lent = Formed {
        diagonals: &mut told.diagonals,
        rights: &mut told.rights,
        ups: &mut told.ups,
        sources: &mut told.sources,
    };
    answered(raw::form(gauge, lent, &mut place))?;
    Ok(told)
}

/// Whether a call was answered, by the number that it told.
fn answered(number: u32) -> Result<(), u32> {
    match number {
        0 => Ok(()),
        number => Err(number),
    }
}
