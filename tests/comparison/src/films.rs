//! Random films that are accepted.

use crate::numbers::Gauge;
use crate::random::Random;
use crate::unweighted::searched_soon;
use film_oracle::coefficient_film::{convert, CoefficientFilm};
use film_oracle::coefficients::form;
use film_oracle::film::{thickness_count, Film, Steps};
use film_oracle::relax::first_not_dominant;
use film_oracle::run::{run, Answer, Ordering};
use film_oracle::weights::least_weights_of;

pub const HIGHEST_CEILING: u32 = 16_777_216;
pub const HIGHEST_WEDGE: i64 = 1_000_000_000;

/// Rows and columns: mostly few, so that many films are tried.
pub fn shape(random: &mut Random) -> (usize, usize) {
    let mut side = |most: i64| random.within(1, most) as usize;
    let small = (side(6), side(6));
    let (narrow, long, middle, large) = (
        side(3),
        side(32),
        (side(12), side(12)),
        (side(32), side(32)),
    );
    match random.below(1_000) {
        0..=919 => small,
        920..=944 => (narrow, long),
        945..=969 => (long, narrow),
        970..=995 => middle,
        996..=998 => large,
        _ => (32, 32),
    }
}

/// Mostly none, so that most films are as they are without field 0A; else any, equal ones too.
pub fn steps(random: &mut Random) -> Option<Steps> {
    let (along, across) = (step(random), step(random));
    let steps = match random.below(10) {
        0..=2 => (1, 1),
        3 => (4, 1),
        _ => (along, across),
    };
    random.chance(30).then_some(Steps {
        along: steps.0,
        across: steps.1,
    })
}

/// A step in its range.
pub fn step(random: &mut Random) -> u32 {
    random.within(1, 4) as u32
}

/// A film's numbers as a caller may lend them: any number but 0 says that steps are given, and where
/// none are, anything stands in their place, good ones too, with which a call would form other links.
pub fn gauge(random: &mut Random, film: &Film) -> Gauge {
    let mut gauge = Gauge::from(film);
    let steps = &mut gauge.steps;
    if film.steps.is_some() {
        steps.given = random.pick(&[1, 1, 2, 256, 1 << 31, u32::MAX]);
    } else if random.chance(50) {
        let any = random.any_u32();
        (steps.along, steps.across) = (random.pick(&[any, 2, 3, 4]), step(random));
    }
    gauge
}

/// A film with neither weights nor wedge yet.
pub fn bare((rows, columns): (usize, usize), thickness: Vec<u8>, steps: Option<Steps>) -> Film {
    Film {
        rows,
        columns,
        ceiling: HIGHEST_CEILING,
        weights: Vec::new(),
        thickness,
        wedge: 0,
        steps,
    }
}

/// A random film, accepted.
pub fn accepted(random: &mut Random) -> Film {
    let (rows, columns) = shape(random);
    let steps = steps(random);
    for _ in 0..4 {
        let film = bare((rows, columns), thicknesses(random, rows, columns), steps);
        if let Some(weights) = held_weights(&film) {
            return finished(random, Film { weights, ..film });
        }
    }
    let thickness = vec![random.within(1, 128) as u8; thickness_count(rows, columns)];
    let film = bare((rows, columns), thickness, steps);
    let weights = held_weights(&film).expect("an even film is held quickly");
    finished(random, Film { weights, ..film })
}

/// A film made to be slow: a thick pad inside two thin courses, hardly anything flows out, and
/// pressure climbs for millions of relaxations. None where no weights hold it.
pub fn slow(random: &mut Random) -> Option<Film> {
    let (rows, columns, thick) = random.pick(&[(3, 4, 80), (4, 3, 80), (4, 5, 65), (5, 5, 45)]);
    let (pad, left) = (random.within(thick - 5, thick + 5) as u8, 2);
    let mut thickness = vec![1; thickness_count(rows, columns)];
    for r in 0..rows + 2 {
        thickness[r * (columns + 2)] = left;
        if (2..rows).contains(&r) {
            let row = &mut thickness[r * (columns + 2)..(r + 1) * (columns + 2)];
            row[2..columns].fill(pad);
        }
    }
    let film = bare((rows, columns), thickness, steps(random));
    Some(Film {
        weights: least_weights_of(form(&film))?,
        wedge: random.within(10_000_000, HIGHEST_WEDGE) as i32,
        ..film
    })
}

/// Gives a film its wedge, its ceiling and other weights.
fn finished(random: &mut Random, mut film: Film) -> Film {
    film.wedge = wedge(random, &film);
    film.ceiling = ceiling(random, &film);
    vary_weights(random, &mut film);
    film
}

/// Thicknesses by one of several laws.
fn thicknesses(random: &mut Random, rows: usize, columns: usize) -> Vec<u8> {
    let low = random.within(1, 128);
    let high = random.within(low, 128);
    let thin = random.within(1, 9);
    let (base, slope) = (random.within(1, 128), random.within(-9, 9));
    let law = random.below(5);
    let mut list = Vec::new();
    for (r, c) in (0..rows + 2).flat_map(|r| (0..columns + 2).map(move |c| (r, c))) {
        let pad = (2..rows).contains(&r) && (2..columns).contains(&c);
        let thickness = match law {
            0 => random.within(low, high),
            1 => random.within(1, thin),
            2 => base + slope * c as i64 + random.within(0, 1),
            3 if pad => high,
            3 => random.within(1, 2),
            _ => random.pick(&[1, 128, low]),
        };
        list.push(thickness.clamp(1, 128) as u8);
    }
    list
}

/// The least weights that hold a film, where they are found soon.
fn held_weights(film: &Film) -> Option<Vec<u16>> {
    let (answer, found) = searched_soon(&form(film));
    (answer == Answer::Done).then(|| found.iter().map(|&w| w as u16).collect())
}

/// Any wedge, or one that gives pressures of any size: they are some source by some diagonal.
fn wedge(random: &mut Random, film: &Film) -> i32 {
    let diagonals = form(film).diagonals;
    let diagonal = diagonals[random.below(diagonals.len())] as i64;
    let wedge = match random.below(10) {
        0 => 0,
        1 => random.pick(&[-HIGHEST_WEDGE, HIGHEST_WEDGE]),
        2 | 3 => random.signed(HIGHEST_WEDGE),
        _ => random.signed(1 << 20) * diagonal,
    };
    wedge.clamp(-HIGHEST_WEDGE, HIGHEST_WEDGE) as i32
}

/// Any ceiling, every length of number as likely as another, or the highest.
pub fn any_ceiling(random: &mut Random) -> u32 {
    let any = 1 + random.spread(i64::from(HIGHEST_CEILING) - 1) as u32;
    random.pick(&[any, HIGHEST_CEILING])
}

/// Any ceiling, or one near the peak of the film's least field.
fn ceiling(random: &mut Random, film: &Film) -> u32 {
    if random.chance(40) {
        return any_ceiling(random);
    }
    let (_, field) = tried(&convert(film));
    let peak = field.into_iter().max().expect("a film has cells");
    let near = [peak.saturating_sub(1), peak, peak + 1, 2 * peak];
    random.pick(&near).clamp(1, HIGHEST_CEILING)
}

/// A run from zero, forward and without proposals, as the report's, but with a budget that most films
/// need not use up.
fn tried(film: &CoefficientFilm) -> (Answer, Vec<u32>) {
    let mut field = vec![0; film.cells()];
    let outcome = run(
        film.system(),
        film.ceiling,
        &film.weights,
        &mut field,
        2_000 + 200 * film.cells() as u32,
        Ordering::Forward,
        false,
    );
    (outcome.answer, field)
}

/// Whether the film's report needs no long run.
pub fn quick(film: &CoefficientFilm) -> bool {
    tried(film).0 != Answer::Stopped
}

/// Other weights that hold the film too.
fn vary_weights(random: &mut Random, film: &mut Film) {
    let largest = *film.weights.iter().max().expect("a film has cells");
    let factor = 1 + random.spread(i64::from(u16::MAX / largest) - 1) as u16;
    let mut weights: Vec<u16> = film.weights.iter().map(|&w| w * factor).collect();
    if random.chance(50) {
        for weight in &mut weights {
            *weight = weight.saturating_add(random.spread((factor / 2).into()) as u16);
        }
    }
    if random.chance(60) && first_not_dominant(form(film).system(), &weights).is_none() {
        film.weights = weights;
    }
}
