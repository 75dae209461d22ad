//! Damage to film files, and to what callers give: one fault at least is likely, several are not
//! rare, and the one that is tested first must be named.

use crate::films::{self, HIGHEST_CEILING, HIGHEST_WEDGE};
use crate::numbers::{Gauge, Problem};
use crate::problems::{HIGHEST_DIAGONAL, HIGHEST_LINK, HIGHEST_SOURCE};
use crate::random::Random;
use film::raw;
use film_oracle::coefficient_film;
use film_oracle::film::{thickness_count, write, Film, Steps};

/// The tag of the grid steps.
const STEPS: u8 = 0x0a;

/// A file from an accepted film's, which may have no weights, with faults of every class of byte.
pub fn file(random: &mut Random, film: &Film) -> Vec<u8> {
    if random.chance(2) {
        return stray_bytes(random);
    }
    let mut film = film.clone();
    let mut times = 1 + random.below(2);
    if random.chance(50) {
        damage_values(random, &mut film);
        times -= 1;
    }
    if random.chance(35) {
        film.steps = None;
        let headers = headers(&film);
        let mut bytes = write(&film);
        add_steps(random, &headers, &mut bytes);
        return bytes;
    }
    let mut bytes = write(&film);
    if random.chance(10) {
        other_weights(random, film.cells(), &mut bytes);
        times = 0;
    }
    for _ in 0..times {
        damage_bytes(random, &headers(&film), &mut bytes);
    }
    bytes
}

/// Weights taken out of a file that has them, or equal ones put into one that has none: both the length
/// of field 03 and its body, or one of the two.
fn other_weights(random: &mut Random, cells: usize, bytes: &mut Vec<u8>) {
    let length = usize::from(u16::from_be_bytes([bytes[13], bytes[14]]));
    let other = 2 * cells - length;
    let which = random.below(3);
    if which != 0 {
        bytes.splice(15..15 + length, vec![1; other]);
    }
    if which != 1 {
        bytes[13..15].copy_from_slice(&(other as u16).to_be_bytes());
    }
}

/// Field 0A behind a file that has none, or what stands where it might: alone, cut, twice, too early,
/// with a wrong length or bad steps; another byte in its place, or behind it.
fn add_steps(random: &mut Random, headers: &[usize], bytes: &mut Vec<u8>) {
    let mut field = steps_field(random);
    match random.below(10) {
        0 => bytes.push(STEPS),
        1 => bytes.extend(&field[..1 + random.below(4)]),
        2 => {
            bytes.extend(field);
            bytes.extend(steps_field(random));
        }
        3 => {
            let at = random.pick(headers);
            bytes.splice(at..at, field);
        }
        4 => {
            let length: u16 = random.pick(&[0, 1, 3, 4, 512]);
            field[1..3].copy_from_slice(&length.to_be_bytes());
            bytes.extend(&field[..3 + random.below(3)]);
        }
        5 | 6 => {
            field[3 + random.below(2)] = random.pick(&[0, 5, 6, 128, 255]);
            bytes.extend(field);
            bytes.extend((0..random.below(2)).map(|_| random.byte()));
        }
        7 => {
            field[0] = random.pick(&[0, 4, 5, 6, 9, 0x0b, 0x0c, 0x0d, 255]);
            bytes.extend(&field[..1 + random.below(5)]);
        }
        8 => {
            bytes.extend(field);
            bytes.push(random.pick(&[0, 5, 0x0b, 0x0c, 0x0d, 255]));
        }
        // A good one, of a film whose weights may no longer hold it.
        _ => bytes.extend(field),
    }
}

fn steps_field(random: &mut Random) -> [u8; 5] {
    let mut step = || films::step(random) as u8;
    [STEPS, 0, 2, step(), step()]
}

/// A coefficient file from an accepted film's, with faults of every class of byte.
pub fn coefficient_file(random: &mut Random, problem: &Problem) -> Vec<u8> {
    if random.chance(2) {
        return stray_bytes(random);
    }
    let mut problem = problem.clone();
    let mut times = 1 + random.below(2);
    if random.chance(50) {
        for _ in 0..1 + random.below(2) {
            damage_number(random, &mut problem);
        }
        times -= 1;
    }
    let mut bytes = coefficient_film::write(&problem.film());
    let missing = 2 * (problem.cells() - problem.weights.len());
    let mut headers = vec![0, 5, 12];
    headers.extend(coefficient_film::headers(problem.cells()).map(|at| at - missing));
    if random.chance(10) {
        other_weights(random, problem.cells(), &mut bytes);
        return bytes;
    }
    if random.chance(15) {
        // No place of such a file is one for field 0A.
        add_steps(random, &headers, &mut bytes);
    }
    for _ in 0..times {
        damage_bytes(random, &headers, &mut bytes);
    }
    bytes
}

fn stray_bytes(random: &mut Random) -> Vec<u8> {
    let length = random.spread(24_000);
    (0..length).map(|_| random.byte()).collect()
}

/// Values out of range, in a file that is otherwise a good one.
fn damage_values(random: &mut Random, film: &mut Film) {
    let mut gauge = Gauge::from(&*film);
    for _ in 0..1 + random.below(2) {
        damage_value(random, &mut gauge);
    }
    film.ceiling = gauge.head.ceiling;
    film.steps = gauge.given_steps().map(|steps| Steps {
        // A file has a byte for each.
        along: steps.along.min(255),
        across: steps.across.min(255),
    });
    film.weights = gauge.weights;
    film.thickness = gauge.thicknesses;
    film.wedge = gauge.wedge;
}

/// Where a file's headers begin, that of a film without weights too.
fn headers(film: &Film) -> Vec<usize> {
    let thicknesses = 15 + 2 * film.weights.len();
    let wedge = thicknesses + 3 + thickness_count(film.rows, film.columns);
    let mut headers = vec![0, 5, 12, thicknesses, wedge];
    headers.extend(film.steps.map(|_| wedge + 7));
    headers
}

fn damage_bytes(random: &mut Random, headers: &[usize], bytes: &mut Vec<u8>) {
    let header = random.pick(headers);
    let edge = (header as i64 + random.within(-2, 5)).max(0) as usize;
    let anywhere = random.below(bytes.len() + 1);
    let at = if random.chance(50) { edge } else { anywhere };
    match random.below(12) {
        0 | 1 => bytes.truncate(at),
        2 => lengthen(random, bytes),
        3 => set(bytes, header, random.within(0, 14) as u8),
        4 => set(bytes, header + 1 + random.below(2), random.byte()),
        5 => {
            let side = random.pick(&[0, 1, 2, 32, 33, 34, 255]);
            set(bytes, 3 + random.below(2), side);
        }
        6 if at < bytes.len() => drop(bytes.remove(at)),
        7 if at < bytes.len() => bytes.insert(at, random.byte()),
        8 => exchange_tags(header, random.pick(headers), bytes),
        9 => exchange_fields(random, headers, bytes),
        10 => other_length(random, header, bytes),
        _ => set(bytes, at, random.byte()),
    }
}

/// A few bytes more, or so many that the file is longer than any film's.
fn lengthen(random: &mut Random, bytes: &mut Vec<u8>) {
    let count = if random.chance(3) {
        23_000
    } else {
        1 + random.below(3)
    };
    bytes.extend((0..count).map(|_| random.byte()));
}

/// The tags of two fields in each other's place.
fn exchange_tags(one: usize, other: usize, bytes: &mut [u8]) {
    if one.max(other) < bytes.len() {
        bytes.swap(one, other);
    }
}

/// A field and the one after it in each other's place.
fn exchange_fields(random: &mut Random, headers: &[usize], bytes: &mut [u8]) {
    let first = random.below(headers.len() - 1);
    let end = headers.get(first + 2).copied().unwrap_or(bytes.len());
    if headers[first + 1] <= end && end <= bytes.len() {
        bytes[headers[first]..end].rotate_left(headers[first + 1] - headers[first]);
    }
}

/// A length that is near the right one, or that of other numbers: a half, or twice as much.
fn other_length(random: &mut Random, header: usize, bytes: &mut [u8]) {
    if let Some(place) = bytes.get_mut(header + 1..header + 3) {
        let length = u16::from_be_bytes([place[0], place[1]]);
        let near = [length.wrapping_add(1), length.wrapping_sub(1)];
        let far = [length / 2, length.wrapping_mul(2)];
        let other = random.pick(&[near, far].concat());
        place.copy_from_slice(&other.to_be_bytes());
    }
}

fn set(bytes: &mut [u8], at: usize, byte: u8) {
    if let Some(place) = bytes.get_mut(at) {
        *place = byte;
    }
}

/// A film's numbers with faults.
pub fn gauge(random: &mut Random, film: &Film) -> Gauge {
    let mut gauge = films::gauge(random, film);
    for _ in 0..1 + random.below(3) {
        match random.below(11) {
            0 => gauge.head.rows = side(random, gauge.head.rows),
            1 => gauge.head.columns = side(random, gauge.head.columns),
            2 => std::mem::swap(&mut gauge.head.rows, &mut gauge.head.columns),
            3 => resize(random, &mut gauge.weights, 1),
            4 => resize(random, &mut gauge.thicknesses, 1),
            // Given or not, whatever is lent for them.
            5 => gauge.steps.given = random.pick(&[0, 1, u32::MAX]),
            _ => damage_value(random, &mut gauge),
        }
    }
    gauge
}

/// Damages ceiling, weights, thicknesses, wedge or steps.
fn damage_value(random: &mut Random, gauge: &mut Gauge) {
    match random.below(8) {
        0 => gauge.head.ceiling = bad_ceiling(random),
        1 => put(random, &mut gauge.weights, |_, _| 0),
        2 => put(random, &mut gauge.thicknesses, |random, _| {
            random.pick(&[0, 129, 130, 255])
        }),
        3 => gauge.wedge = bad_wedge(random),
        4 | 5 => bad_step(random, &mut gauge.steps),
        _ => put(random, &mut gauge.weights, other_weight),
    }
}

fn bad_ceiling(random: &mut Random) -> u32 {
    let any = random.any_u32();
    random.pick(&[0, HIGHEST_CEILING + 1, u32::MAX, any])
}

fn bad_wedge(random: &mut Random) -> i32 {
    let beyond = HIGHEST_WEDGE as i32 + 1;
    let any = random.any_u32() as i32;
    random.pick(&[beyond, -beyond, i32::MAX, i32::MIN, any])
}

/// A step outside 1..4, given with a good one or with another bad one.
fn bad_step(random: &mut Random, steps: &mut raw::Steps) {
    if steps.given == 0 {
        let (along, across) = (films::step(random), films::step(random));
        *steps = raw::Steps {
            given: 1,
            along,
            across,
        };
    }
    let any = random.any_u32();
    let bad = random.pick(&[0, 5, 6, 255, 256, 257, 65_537, u32::MAX, any]);
    if random.chance(50) {
        steps.along = bad;
    } else {
        steps.across = bad;
    }
}

/// A weight that may no longer hold its cell, or its neighbours'.
fn other_weight(random: &mut Random, weight: u16) -> u16 {
    let any = random.spread(65_535) as u16;
    let less = weight.saturating_sub(1);
    random.pick(&[less, less, weight.saturating_add(1), any, u16::MAX])
}

/// A side outside 1..32, or another one inside.
fn side(random: &mut Random, side: u32) -> u32 {
    let any = random.any_u32();
    let beside = [side.saturating_add(1), side.saturating_sub(1)];
    let far = [0, 33, 34, 64, 256, 65_536, u32::MAX, any];
    if random.chance(20) {
        random.pick(&beside)
    } else {
        random.pick(&far)
    }
}

/// A length that is wrong.
pub fn length(random: &mut Random, length: usize) -> usize {
    let any = random.below(40);
    let list = [0, length + 1, length.saturating_sub(1), 2 * length, any];
    random.pick(&list)
}

fn resize<T: Copy>(random: &mut Random, list: &mut Vec<T>, filler: T) {
    let length = length(random, list.len());
    list.resize(length, filler);
}

/// Replaces one number of a list, if there is any.
fn put<T: Copy>(random: &mut Random, list: &mut [T], by: impl Fn(&mut Random, T) -> T) {
    if !list.is_empty() {
        let at = random.below(list.len());
        list[at] = by(random, list[at]);
    }
}

/// A film as coefficients, with faults.
pub fn problem(random: &mut Random, problem: &Problem) -> Problem {
    let mut problem = problem.clone();
    for _ in 0..1 + random.below(3) {
        damage_problem(random, &mut problem);
    }
    problem
}

fn damage_problem(random: &mut Random, problem: &mut Problem) {
    match random.below(18) {
        0 => problem.head.rows = side(random, problem.head.rows),
        1 => problem.head.columns = side(random, problem.head.columns),
        2 => std::mem::swap(&mut problem.head.rows, &mut problem.head.columns),
        3 => resize(random, &mut problem.weights, 1),
        4 => resize(random, &mut problem.diagonals, 1),
        5 => resize(random, &mut problem.rights, 0),
        6 => resize(random, &mut problem.ups, 0),
        7 => resize(random, &mut problem.sources, 0),
        _ => damage_number(random, problem),
    }
}

/// Damages the ceiling or a number of a list, and no length.
fn damage_number(random: &mut Random, problem: &mut Problem) {
    match random.below(10) {
        0 => problem.head.ceiling = bad_ceiling(random),
        1 => put(random, &mut problem.weights, |_, _| 0),
        2 => put(random, &mut problem.weights, other_weight),
        3 => put(random, &mut problem.diagonals, other_diagonal),
        4 | 5 => put(random, &mut problem.rights, other_link),
        6 | 7 => put(random, &mut problem.ups, other_link),
        8 => end_link(random, problem),
        _ => put(random, &mut problem.sources, other_source),
    }
}

fn other_diagonal(random: &mut Random, diagonal: u32) -> u32 {
    let high = HIGHEST_DIAGONAL as u32;
    let less = diagonal.saturating_sub(1);
    random.pick(&[0, 1, less, diagonal / 2, high, high + 1, u32::MAX])
}

fn other_link(random: &mut Random, link: u32) -> u32 {
    let high = HIGHEST_LINK as u32;
    random.pick(&[0, 1, link.saturating_add(1), high, high + 1, u32::MAX])
}

fn other_source(random: &mut Random, source: i64) -> i64 {
    let high = HIGHEST_SOURCE;
    let far = random.pick(&[high + 1, i64::MAX, i64::MAX - 1]);
    random.pick(&[far, -far, i64::MIN, high, -high, source])
}

/// A link that leaves the grid.
fn end_link(random: &mut Random, problem: &mut Problem) {
    let link = random.pick(&[1, HIGHEST_LINK as u32]);
    let links = if random.chance(50) {
        &mut problem.rights
    } else {
        &mut problem.ups
    };
    if let Some(last) = links.last_mut() {
        *last = link;
    }
}
