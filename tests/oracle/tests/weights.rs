//! Weights found by the program (document 02, W5): film F without weights, that the search finds the least
//! ones, when it ends, the offsets and the order of refusals in files without weights, what is written of
//! them, and what each new vector is to be answered.

use film_oracle::calls::{self, Buffers, Problem};
use film_oracle::coefficient_film::{self, convert, CoefficientFilm};
use film_oracle::coefficients::{form, form_call};
use film_oracle::film::{self, file_length, write, Film, Numbers, Steps};
use film_oracle::report::{self, report};
use film_oracle::run::{Answer, Outcome};
use film_oracle::samples::{
    film_f, film_f_steps, no_weights, rough_pad, stopped, unweighted, unweighted_mesh, Faces,
};
use film_oracle::vectors::{all, Vector};
use film_oracle::weights::{find, search, SEARCH_BUDGET};
use film_oracle::{refuse, Refusal, Whole};
use std::collections::BTreeMap;

const PLAIN: &str = "01 0002 0102 02 0004 00000064 03 0000 \
                     04 000C 01010101 03020101 01010101 05 0004 00000064";

const COEFFICIENTS: &str = "01 0002 0102 02 0004 00000064 03 0000 \
                            06 0008 000000CE 00000033 07 0008 0000001B 00000000 \
                            08 0008 00000000 00000000 \
                            09 0010 FFFFFFFFFFFFFF38 FFFFFFFFFFFFFF9C";

fn hex(digits: &str) -> Vec<u8> {
    let digits: String = digits.chars().filter(|c| !c.is_whitespace()).collect();
    (0..digits.len())
        .step_by(2)
        .map(|at| u8::from_str_radix(&digits[at..at + 2], 16).unwrap())
        .collect()
}

fn refused_line(number: u8, place: usize) -> Vec<u8> {
    format!("REFUSED {number} {place}\n").into_bytes()
}

/// A file with the weights that it was read with in place: what follows field 03 moves back.
fn with_weights(bytes: &[u8], weights: &[u16]) -> Vec<u8> {
    let body: Vec<u8> = weights.iter().flat_map(|w| w.to_be_bytes()).collect();
    let length = (body.len() as u16).to_be_bytes();
    [&bytes[..13], &length[..], &body[..], &bytes[15..]].concat()
}

fn carries_weights(bytes: &[u8]) -> bool {
    bytes[13..15] != [0, 0]
}

/// The reading call in good buffers, whose answer is the plain reader's. A refusal changes nothing. What is
/// accepted is written with its weights in place, by the writing call too, and reads back as the same film.
fn checked_read(bytes: &[u8]) -> Result<Film, Refusal> {
    let (mut weights, mut thickness) = ([0xabcd_u16; 1_024], [0xee_u8; 1_156]);
    let told = film::read_into(bytes, &mut weights, &mut thickness);
    let answer = film::read(bytes);
    let Ok(film) = &answer else {
        assert_eq!(told.err(), answer.clone().err());
        assert!(weights.iter().all(|&w| w == 0xabcd));
        assert!(thickness.iter().all(|&h| h == 0xee));
        return answer;
    };
    let numbers = (
        film.rows,
        film.columns,
        film.ceiling,
        film.wedge,
        film.steps,
    );
    assert_eq!(told, Ok(numbers));
    assert_eq!(weights[..film.cells()], film.weights);
    assert!(weights[film.cells()..].iter().all(|&w| w == 0xabcd));
    assert_eq!(thickness[..film.thickness.len()], film.thickness);
    let length = file_length(film.rows, film.columns, film.steps.is_some());
    let mut out = vec![7; length];
    assert_eq!(film::write_into(Numbers::from(film), &mut out), Ok(()));
    assert_eq!(out, write(film));
    check_written(bytes, &out, &film.weights);
    assert_eq!(film::read(&out).as_ref(), Ok(film));
    answer
}

/// Files that carry weights are written back byte for byte, the others with their weights in place.
fn check_written(bytes: &[u8], written: &[u8], weights: &[u16]) {
    if carries_weights(bytes) {
        assert_eq!(written, bytes);
    } else {
        assert_eq!(written, with_weights(bytes, weights));
    }
}

/// The same of coefficient files.
fn checked_coefficients(bytes: &[u8]) -> Result<CoefficientFilm, Refusal> {
    let (mut weights, mut sources) = (vec![0xabcd_u16; 1_024], vec![-77_i64; 1_024]);
    let mut lists = [0xeeee_eeee_u32; 3].map(|noise| vec![noise; 1_024]);
    let [diagonals, rights, ups] = &mut lists;
    let buffers = Buffers {
        weights: &mut weights,
        diagonals,
        rights,
        ups,
        sources: &mut sources,
    };
    let told = calls::read_coefficients(bytes, buffers);
    let answer = coefficient_film::read(bytes);
    let Ok(film) = &answer else {
        assert_eq!(told.err(), answer.clone().err());
        assert!(weights.iter().all(|&w| w == 0xabcd));
        assert!(lists.iter().flatten().all(|&n| n == 0xeeee_eeee));
        assert!(sources.iter().all(|&s| s == -77));
        return answer;
    };
    assert_eq!(told, Ok((film.rows(), film.columns(), film.ceiling)));
    assert_eq!(weights[..film.cells()], film.weights);
    assert!(weights[film.cells()..].iter().all(|&w| w == 0xabcd));
    let mut out = vec![7; coefficient_film::file_length(film.rows(), film.columns())];
    let told = calls::write_coefficients(problem(film), &mut out);
    assert_eq!(told, Ok(()));
    assert_eq!(out, coefficient_film::write(film));
    check_written(bytes, &out, &film.weights);
    assert_eq!(coefficient_film::read(&out).as_ref(), Ok(film));
    answer
}

fn problem(film: &CoefficientFilm) -> Problem<'_> {
    Problem {
        rows: film.rows() as Whole,
        columns: film.columns() as Whole,
        ceiling: film.ceiling.into(),
        diagonals: &film.coefficients.diagonals,
        rights: &film.coefficients.rights,
        ups: &film.coefficients.ups,
        sources: &film.coefficients.sources,
        weights: &film.weights,
    }
}

/// The matrix of a film with the ring around it, from the numbers of its file: for each place of the grid,
/// the ring's among them, the diagonal and the links to column c + 1 and to row r + 1.
struct Matrix {
    rows: usize,
    columns: usize,
    diagonal: Vec<i64>,
    right: Vec<i64>,
    up: Vec<i64>,
}

impl Matrix {
    fn new(rows: usize, columns: usize) -> Matrix {
        let places = (rows + 2) * (columns + 2);
        Matrix {
            rows,
            columns,
            diagonal: vec![0; places],
            right: vec![0; places],
            up: vec![0; places],
        }
    }

    /// Links to the ring stay: the ring has weight 0.
    fn of_gauged(film: &Film) -> Matrix {
        let mut matrix = Matrix::new(film.rows, film.columns);
        let wide = film.columns + 2;
        let h: Vec<i64> = film.thickness.iter().map(|&h| i64::from(h)).collect();
        let (along, across) = match film.steps {
            Some(steps) => (i64::from(steps.along), i64::from(steps.across)),
            None => (1, 1),
        };
        for at in 0..h.len() - 1 {
            matrix.right[at] = along * (h[at] + h[at + 1]).pow(3);
        }
        for at in 0..h.len() - wide {
            matrix.up[at] = across * (h[at] + h[at + wide]).pow(3);
        }
        for at in matrix.places() {
            matrix.diagonal[at] =
                matrix.right[at - 1] + matrix.right[at] + matrix.up[at - wide] + matrix.up[at];
        }
        matrix
    }

    fn of_coefficients(film: &CoefficientFilm) -> Matrix {
        let mut matrix = Matrix::new(film.rows(), film.columns());
        for (cell, at) in matrix.places().into_iter().enumerate() {
            matrix.diagonal[at] = film.coefficients.diagonals[cell] as i64;
            matrix.right[at] = film.coefficients.rights[cell] as i64;
            matrix.up[at] = film.coefficients.ups[cell] as i64;
        }
        matrix
    }

    /// The places of the cells, by index.
    fn places(&self) -> Vec<usize> {
        let wide = self.columns + 2;
        (1..=self.rows)
            .flat_map(|r| (1..=self.columns).map(move |c| r * wide + c))
            .collect()
    }

    /// A vector by index with the ring's zeros around it.
    fn padded(&self, weights: &[u16]) -> Vec<i64> {
        let mut padded = vec![0; self.diagonal.len()];
        for (place, &weight) in self.places().into_iter().zip(weights) {
            padded[place] = weight.into();
        }
        padded
    }

    /// What the neighbours' weights take away at a place.
    fn pull(&self, w: &[i64], at: usize) -> i64 {
        let wide = self.columns + 2;
        self.right[at - 1] * w[at - 1]
            + self.right[at] * w[at + 1]
            + self.up[at - wide] * w[at - wide]
            + self.up[at] * w[at + wide]
    }

    /// The least weight that makes the row sum at a place at least 1.
    fn wanted(&self, w: &[i64], at: usize) -> i64 {
        let (pull, diagonal) = (self.pull(w, at), self.diagonal[at]);
        pull / diagonal + 1
    }

    /// The weighted row sums by index.
    fn row_sums(&self, weights: &[u16]) -> Vec<i64> {
        let w = self.padded(weights);
        let sum = |at: usize| self.diagonal[at] * w[at] - self.pull(&w, at);
        self.places().into_iter().map(sum).collect()
    }

    fn holds(&self, weights: &[u16]) -> bool {
        self.row_sums(weights).iter().all(|&sum| sum >= 1)
    }

    /// Cell after cell, round and round: each cell that has less than it wants gets that. Ends after a
    /// round of quiet cells, at a cell that wants more than 65,535, or as the budget says.
    fn searched(&self, budget: u32) -> (Outcome, Vec<i64>) {
        let (places, mut w) = (self.places(), vec![0; self.diagonal.len()]);
        let (mut visits, mut raises, mut quiet) = (0, 0, 0);
        let mut answer = None;
        while answer.is_none() {
            let cell = visits as usize % places.len();
            let wanted = self.wanted(&w, places[cell]);
            visits += 1;
            if wanted <= w[places[cell]] {
                quiet += 1;
            } else if wanted > 65_535 {
                answer = Some(Answer::Over(cell));
            } else {
                w[places[cell]] = wanted;
                (raises, quiet) = (raises + 1, 0);
            }
            if quiet == places.len() {
                answer = Some(Answer::Done);
            } else if visits == budget && answer.is_none() {
                answer = Some(Answer::Stopped);
            }
        }
        let outcome = Outcome {
            answer: answer.unwrap(),
            visits,
            raises,
            proposed: 0,
        };
        (outcome, places.into_iter().map(|at| w[at]).collect())
    }

    /// The least weights by rounds in which all cells rise at once, each by the round before; None where
    /// one would pass 65,535.
    fn least_by_rounds(&self) -> Option<Vec<u16>> {
        let (places, mut w) = (self.places(), vec![0; self.diagonal.len()]);
        loop {
            let risen: Vec<i64> = places.iter().map(|&at| self.wanted(&w, at)).collect();
            if risen.iter().any(|&weight| weight > 65_535) {
                return None;
            }
            if places
                .iter()
                .zip(&risen)
                .all(|(&at, &weight)| w[at] == weight)
            {
                return Some(risen.into_iter().map(|weight| weight as u16).collect());
            }
            for (&at, &weight) in places.iter().zip(&risen) {
                w[at] = weight;
            }
        }
    }

    /// Cell by cell the lowest weight of any vector from 1 to `most` that holds the film; None where there
    /// is none.
    fn least_by_trial(&self, most: u16) -> Option<Vec<u16>> {
        let mut least: Option<Vec<u16>> = None;
        let mut tried = vec![1; self.rows * self.columns];
        loop {
            if self.holds(&tried) {
                let best = least.get_or_insert_with(|| tried.clone());
                for (lowest, &weight) in best.iter_mut().zip(&tried) {
                    *lowest = weight.min(*lowest);
                }
            }
            let Some(cell) = tried.iter().position(|&weight| weight < most) else {
                return least;
            };
            tried[cell] += 1;
            tried[..cell].fill(1);
        }
    }
}

struct Generator(u64);

impl Generator {
    fn below(&mut self, limit: u64) -> u64 {
        self.0 ^= self.0 << 13;
        self.0 ^= self.0 >> 7;
        self.0 ^= self.0 << 17;
        self.0 % limit
    }

    fn within(&mut self, low: i64, high: i64) -> i64 {
        low + self.below((high - low + 1) as u64) as i64
    }

    fn shape(&mut self, most: i64) -> (usize, usize) {
        (self.within(1, most) as usize, self.within(1, most) as usize)
    }

    /// A rough film of any steps, or of none.
    fn gauged(&mut self, shape: (usize, usize), high: i64) -> Film {
        let wide = shape.1 + 2;
        let numbers: Vec<u8> = (0..(shape.0 + 2) * wide)
            .map(|_| self.within(1, high) as u8)
            .collect();
        let wedge = self.within(-9_999, 9_999) as i32;
        let mut film = unweighted(shape, 1_000, wedge, |r, c| numbers[r * wide + c]);
        let (along, across) = (self.within(1, 4) as u32, self.within(1, 4) as u32);
        film.steps = (self.below(2) == 0).then_some(Steps { along, across });
        film
    }

    /// Coefficients that come from no gauge, links of 0 among them. Losses go from `least` to 9: where that
    /// is below 0, some diagonals are less than the sum of their links.
    fn mesh(&mut self, shape: (usize, usize), least: i64, link: i64) -> CoefficientFilm {
        let numbers: Vec<[i64; 4]> = (0..shape.0 * shape.1)
            .map(|_| {
                [
                    self.within(least, 9),
                    self.within(-link / 4, link).max(0),
                    self.within(-link / 4, link).max(0),
                    self.within(-90, 30),
                ]
            })
            .collect();
        let mut film = unweighted_mesh(shape, 1_000, |r, c| {
            let [loss, right, up, source] = numbers[(r - 1) * shape.1 + c - 1].map(Whole::from);
            Faces {
                loss,
                right,
                up,
                source,
            }
        });
        for diagonal in &mut film.coefficients.diagonals {
            *diagonal = (*diagonal).max(1);
        }
        film
    }
}

/// The files of film F by either kind: the found weights are 1 and 1, and all else is film F.
#[test]
fn film_f_without_weights() {
    let (plain, coefficients) = (hex(PLAIN), hex(COEFFICIENTS));
    assert_eq!((plain.len(), coefficients.len()), (37, 67));
    assert_eq!(checked_read(&plain), Ok(film_f()));
    assert_eq!(checked_coefficients(&coefficients), Ok(convert(&film_f())));
    assert_eq!(write(&film::read(&plain).unwrap()).len(), 41);
    let (told, wanted) = (report(&plain), report(&write(&film_f())));
    assert_eq!(told, wanted);
    assert_eq!(report(&coefficients), wanted);
    let steps = [&plain[..], &[0x0a, 0x00, 0x02, 0x02, 0x03]].concat();
    assert_eq!(checked_read(&steps), Ok(film_f_steps()));
    assert_eq!(report(&steps), report(&write(&film_f_steps())));
    // The record without its weights is what the fields alone give.
    let fields = film::read_fields(&plain).unwrap();
    assert!(fields.weights.is_empty());
    assert_eq!(write(&fields), plain);
}

fn outcome(answer: Answer, visits: u32, raises: u32) -> Outcome {
    Outcome {
        answer,
        visits,
        raises,
        proposed: 0,
    }
}

/// Film F: 1 / 206 and 28 / 51 are rounded up to 1, then two cells are quiet. Three cells of diagonal 2 and
/// links 1: 1 1 1, then the second gets 2, the third 2, the first 2, the second 3.
#[test]
fn searches_by_hand() {
    let formed = form(&film_f());
    let told = search(formed.system(), SEARCH_BUDGET);
    assert_eq!(told, (outcome(Answer::Done, 4, 2), vec![1, 1]));
    let mut chain = unweighted_mesh((1, 3), 1, |_, _| Faces {
        loss: 0,
        right: 1,
        up: 0,
        source: 99,
    });
    chain.coefficients.diagonals.fill(2);
    let told = search(chain.system(), SEARCH_BUDGET);
    assert_eq!(told, (outcome(Answer::Done, 11, 7), vec![2, 3, 2]));
    for (budget, raises, found) in [
        (0, 0, [0, 0, 0]),
        (1, 1, [1, 0, 0]),
        (3, 3, [1, 1, 1]),
        (4, 3, [1, 1, 1]),
        (5, 4, [1, 2, 1]),
        (10, 7, [2, 3, 2]),
    ] {
        let told = search(chain.system(), budget);
        let wanted = outcome(Answer::Stopped, budget, raises);
        assert_eq!(told, (wanted, found.to_vec()));
    }
}

/// Every vector of weights from 1 to 6 is tried: where one holds the film, the search finds the least.
#[test]
fn small_films_by_trial() {
    let mut generator = Generator(0x0f1e_2d3c_4b5a_6978);
    let shapes = [(1, 1), (1, 2), (2, 1), (1, 3), (2, 2), (3, 1), (1, 4)];
    let (mut held, mut not_held) = (0, 0);
    for round in 0..1_400 {
        let shape = shapes[round % shapes.len()];
        let film = if round < 700 {
            convert(&generator.gauged(shape, 4))
        } else {
            generator.mesh(shape, -2, 6)
        };
        let matrix = Matrix::of_coefficients(&film);
        let most = 6;
        let found = find(film.system());
        match (matrix.least_by_trial(most), found) {
            (Some(least), found) => {
                assert_eq!(found, Ok(least));
                held += 1;
            }
            (None, Ok(found)) => assert!(found.iter().any(|&weight| weight > most)),
            (None, Err(refusal)) => {
                assert_eq!(refusal.number, 16);
                not_held += 1;
            }
        }
    }
    assert!(held > 700 && not_held > 30, "{held} {not_held}");
}

/// Larger films of both kinds: the search agrees with one that is written out here, and with rounds of all
/// cells at once. Lowering any one weight breaks its row sum.
#[test]
fn larger_films_by_rounds() {
    let mut generator = Generator(0x8765_4321_0fed_cba9);
    let (mut done, mut over, mut greatest) = (0, 0, 0);
    for round in 0..240 {
        let shape = generator.shape(9);
        let (file, matrix) = if round % 2 == 0 {
            let high = [5, 12, 128][round / 2 % 3];
            let film = generator.gauged(shape, high);
            (write(&film), Matrix::of_gauged(&film))
        } else {
            let least = [1, -6, -30][round / 2 % 3];
            let link = generator.within(1, 900);
            let film = generator.mesh(shape, least, link);
            (
                coefficient_film::write(&film),
                Matrix::of_coefficients(&film),
            )
        };
        let (outcome, found) = matrix.searched(SEARCH_BUDGET);
        let read = report::read(&file);
        match (outcome.answer, matrix.least_by_rounds()) {
            (Answer::Done, Some(least)) => {
                let film = read.unwrap();
                assert_eq!(film.weights, least);
                assert!(found.iter().zip(&least).all(|(&w, &l)| w == i64::from(l)));
                check_least(&mut generator, &matrix, &film.weights);
                greatest = greatest.max(*least.iter().max().unwrap());
                done += 1;
            }
            (Answer::Over(cell), None) => {
                assert_eq!(read, refuse(16, cell));
                over += 1;
            }
            other => panic!("{other:?}"),
        }
    }
    assert!(done > 120 && over > 20, "{done} {over}");
    assert!(greatest > 300, "{greatest}");
}

/// Found weights hold the film, and no vector that has less in one cell does, whatever it has elsewhere.
fn check_least(generator: &mut Generator, matrix: &Matrix, weights: &[u16]) {
    assert!(matrix.holds(weights));
    for cell in 0..weights.len() {
        let mut lower = weights.to_vec();
        lower[cell] -= 1;
        assert!(matrix.row_sums(&lower)[cell] < 1);
        for weight in &mut lower {
            let more = generator.below(u64::from(*weight) + 2) as u16;
            *weight = weight.saturating_add(more);
        }
        lower[cell] = weights[cell] - 1;
        assert!(!matrix.holds(&lower));
    }
}

/// A search that takes v visits is the same with that budget, and is Stopped with one less.
#[test]
fn one_visit_more_or_less() {
    let mut generator = Generator(0x1122_3344_5566_7788);
    let mut answers = [0; 2];
    for round in 0..200 {
        let shape = generator.shape(6);
        let film = match round % 2 {
            0 => convert(&generator.gauged(shape, 9)),
            _ => generator.mesh(shape, -9, 40),
        };
        let whole = search(film.system(), SEARCH_BUDGET);
        let visits = whole.0.visits;
        assert_eq!(search(film.system(), visits), whole);
        assert_eq!(search(film.system(), visits + 1), whole);
        let (less, _) = search(film.system(), visits - 1);
        assert_eq!(less.answer, Answer::Stopped);
        assert_eq!(less.visits, visits - 1);
        match whole.0.answer {
            Answer::Done => answers[0] += 1,
            Answer::Over(_) => answers[1] += 1,
            Answer::Stopped => unreachable!("small films end before"),
        }
    }
    assert!(answers.iter().all(|&count| count > 20), "{answers:?}");
}

/// The vector of this name, without its number.
fn vector(vectors: &[Vector], name: &str) -> Vec<u8> {
    let found = vectors.iter().find(|(n, _)| &n[4..] == name);
    found.unwrap().1.clone()
}

/// The vectors at the budget's end: the search that a greater budget would give ends on visit 4,000,000 or
/// on the next, and the reader has the first alone.
#[test]
fn last_visits() {
    let vectors = all();
    for (name, answer, visits, wanted) in [
        ("done-on-last", Answer::Done, 4_000_000, None),
        ("done-too-late", Answer::Done, 4_000_001, Some((17, 0))),
        ("over-on-last", Answer::Over(3), 4_000_000, Some((16, 3))),
        ("over-too-late", Answer::Over(4), 4_000_001, Some((17, 0))),
    ] {
        let bytes = vector(&vectors, &format!("unweighted-{name}"));
        let film = coefficient_film::read_fields(&bytes).unwrap();
        let (longer, found) = search(film.system(), SEARCH_BUDGET + 9);
        assert_eq!((longer.answer, longer.visits), (answer, visits), "{name}");
        if answer == Answer::Done {
            // The two climbing cells have 63,492 and 63,491, all others 1.
            let total: u32 = found.iter().sum();
            assert_eq!(total, 63_492 + 63_491 + 61, "{name}");
        }
        let told = coefficient_film::read(&bytes).map(|_| ());
        let wanted = wanted.map_or(Ok(()), |(number, place)| refuse(number, place));
        assert_eq!(told, wanted, "{name}");
    }
}

/// Every search of the vectors by the one that is written out here.
#[test]
fn searches_of_the_vectors() {
    let mut answers = [0; 3];
    for (name, bytes) in all() {
        let matrix = match (
            film::read_fields(&bytes),
            coefficient_film::read_fields(&bytes),
        ) {
            (Ok(film), _) if film.weights.is_empty() => Matrix::of_gauged(&film),
            (_, Ok(film)) if film.weights.is_empty() => Matrix::of_coefficients(&film),
            _ => continue,
        };
        let read = report::read(&bytes);
        if read.as_ref().is_err_and(|refusal| refusal.number == 14) {
            continue;
        }
        let (outcome, found) = matrix.searched(SEARCH_BUDGET);
        match outcome.answer {
            Answer::Done => {
                let weights = read.unwrap().weights;
                assert!(weights.iter().zip(&found).all(|(&w, &f)| i64::from(w) == f));
                assert!(matrix.holds(&weights), "{name}");
                answers[0] += 1;
            }
            Answer::Over(cell) => {
                assert_eq!(read, refuse(16, cell), "{name}");
                answers[1] += 1;
            }
            Answer::Stopped => {
                assert_eq!(read, refuse(17, 0), "{name}");
                answers[2] += 1;
            }
        }
    }
    assert!(answers[0] > 12 && answers[1] > 5 && answers[2] > 3);
}

/// All vectors: what is accepted is written with its weights in place, and that file has the same report.
#[test]
fn found_weights_in_place() {
    let (mut found, mut carried) = (0, 0);
    let vectors = all();
    for (name, bytes) in &vectors {
        let written = match (film::read(bytes), coefficient_film::read(bytes)) {
            (Ok(film), _) => write(&film),
            (_, Ok(film)) => coefficient_film::write(&film),
            _ => continue,
        };
        if carries_weights(bytes) {
            assert_eq!(&written, bytes, "{name}");
            carried += 1;
            continue;
        }
        let film = report::read(bytes).unwrap();
        assert_eq!(written, with_weights(bytes, &film.weights), "{name}");
        assert_eq!(report::read(&written), Ok(film), "{name}");
        assert_eq!(report(&written), report(bytes), "{name}");
        found += 1;
    }
    assert!(found > 12 && carried > 150, "{found} {carried}");
    let [one, other] = ["unweighted-thick-5x7", "weighted-thick-5x7"].map(|n| vector(&vectors, n));
    assert_eq!(film::read(&one), film::read(&other));
    assert_eq!(report(&one), report(&other));
}

/// Every length that field 03 of film F may have: 0 and 4 pass. Where the length is 0 and the weights are
/// there, they are no tag; where it is 4 and they are not, the next header is taken for them.
#[test]
fn every_length_of_field_03() {
    for length in 0..=u16::MAX {
        for file in [write(&film_f()), hex(PLAIN), hex(COEFFICIENTS)] {
            let whole = carries_weights(&file);
            let mut file = file;
            file[13..15].copy_from_slice(&length.to_be_bytes());
            let wanted = match (length, whole) {
                (0, true) => refuse(2, 15),
                (4, false) => refuse(2, 19),
                (0, false) | (4, true) => Ok(()),
                _ => refuse(3, 12),
            };
            let told = report::read(&file).map(|_| ());
            assert_eq!(told, wanted, "{length}");
        }
    }
}

/// Lengths beside 0 and 2N are 3 at field 03's tag, for every shape and both readers.
#[test]
fn lengths_of_every_shape() {
    for (rows, columns) in (1..=32).flat_map(|r| (1..=32).map(move |c| (r, c))) {
        let cells = rows * columns;
        let mut start = hex(&PLAIN[..40]);
        start[3..5].copy_from_slice(&[rows as u8, columns as u8]);
        for length in [1, 2 * cells - 1, 2 * cells + 1, 2 * cells + 2, 4 * cells] {
            let length = (length as u16).to_be_bytes();
            for tag in [0x04, 0x06] {
                let file = [&start[..12], &[0x03], &length, &[tag; 5_000]].concat();
                assert_eq!(film::read(&file).err(), refuse::<()>(3, 12).err());
                assert_eq!(report(&file), refused_line(3, 12));
            }
        }
        // Empty, and then the two kinds of film begin.
        let file = [&start[..12], &[0x03, 0, 0, 0x04, 0, 0]].concat();
        assert_eq!(film::read(&file).err(), refuse::<()>(3, 15).err());
        let file = [&start[..12], &[0x03, 0, 0, 0x06, 0, 0]].concat();
        assert_eq!(
            coefficient_film::read(&file).err(),
            refuse::<()>(3, 15).err()
        );
        assert_eq!(report(&file), refused_line(3, 15));
    }
}

/// A fault of a file: its bytes, the refusal that it meets, and how many bytes must be there for it
/// to be met.
struct Fault {
    patch: (usize, Vec<u8>),
    refusal: (u8, usize),
    wants: usize,
}

fn fault(at: usize, patch: &[u8], refusal: (u8, usize), wants: usize) -> Fault {
    Fault {
        patch: (at, patch.to_vec()),
        refusal,
        wants,
    }
}

/// Tag and length of a header, met once its three bytes are there.
fn header_faults(at: usize) -> [Fault; 2] {
    [
        fault(at, &[0x0b], (2, at), at + 3),
        fault(at + 1, &[0x01], (3, at), at + 3),
    ]
}

/// The faults of fields 01 to 03, the last of them empty.
fn opening_faults() -> Vec<Fault> {
    let mut faults = Vec::from(header_faults(0));
    faults.push(fault(3, &[0], (4, 3), 5));
    faults.push(fault(4, &[33], (4, 4), 5));
    faults.extend(header_faults(5));
    faults.push(fault(8, &[0, 0, 0, 0], (5, 8), 12));
    faults.extend(header_faults(12));
    faults
}

/// A file with the bytes of some faults; where two want one byte, the first has it.
fn faulty(whole: &[u8], chosen: &[&Fault]) -> Vec<u8> {
    let mut file = whole.to_vec();
    for fault in chosen.iter().rev() {
        let (at, patch) = &fault.patch;
        file[*at..at + patch.len()].copy_from_slice(patch);
    }
    file
}

/// Each fault beside every later one, with all later ones, and with the file cut anywhere or lengthened:
/// the first that is tested is named. `whole_at` are the lengths at which a cut file is whole: 14 and 16 are
/// met in such files alone, and bytes that follow come before them.
fn check_order(whole: &[u8], faults: &[Fault], whole_at: &[usize]) {
    let last = |fault: &Fault| matches!(fault.refusal.0, 14 | 16);
    for (i, first) in faults.iter().enumerate() {
        let (number, place) = first.refusal;
        let later: Vec<&Fault> = faults[i..].iter().collect();
        assert_eq!(report(&faulty(whole, &later)), refused_line(number, place));
        for second in &faults[i..] {
            let both = faulty(whole, &[first, second]);
            for length in 0..=whole.len() {
                let met = [first, second].into_iter().find(|fault| match last(fault) {
                    true => whole_at.contains(&length),
                    false => length >= fault.wants,
                });
                let told = report(&both[..length]);
                match met {
                    Some(fault) => {
                        let (number, place) = fault.refusal;
                        assert_eq!(told, refused_line(number, place), "{length}");
                    }
                    None if whole_at.contains(&length) => assert!(told.starts_with(b"FILM ")),
                    None => assert_eq!(told, refused_line(1, length)),
                }
            }
            let longer = [&both[..], &[0x0d]].concat();
            let wanted = match last(first) {
                true => refused_line(2, whole.len()),
                false => refused_line(number, place),
            };
            assert_eq!(report(&longer), wanted);
        }
    }
}

/// Three rows of three with steps 1 1: field 04 at 15, its thicknesses from 18, the middle one at 30; field
/// 05 at 43, field 0A at 50.
#[test]
fn gauged_refusals_in_order() {
    let mut film = unweighted((3, 3), 1_000, 1_000, |_, _| 1);
    film.steps = Some(Steps {
        along: 1,
        across: 1,
    });
    let whole = write(&film);
    assert_eq!(whole.len(), 55);
    let mut faults = opening_faults();
    faults.extend(header_faults(15));
    faults.push(fault(18, &[0], (7, 18), 43));
    faults.push(fault(42, &[129], (7, 42), 43));
    faults.extend(header_faults(43));
    faults.push(fault(46, &[0x7f], (8, 46), 50));
    faults.push(fault(50, &[0x0b], (2, 50), 51));
    faults.push(fault(51, &[0x01], (3, 50), 53));
    faults.push(fault(53, &[0], (15, 53), 55));
    faults.push(fault(54, &[5], (15, 54), 55));
    // A middle of 128 has no weights, with the steps and without them.
    faults.push(fault(30, &[128], (16, 4), 55));
    check_order(&whole, &faults, &[50, 55]);
}

/// Film F: fields 06 to 09 at 15, 26, 37 and 48.
#[test]
fn coefficient_refusals_in_order() {
    let whole = hex(COEFFICIENTS);
    let mut faults = opening_faults();
    for at in [15, 26, 37, 48] {
        faults.extend(header_faults(at));
    }
    // The last list's fault is at the lower cell, so it is named first.
    faults.push(fault(51, &[0x80], (14, 0), 67));
    faults.push(fault(22, &[0, 0, 0, 0], (14, 1), 67));
    faults.push(fault(29, &[0, 0, 0x4e, 0x20], (16, 1), 67));
    check_order(&whole, &faults, &[67]);
}

/// 17 stands where 16 does: behind a cut, bytes that follow, and 14.
#[test]
fn seventeen_comes_last() {
    let vectors = all();
    let bytes = vector(&vectors, "unweighted-closed-25x32");
    assert_eq!(bytes.len(), 27 + 20 * 800);
    assert_eq!(coefficient_film::read(&bytes), refuse(17, 0));
    let end = bytes.len();
    assert_eq!(
        coefficient_film::read(&bytes[..end - 1]),
        refuse(1, end - 1)
    );
    let longer = [&bytes[..], &[0x0a]].concat();
    assert_eq!(coefficient_film::read(&longer), refuse(2, end));
    let mut beyond = bytes.clone();
    beyond[end - 8] = 0x40;
    assert_eq!(coefficient_film::read(&beyond), refuse(14, 799));
    let bytes = vector(&vectors, "unweighted-long-32x32");
    assert_eq!(bytes.len(), 25 + 34 * 34);
    assert_eq!(checked_read(&bytes), refuse(17, 0));
    let longer = [&bytes[..], &[0x00]].concat();
    assert_eq!(film::read(&longer), refuse(2, bytes.len()));
    // With its weights in place the same film is accepted: a search may take as long as it likes elsewhere.
    let carried = with_weights(&bytes, &stopped().weights);
    assert_eq!(film::read(&carried), Ok(stopped()));
}

/// Every byte behind the empty field: 04 and 06 begin the two kinds, each with its own reader.
#[test]
fn which_reader() {
    let (gauged, coefficients) = (hex(PLAIN), hex(COEFFICIENTS));
    for length in [13, 14, 15, 16, 17] {
        for file in [&gauged[..length], &coefficients[..length]] {
            assert_eq!(report(file), refused_line(1, length));
        }
    }
    for tag in 0..=255 {
        let (mut one, mut other) = (gauged.clone(), coefficients.clone());
        (one[15], other[15]) = (tag, tag);
        let (one, other) = (report(&one), report(&other));
        match tag {
            0x04 => assert_eq!((one, other), (report(&gauged), refused_line(3, 15))),
            0x06 => assert_eq!((one, other), (refused_line(3, 15), report(&gauged))),
            _ => assert_eq!((one, other), (refused_line(2, 15), refused_line(2, 15))),
        }
    }
    // Each reader refuses the other kind at its tag.
    assert_eq!(film::read(&coefficients), refuse(2, 15));
    assert_eq!(coefficient_film::read(&gauged), refuse(2, 15));
    // A thickness of 6 where the tag would stand behind two weights, and a weight that begins with 06.
    let mut file = gauged.clone();
    file[19] = 6;
    assert!(report(&file).starts_with(b"FILM 1 2 CEILING 100\nDONE "));
    let file = with_weights(&gauged, &[1_536, 1_536]);
    assert_eq!(report(&file), report(&gauged));
    let file = with_weights(&coefficients, &[1_024, 1_024]);
    assert_eq!(report(&file), report(&gauged));
}

/// A wrong buffer is 10 at 0 before the file is looked at, and before the search.
#[test]
fn wrong_buffers() {
    for file in [hex(PLAIN), write(&no_weights())] {
        for (weights, thickness) in [(1_023, 1_156), (9, 1_156), (0, 1_156), (1_024, 1_155)] {
            let (mut weights, mut thickness) = (vec![0; weights], vec![0; thickness]);
            let told = film::read_into(&file, &mut weights, &mut thickness);
            assert_eq!(told, refuse(10, 0));
        }
    }
}

/// Only the readers find weights: to all other calls an empty slice is one of the wrong length.
#[test]
fn no_weights_elsewhere() {
    let film = film_f();
    let mut given = Numbers::from(&film);
    given.weights = &[];
    for length in [37, 41] {
        let mut out = vec![5; length];
        assert_eq!(film::write_into(given, &mut out), refuse(10, 0));
    }
    assert_eq!(form_call(given, &[2; 4]), refuse(10, 0));
    for length in [67, 71] {
        let mut out = vec![5; length];
        assert_eq!(calls::convert(given, &mut out), refuse(10, 0));
        let mut film = convert(&film);
        film.weights.clear();
        let told = calls::write_coefficients(problem(&film), &mut out);
        assert_eq!(told, refuse(10, 0));
        let mut field = [0; 2];
        let told = calls::run(problem(&film), &mut field, 9, 0, false);
        assert_eq!(told, refuse(10, 0));
        assert_eq!(calls::margin(problem(&film)), refuse(10, 0));
        assert_eq!(calls::slack(problem(&film), &field, 0), refuse(10, 0));
    }
}

/// Neither the film's ceiling nor its sources matter to the search, and its steps do.
#[test]
fn search_takes_the_matrix_alone() {
    let mut generator = Generator(0x7777_1234_4321_9999);
    let mut film = generator.gauged((5, 6), 30);
    film.steps = None;
    let found = film::read(&write(&film)).unwrap().weights;
    for (ceiling, wedge) in [(1, 0), (16_777_216, 1_000_000_000), (7, -1_000_000_000)] {
        (film.ceiling, film.wedge) = (ceiling, wedge);
        assert_eq!(film::read(&write(&film)).unwrap().weights, found);
    }
    for (along, across) in [(1, 1), (3, 3)] {
        film.steps = Some(Steps { along, across });
        assert_eq!(film::read(&write(&film)).unwrap().weights, found);
    }
    for (along, across) in [(4, 1), (1, 4)] {
        film.steps = Some(Steps { along, across });
        assert!(film::read(&write(&film)).unwrap().weights != found);
    }
}

/// What the refused vectors from number 435 on are answered, each worked by hand, but for the cells 4 and 6
/// of refusal 16, which `searches_of_the_vectors` works.
const REFUSED: &[(&str, u8, usize)] = &[
    ("unweighted-none-3x4", 16, 6),
    // L + 2 is 65,536 in the cell whose diagonal is L.
    ("unweighted-65536-first", 16, 0),
    ("unweighted-65536-last", 16, 1),
    ("unweighted-thick-101-steps-2-2", 16, 4),
    ("unweighted-done-too-late", 17, 0),
    ("unweighted-over-on-last", 16, 3),
    ("unweighted-over-too-late", 17, 0),
    ("unweighted-long-32x32", 17, 0),
    ("unweighted-closed-25x32", 17, 0),
    ("length-03-1", 3, 12),
    ("length-03-3", 3, 12),
    ("length-03-6", 3, 12),
    ("length-03-1024", 3, 12),
    // The first byte of the first weight is no tag.
    ("length-03-0", 2, 15),
    ("unweighted-cut-13", 1, 13),
    ("unweighted-cut-15", 1, 15),
    ("unweighted-cut-29", 1, 29),
    ("unweighted-cut-36", 1, 36),
    ("unweighted-tag-05-fourth", 2, 15),
    ("unweighted-length-04-16", 3, 15),
    ("unweighted-thickness-0", 7, 23),
    ("unweighted-wedge-high", 8, 33),
    ("unweighted-then-00", 2, 37),
    ("unweighted-0a-alone", 1, 38),
    ("unweighted-steps-2-5", 15, 41),
    ("unweighted-06-alone", 1, 16),
    ("unweighted-tag-08-for-07", 2, 26),
    ("unweighted-gauged-tag-06", 3, 15),
    // Weights 1 and 393, then 38,156, and the second would need 14,963,138.
    ("unweighted-none-1x2", 16, 1),
    ("two-limits-none", 14, 1),
    ("two-after-none-0a", 2, 67),
    ("two-after-none", 2, 50),
    ("sample-no-weights", 16, 4),
];

/// What some accepted vectors show after their first line, worked by hand.
const SHOWN: &[(&str, &str)] = &[
    (
        "unweighted-film-f",
        "DONE 6 4, 1 1 2 104, 1 2 4 50, PEAK 1 2 4",
    ),
    (
        "unweighted-film-f-steps",
        "DONE 4 2, 1 1 1 158, 1 2 2 82, PEAK 1 2 2",
    ),
    (
        "unweighted-film-f-coefficients",
        "DONE 6 4, 1 1 2 104, 1 2 4 50, PEAK 1 2 4",
    ),
    // The first diagonal has a face of 512 for one of 27: 691.
    (
        "unweighted-06-at-19",
        "DONE 4 2, 1 1 1 410, 1 2 3 26, PEAK 1 2 3",
    ),
    ("weights-1536", "DONE 6 4, 1 1 2 104, 1 2 4 50, PEAK 1 2 4"),
    (
        "unweighted-65535-first",
        "DONE 2 0, 1 1 0 0, 1 2 0 0, PEAK 1 2 0",
    ),
];

/// The vectors from number 435 on are answered as the two lists say, and no other one is refused.
#[test]
fn new_vectors() {
    let vectors = all();
    assert_eq!(vectors[433].0, "434-sample-flat-top");
    let mut refused: BTreeMap<&str, (u8, usize)> = REFUSED
        .iter()
        .map(|&(name, number, place)| (name, (number, place)))
        .collect();
    assert_eq!(refused.len(), REFUSED.len());
    let mut shown: BTreeMap<&str, &str> = SHOWN.iter().copied().collect();
    for (name, bytes) in &vectors[434..485] {
        let told = String::from_utf8(report(bytes)).unwrap();
        let lines: Vec<&str> = told.lines().collect();
        match refused.remove(&name[4..]) {
            Some((number, place)) => {
                assert_eq!(lines, [format!("REFUSED {number} {place}")], "{name}");
            }
            None => assert!(lines[0].starts_with("FILM "), "{name}: {told}"),
        }
        if let Some(wanted) = shown.remove(&name[4..]) {
            assert_eq!(lines[1..].join(", "), wanted, "{name}");
        }
    }
    assert!(
        refused.is_empty() && shown.is_empty(),
        "{refused:?} {shown:?}"
    );
}

/// The greatest weight of two climbing cells, and that of a thick cell in thin ones.
#[test]
fn greatest_weights() {
    let vectors = all();
    let found = |name: &str| report::read(&vector(&vectors, name)).unwrap().weights;
    assert_eq!(found("unweighted-65535-first"), [65_535, 65_534]);
    let thick = found("unweighted-thick-100");
    assert_eq!(thick.iter().max(), Some(&64_396));
    assert_eq!(thick[4], 64_396);
}

/// The rough pad's search, as the page of the samples tells it. Equal weights would not do.
#[test]
fn rough_pad_sample() {
    let mut film = rough_pad();
    assert!(film.weights.is_empty());
    let (least, most) = (film.thickness.iter().min(), film.thickness.iter().max());
    assert_eq!((least, most), (Some(&16), Some(&121)));
    let (told, found) = search(form(&film).system(), SEARCH_BUDGET);
    assert_eq!(told, outcome(Answer::Done, 126_787, 38_910));
    assert_eq!(found.iter().max(), Some(&68));
    let text = String::from_utf8(report(&write(&film))).unwrap();
    assert!(text.contains("\nDONE 720014 534150\n"));
    film.weights = vec![1; 1_024];
    assert_eq!(film::read(&write(&film)).map_err(|r| r.number), Err(9));
}

/// The sample that is refused: with one step less in the middle it would have weights.
#[test]
fn no_weights_sample() {
    let mut bytes = write(&no_weights());
    assert_eq!(bytes.len(), 50);
    assert_eq!((bytes[30], checked_read(&bytes)), (101, refuse(16, 4)));
    bytes[30] = 100;
    assert!(checked_read(&bytes).is_ok());
}
