//! Film F, the specification's worked example, and its edges.

use film::{report, Counts, Field, Film, Head, Order, Outcome, Proposed, Refusal, Relaxed};

const BUDGET: u32 = 4_000_000;

fn film_f(ceiling: u32, wedge: i32) -> Film {
    let head = Head {
        rows: 1,
        columns: 2,
        ceiling,
    };
    let thicknesses = vec![1, 1, 1, 1, 3, 2, 1, 1, 1, 1, 1, 1];
    Film::from_parts(head, vec![1, 1], thicknesses, wedge, None).expect("film F is accepted")
}

fn counts(visits: u32, raises: u32, accepted: u32) -> Counts {
    Counts {
        visits,
        raises,
        accepted,
    }
}

/// Runs from `start` and compares outcome and field.
fn check_run(film: &Film, start: [u32; 2], order: Order, outcome: Outcome, end: [u32; 2]) {
    let mut field = Field::from(start.to_vec());
    assert_eq!(film.run(&mut field, BUDGET, order, false), Ok(outcome));
    assert_eq!(field.pressures(), end);
}

#[test]
fn coefficients() {
    let film = film_f(100, 100);
    assert_eq!((film.rows(), film.columns(), film.cells()), (1, 2, 2));
    assert_eq!((film.ceiling(), film.wedge()), (100, 100));
    assert_eq!(film.steps(), None);
    assert_eq!(film.diagonals(), [206, 51]);
    assert_eq!(film.rights(), [27, 0]);
    assert_eq!(film.ups(), [0, 0]);
    assert_eq!(film.sources(), [-200, -100]);
    assert_eq!(film.margin(), Ok(2));
}

#[test]
fn file_both_ways() {
    let film = film_f(100, 100);
    let file = film.write().expect("an accepted film is written");
    assert_eq!(file.len(), 41);
    assert_eq!(Film::read(&file), Ok(film));
}

#[test]
fn orderings() {
    let film = film_f(100, 100);
    let done = Outcome::Done(counts(6, 4, 0));
    check_run(&film, [0, 0], Order::Forward, done, [2, 4]);
    check_run(&film, [0, 0], Order::RedBlack, done, [2, 4]);
    let backward = Outcome::Done(counts(5, 3, 0));
    check_run(&film, [0, 0], Order::Backward, backward, [2, 4]);
}

#[test]
fn starts_and_ceilings() {
    let film = film_f(100, 100);
    let done = Outcome::Done(counts(2, 0, 0));
    check_run(&film, [2, 4], Order::Forward, done, [2, 4]);
    let done = Outcome::Done(counts(4, 1, 0));
    check_run(&film, [3, 0], Order::Forward, done, [3, 4]);
    let done = Outcome::Done(counts(6, 4, 0));
    check_run(&film_f(4, 100), [0, 0], Order::Forward, done, [2, 4]);
    let over = Outcome::Over(1, counts(4, 3, 0));
    check_run(&film_f(3, 100), [0, 0], Order::Forward, over, [2, 3]);
}

#[test]
fn budgets() {
    let film = film_f(100, 100);
    let mut field = Field::zero(&film);
    let stopped = Outcome::Stopped(counts(0, 0, 0));
    assert_eq!(film.run(&mut field, 0, Order::Forward, true), Ok(stopped));
    assert_eq!(field, Field::zero(&film));
    let stopped = Outcome::Stopped(counts(5, 4, 0));
    assert_eq!(film.run(&mut field, 5, Order::Forward, false), Ok(stopped));
    assert_eq!(stopped.counts().raises, 4);
    assert_eq!(field.into_pressures(), [2, 4]);
}

#[test]
fn slacks() {
    let film = film_f(100, 100);
    let field = Field::from(vec![2, 4]);
    assert_eq!(film.slack(&field, 0), Ok(104));
    assert_eq!(film.slack(&field, 1), Ok(50));
    assert_eq!(film.slack(&Field::from(vec![2, 3]), 1), Ok(-1));
}

#[test]
fn relaxations() {
    let film = film_f(3, 100);
    let mut field = Field::zero(&film);
    assert_eq!(film.relax(&mut field, 0), Ok(Relaxed::Raised(1)));
    assert_eq!(film.relax(&mut field, 0), Ok(Relaxed::Quiet));
    assert_eq!(film.relax(&mut field, 1), Ok(Relaxed::Raised(3)));
    assert_eq!(film.relax(&mut field, 0), Ok(Relaxed::Raised(2)));
    assert_eq!(film.relax(&mut field, 1), Ok(Relaxed::Over));
    assert_eq!(field.pressures(), [2, 3]);
}

#[test]
fn line_proposals() {
    let film = film_f(5_000, 100_000);
    let mut field = Field::zero(&film);
    assert_eq!(film.estimate(&field, 1), Ok(vec![1_317, 2_657]));
    assert_eq!(
        film.propose(&mut field, 1, &[1_320, 2_660]),
        Ok(Proposed::Rejected)
    );
    assert_eq!(field, Field::zero(&film));
    assert_eq!(
        film.propose(&mut field, 1, &[1_317, 2_657]),
        Ok(Proposed::Accepted(2))
    );
    assert_eq!(field.pressures(), [1_317, 2_657]);

    let mut field = Field::zero(&film);
    let done = Outcome::Done(counts(4, 2, 2));
    assert_eq!(film.run(&mut field, BUDGET, Order::Forward, true), Ok(done));
    assert_eq!(field.pressures(), [1_320, 2_660]);
}

#[test]
fn reports() -> Result<(), Refusal> {
    let file = film_f(100, 100).write()?;
    let text = "FILM 1 2 CEILING 100\nDONE 6 4\n1 1 2 104\n1 2 4 50\nPEAK 1 2 4\n";
    assert_eq!(report(&file)?, text.as_bytes());
    assert_eq!(report(&[])?, b"REFUSED 1 0\n");
    Ok(())
}
