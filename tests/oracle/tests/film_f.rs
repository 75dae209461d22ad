//! Film F and every one of its edges that document 01 lists.

use film_oracle::coefficients::{form, Coefficients};
use film_oracle::film::{read, write, Film};
use film_oracle::line::{estimate, margin, propose, Proposed};
use film_oracle::relax::{required, slack};
use film_oracle::report::report;
use film_oracle::run::{run, Answer, Ordering, Outcome};
use film_oracle::samples::film_f;
use film_oracle::{Refusal, Whole};

const BYTES: &str = "01 0002 0102 02 0004 00000064 03 0004 0001 0001 \
                     04 000C 01010101 03020101 01010101 05 0004 00000064";

const REPORT: &str = "\
FILM 1 2 CEILING 100
DONE 6 4
1 1 2 104
1 2 4 50
PEAK 1 2 4
";

fn bytes() -> Vec<u8> {
    let digits: String = BYTES.chars().filter(|c| !c.is_whitespace()).collect();
    (0..digits.len())
        .step_by(2)
        .map(|at| u8::from_str_radix(&digits[at..at + 2], 16).unwrap())
        .collect()
}

/// A run of film F with proposals off, from a field that is lent.
fn run_film(film: &Film, field: &mut [u32], budget: u32, ordering: Ordering) -> Outcome {
    let formed = form(film);
    let system = formed.system();
    run(
        system,
        film.ceiling,
        &film.weights,
        field,
        budget,
        ordering,
        false,
    )
}

fn outcome(answer: Answer, visits: u32, raises: u32) -> Outcome {
    Outcome {
        answer,
        visits,
        raises,
        proposed: 0,
    }
}

fn slacks(formed: &Coefficients, field: &[u32]) -> Vec<Whole> {
    (0..field.len())
        .map(|cell| slack(formed.system(), field, cell))
        .collect()
}

#[test]
fn bytes_and_report() {
    assert_eq!(write(&film_f()), bytes());
    assert_eq!(read(&bytes()), Ok(film_f()));
    assert_eq!(String::from_utf8(report(&bytes())).unwrap(), REPORT);
}

#[test]
fn coefficients_and_margin() {
    let formed = form(&film_f());
    assert_eq!(formed.diagonals, [206, 51]);
    assert_eq!(formed.rights, [27, 0]);
    assert_eq!(formed.ups, [0, 0]);
    assert_eq!(formed.sources, [-200, -100]);
    assert_eq!(margin(formed.system(), &[1, 1]), 2);
}

#[test]
fn orders() {
    let mut field = [0, 0];
    let backward = run_film(&film_f(), &mut field, 4_000_000, Ordering::Backward);
    assert_eq!(backward, outcome(Answer::Done, 5, 3));
    assert_eq!(field, [2, 4]);
    for ordering in [Ordering::Forward, Ordering::RedBlack] {
        let mut field = [0, 0];
        let result = run_film(&film_f(), &mut field, 4_000_000, ordering);
        assert_eq!(result, outcome(Answer::Done, 6, 4));
        assert_eq!(field, [2, 4]);
    }
}

#[test]
fn budgets() {
    let mut field = [0, 0];
    let result = run_film(&film_f(), &mut field, 5, Ordering::Forward);
    assert_eq!(result, outcome(Answer::Stopped, 5, 4));
    assert_eq!(field, [2, 4]);
    // N quiet visits spread over two runs are not Done.
    let result = run_film(&film_f(), &mut field, 1, Ordering::Forward);
    assert_eq!(result, outcome(Answer::Stopped, 1, 0));

    let mut field = [0, 0];
    let result = run_film(&film_f(), &mut field, 6, Ordering::Forward);
    assert_eq!(result, outcome(Answer::Done, 6, 4));

    let mut field = [2, 4];
    let result = run_film(&film_f(), &mut field, 2, Ordering::Forward);
    assert_eq!(result, outcome(Answer::Done, 2, 0));

    let mut field = [0, 0];
    let result = run_film(&film_f(), &mut field, 0, Ordering::Forward);
    assert_eq!(result, outcome(Answer::Stopped, 0, 0));
    assert_eq!(field, [0, 0]);
}

#[test]
fn ceilings() {
    let mut film = film_f();
    film.ceiling = 4;
    let mut field = [0, 0];
    let result = run_film(&film, &mut field, 4_000_000, Ordering::Forward);
    assert_eq!(result, outcome(Answer::Done, 6, 4));

    film.ceiling = 3;
    let mut field = [0, 0];
    let result = run_film(&film, &mut field, 4_000_000, Ordering::Forward);
    assert_eq!(result, outcome(Answer::Over(1), 4, 3));
    assert_eq!(field, [2, 3]);
    assert_eq!(
        report(&write(&film)),
        b"FILM 1 2 CEILING 3\nOVER 4 3\n1 2\n"
    );
}

#[test]
fn wedges() {
    for (wedge, expected) in [(0, [0, 0]), (-100, [200, 100])] {
        let mut film = film_f();
        film.wedge = wedge;
        let mut field = [0, 0];
        let result = run_film(&film, &mut field, 4_000_000, Ordering::Forward);
        assert_eq!(result, outcome(Answer::Done, 2, 0));
        assert_eq!(field, [0, 0]);
        assert_eq!(slacks(&form(&film), &field), expected);
    }
}

#[test]
fn start_3_0() {
    let mut field = [3, 0];
    let result = run_film(&film_f(), &mut field, 4_000_000, Ordering::Forward);
    assert_eq!(result, outcome(Answer::Done, 4, 1));
    assert_eq!(field, [3, 4]);
}

#[test]
fn proposals_on() {
    let mut film = film_f();
    film.wedge = 100_000;
    film.ceiling = 5_000;
    let formed = form(&film);
    let system = formed.system();
    let offer = estimate(system, &film.weights, &[0, 0], 1);
    assert_eq!(offer, [1317, 2657]);
    let mut field = [0, 0];
    let answer = propose(system, film.ceiling, &mut field, 1, &offer);
    assert_eq!(answer, Proposed::Accepted(2));

    let mut field = [0, 0];
    let result = run(
        system,
        film.ceiling,
        &film.weights,
        &mut field,
        4_000_000,
        Ordering::Forward,
        true,
    );
    let expected = Outcome {
        answer: Answer::Done,
        visits: 4,
        raises: 2,
        proposed: 2,
    };
    assert_eq!(result, expected);
    assert_eq!(field, [1320, 2660]);
}

#[test]
fn refused_files() {
    assert_eq!(report(&[]), b"REFUSED 1 0\n");
    assert_eq!(report(&bytes()[..40]), b"REFUSED 1 40\n");
    let longer = [&bytes()[..], &[0]].concat();
    assert_eq!(report(&longer), b"REFUSED 2 41\n");
    let mut wide = bytes();
    wide[4] = 33;
    assert_eq!(
        read(&wide),
        Err(Refusal {
            number: 4,
            place: 4
        })
    );
}

#[test]
fn slips_kept_out() {
    let formed = form(&film_f());
    // The real solution 1.32, 2.66 rounded up is not feasible.
    assert_eq!(slacks(&formed, &[2, 3])[1], -1);
    // 127 / 51 is rounded up; 2 would leave a slack of −25.
    assert_eq!(required(formed.system(), &[1, 0], 1), 3);
    assert_eq!(slacks(&formed, &[1, 2])[1], -25);
    // The field 1 0 leaves a slack of 6 in the first cell, which this proposal doesn't raise:
    // only the second cell is tested.
    let mut field = [1, 0];
    assert_eq!(slacks(&formed, &field)[0], 6);
    let answer = propose(formed.system(), 100, &mut field, 1, &[0, 1]);
    assert_eq!(answer, Proposed::Accepted(1));
    assert_eq!(field, [1, 1]);
}

#[test]
fn proposals_rejected() {
    let formed = form(&film_f());
    let offers: [[u32; 2]; 4] = [[0, 0], [0, 101], [u32::MAX, 0], [3, 4]];
    for offer in offers {
        let mut field = [0, 0];
        let answer = propose(formed.system(), 100, &mut field, 1, &offer);
        assert_eq!(answer, Proposed::Rejected);
        assert_eq!(field, [0, 0]);
    }
}
