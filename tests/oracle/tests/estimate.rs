//! The estimate of a line on systems that can be worked by hand.

use film_oracle::coefficients::Coefficients;
use film_oracle::line::{estimate, margin, propose, Proposed};
use film_oracle::Whole;

fn row(diagonals: &[Whole], rights: &[Whole], sources: &[Whole]) -> Coefficients {
    Coefficients {
        rows: 1,
        columns: diagonals.len(),
        diagonals: diagonals.to_vec(),
        rights: rights.to_vec(),
        ups: vec![0; diagonals.len()],
        sources: sources.to_vec(),
    }
}

/// The middle cell is idle, so each outer one is a chain of its own: 10, less K × weight.
#[test]
fn idle_cell_parts_the_line() {
    let formed = row(&[10, 10, 10], &[1, 1, 0], &[-100, 1_000, -100]);
    let weights = [1, 1, 1];
    assert_eq!(margin(formed.system(), &weights), 1);
    let offer = estimate(formed.system(), &weights, &[0, 0, 0], 1);
    assert_eq!(offer, [9, 0, 9]);
}

/// A negative next p is used as it came out: the first p is (1000 − 5 × 66.67) / 10, not 100.
#[test]
fn negative_pressure_is_used_as_it_is() {
    let formed = row(&[10, 10], &[5, 0], &[-1_000, 1_000]);
    let offer = estimate(formed.system(), &[1, 1], &[3, 1], 1);
    assert_eq!(offer, [65, 0]);
}

/// A pivot that is not above 0 ends the whole line, earlier chains too.
#[test]
fn broken_line_offers_zeros() {
    let formed = row(
        &[10, 10, 1, 1],
        &[0, 0, 10, 0],
        &[-1_000_000, 1_000, -5, -5],
    );
    let offer = estimate(formed.system(), &[1, 1, 1, 1], &[0, 0, 0, 0], 1);
    assert_eq!(offer, [0, 0, 0, 0]);
}

/// Where p is above 33,554,432 the whole part is 0; at it, the number counts.
#[test]
fn range_of_the_whole_part() {
    for (source, expected) in [(-33_554_432, 33_554_432), (-33_554_433, 0), (-7, 7)] {
        let formed = row(&[1], &[0], &[source]);
        assert_eq!(margin(formed.system(), &[1]), 0);
        assert_eq!(estimate(formed.system(), &[1], &[0], 1), [expected]);
    }
}

/// Rows below and above enter the right side with their pressures; the other cells of a line do
/// not.
#[test]
fn rows_below_and_above() {
    let formed = Coefficients {
        rows: 3,
        columns: 1,
        diagonals: vec![10, 10, 10],
        rights: vec![0, 0, 0],
        ups: vec![2, 3, 0],
        sources: vec![0, -100, 0],
    };
    let weights = [1, 1, 1];
    assert_eq!(margin(formed.system(), &weights), 1);
    // (100 + 2 × 5 + 3 × 7) / 10 = 13.1, less 1.
    let mut field = [5, 0, 7];
    let offer = estimate(formed.system(), &weights, &field, 2);
    assert_eq!(offer, [12]);
    let answer = propose(formed.system(), 100, &mut field, 2, &offer);
    assert_eq!(answer, Proposed::Accepted(1));
    assert_eq!(field, [5, 12, 7]);
}
