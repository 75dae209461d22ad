//! The test vectors of the peak among equals (document 02, W3), after those of W2.

use crate::coefficient_film::CoefficientFilm;
use crate::samples::{apart, made, peak_samples};
use crate::vectors::List;
use crate::Whole;

/// Adds them to the list, in order.
pub(crate) fn add(list: &mut List) {
    gauged(list);
    without_links(list);
    list.coefficients("flat-stopped-3x4", &stopped());
    for (name, bytes) in peak_samples() {
        list.add(&format!("sample-{name}"), bytes);
    }
}

/// Gauged films whose pressures are a few steps, so that the top is flat, and one without pressure.
fn gauged(list: &mut List) {
    // A film that converges and then diverges.
    let row = [14, 13, 12, 11, 10, 9, 8, 8, 8, 9, 10];
    list.film("flat-row-1x9", &made((1, 9), 100, 10_000, |_, c| row[c]));
    let column = made((9, 1), 100, 10_000, |_, c| 9 - c as u8);
    list.film("flat-column-9x1", &column);
    // One step thinner after every eight rows, so that the top begins a row later in its last column.
    let large = made((32, 32), 1_000, 10_000, |r, c| (128 - 3 * c - r / 8) as u8);
    list.film("flat-32x32", &large);
    let zero = made((9, 31), 7, 1_000, |r, c| (40 + c + r % 2) as u8);
    list.film("zero-9x31", &zero);
}

/// Flat tops of any form.
fn without_links(list: &mut List) {
    // Eight equals, two in the lowest and in the highest row and column that have one: each way to rank
    // them by row and column names a cell of its own.
    let octagon = apart(&[
        &[4, 9, 9, 4, 8],
        &[9, 5, 7, 9, 2],
        &[9, 6, 3, 9, 8],
        &[1, 9, 9, 8, 0],
    ]);
    list.coefficients("flat-octagon-4x5", &octagon);
    // Lower tops, further right, come before the equals: their columns do not count.
    let behind = apart(&[&[1, 2, 3, 9], &[10, 5, 6, 9], &[4, 10, 2, 8]]);
    list.coefficients("flat-behind-lower-3x4", &behind);
}

/// The first two cells climb, each visit to one more than the other has. The budget of 333,333 rounds and
/// 4 visits ends as the second comes to the pressure that the other equals have from the first round on.
fn stopped() -> CoefficientFilm {
    const TOP: u32 = 2 * 333_334;
    const LINK: Whole = 16_777_215;
    let mut film = apart(&[&[0, 0, 9, TOP - 1], &[0, 9, TOP, 0], &[TOP, 9, TOP, 0]]);
    let coefficients = &mut film.coefficients;
    coefficients.diagonals[..2].fill(LINK + 1);
    coefficients.rights[0] = LINK;
    coefficients.sources[..2].fill(-1_000_000);
    film
}
