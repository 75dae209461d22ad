//! The sample films. Gauged ones are a thickness law on a grid, coefficient films a law of faces on a
//! mesh, or a gauged film converted; the makers add the least weights, or leave field 03 empty.

use crate::coefficient_film::{self, convert, CoefficientFilm};
use crate::coefficients::{form, Coefficients};
use crate::film::{write, Film, Steps};
use crate::weights::least_weights_of;
use crate::Whole;

/// Largest ceiling of a film file.
pub const HIGHEST: u32 = 16_777_216;

/// A film from a thickness law over row 0 to R + 1 and column 0 to C + 1, without weights.
pub fn unweighted(
    (rows, columns): (usize, usize),
    ceiling: u32,
    wedge: i32,
    law: impl Fn(usize, usize) -> u8,
) -> Film {
    let thickness = (0..rows + 2)
        .flat_map(|r| (0..columns + 2).map(move |c| (r, c)))
        .map(|(r, c)| law(r, c))
        .collect();
    Film {
        rows,
        columns,
        ceiling,
        weights: Vec::new(),
        thickness,
        wedge,
        steps: None,
    }
}

/// The same with the least weights.
pub fn made(
    shape: (usize, usize),
    ceiling: u32,
    wedge: i32,
    law: impl Fn(usize, usize) -> u8,
) -> Film {
    let mut film = unweighted(shape, ceiling, wedge, law);
    film.weights = least_weights_of(form(&film)).expect("weights above 65,535");
    film
}

/// The same film with the steps `along` and `across`, and the least weights of the matrix that it then
/// has.
pub fn stepped(film: &Film, (along, across): (u32, u32)) -> Film {
    let mut film = film.clone();
    film.steps = Some(Steps { along, across });
    film.weights = least_weights_of(form(&film)).expect("weights above 65,535");
    film
}

/// What a mesh has at a cell: how much it loses at the rim, its faces to column c + 1 and to row
/// r + 1, and its source.
pub struct Faces {
    pub loss: Whole,
    pub right: Whole,
    pub up: Whole,
    pub source: Whole,
}

/// A coefficient film from a law over row 1 to R and column 1 to C, without weights. Faces that lead out
/// of the grid are left out: what flows through them is a loss.
pub fn unweighted_mesh(
    (rows, columns): (usize, usize),
    ceiling: u32,
    law: impl Fn(usize, usize) -> Faces,
) -> CoefficientFilm {
    let mut coefficients = Coefficients {
        rows,
        columns,
        diagonals: vec![0; rows * columns],
        rights: vec![0; rows * columns],
        ups: vec![0; rows * columns],
        sources: vec![0; rows * columns],
    };
    for (r, c) in (1..=rows).flat_map(|r| (1..=columns).map(move |c| (r, c))) {
        let cell = (r - 1) * columns + c - 1;
        let faces = law(r, c);
        coefficients.diagonals[cell] += faces.loss;
        coefficients.sources[cell] = faces.source;
        if c < columns {
            coefficients.rights[cell] = faces.right;
            coefficients.diagonals[cell] += faces.right;
            coefficients.diagonals[cell + 1] += faces.right;
        }
        if r < rows {
            coefficients.ups[cell] = faces.up;
            coefficients.diagonals[cell] += faces.up;
            coefficients.diagonals[cell + columns] += faces.up;
        }
    }
    CoefficientFilm {
        ceiling,
        weights: Vec::new(),
        coefficients,
    }
}

/// The same with the least weights.
pub fn meshed(
    shape: (usize, usize),
    ceiling: u32,
    law: impl Fn(usize, usize) -> Faces,
) -> CoefficientFilm {
    let mut film = unweighted_mesh(shape, ceiling, law);
    film.weights = least_weights_of(film.coefficients.clone()).expect("weights above 65,535");
    film
}

/// A coefficient film without links: every cell has its own quotient, which is the pressure given for it.
pub fn apart(pressures: &[&[u32]]) -> CoefficientFilm {
    let shape = (pressures.len(), pressures[0].len());
    meshed(shape, HIGHEST, |r, c| Faces {
        loss: 10,
        right: 0,
        up: 0,
        source: -10 * Whole::from(pressures[r - 1][c - 1]),
    })
}

/// Film F of document 01.
pub fn film_f() -> Film {
    Film {
        rows: 1,
        columns: 2,
        ceiling: 100,
        weights: vec![1, 1],
        thickness: vec![1, 1, 1, 1, 3, 2, 1, 1, 1, 1, 1, 1],
        wedge: 100,
        steps: None,
    }
}

/// Film F gauged at unequal steps, along 2 and across 3. Its least weights are those of film F, 1 and 1.
pub fn film_f_steps() -> Film {
    stepped(&film_f(), (2, 3))
}

/// The largest grid, gauged at a step across that is twice as coarse as that along: in the difference
/// form each step enters with its square, so links within a row are taken 4 times. A slider that falls by 3
/// a column from 114 at the inlet to 15 at the outlet, and lies up to 4 deeper towards its outer rows.
pub fn unequal_pad() -> Film {
    let pad = made((32, 32), 1_000_000, 100_000_000, |r, c| {
        let from_middle = (2 * r).abs_diff(33) as u8;
        114 - 3 * c as u8 + from_middle / 8
    });
    stepped(&pad, (4, 1))
}

/// A plane pad that is tilted along and a little across, under a wedge so light that pressures are a few
/// steps: the top is flat. Seven cells have its pressure, rows 3 to 6 of column 8 and rows 4 to 6 of column 9.
pub fn flat_top() -> Film {
    made((8, 10), 1_000, 10_000, |r, c| (56 - 3 * c - r) as u8)
}

/// A pad as it comes from the gauge, without weights: a slider that falls by 3 a column from 115 at the
/// inlet to 16 at the outlet, and on it up to 6 of roughness.
pub fn rough_pad() -> Film {
    let rough = roughness(34 * 34);
    unweighted((32, 32), 1_000_000, 100_000_000, |r, c| {
        115 - 3 * c as u8 + rough[34 * r + c]
    })
}

/// Numbers from 0 to 6: 75, 75², 75³ and so on, each modulo 65,537 and then modulo 7.
fn roughness(count: usize) -> Vec<u8> {
    let mut power = 1_u32;
    (0..count)
        .map(|_| {
            power = 75 * power % 65_537;
            (power % 7) as u8
        })
        .collect()
}

/// A thick cell inside thin ones, without weights. Hardly anything flows out through the thin cells, so
/// that weights would have to pass 65,535: the film is refused with 16. One step less in the middle, and
/// it has weights.
pub fn no_weights() -> Film {
    thick_middle(101)
}

/// Three rows of three, thickness 1 but in the middle.
pub(crate) fn thick_middle(thickness: u8) -> Film {
    unweighted((3, 3), HIGHEST, 1_000, |r, c| {
        if (r, c) == (2, 2) {
            thickness
        } else {
            1
        }
    })
}

/// A plane slider: thickness falls by 3 a column from 90 at the inlet to 15 at the outlet, the
/// same in every row. The film converges along the columns, so a positive wedge gives negative
/// sources and pressure builds everywhere.
pub fn tilted_pad() -> Film {
    made((16, 24), 1_000_000, 100_000_000, |_, c| 90 - 3 * c as u8)
}

/// The full journal bearing of source document 002: h = s × (1 + ε cos θ).
///
/// ε = 0.8 is the eccentricity of its Figure 9 and of its computations. θ runs along the columns
/// from 0 at ring column 0 to 2π at ring column 33, so both ring columns lie at the thickest place,
/// where the bearing is fed at pressure 0. The scale s = 70 gives 126 at θ = 0, just below the
/// largest thickness of 128, and 14 at θ = π. The film converges up to θ = π and diverges after it,
/// so that the far part cavitates: its pressures are 0 and its slacks positive.
pub fn journal() -> Film {
    made((16, 32), HIGHEST, 100_000_000, |_, c| {
        journal_thickness(c).round() as u8
    })
}

/// The journal's thickness before rounding.
pub fn journal_thickness(column: usize) -> f64 {
    let theta = 2.0 * std::f64::consts::PI * column as f64 / 33.0;
    70.0 * (1.0 + 0.8 * theta.cos())
}

/// A small slider whose ceiling lies below the pressure that it needs.
pub fn over() -> Film {
    made((4, 6), 800, 1_000_000, |_, c| 12 - c as u8)
}

/// The same slider with room enough but equal weights: an inner cell's weighted row sum is then
/// 0, which shows nothing of the matrix, and the film is refused with 9 at its first inner cell.
pub fn refused() -> Film {
    let mut film = over();
    film.ceiling = HIGHEST;
    film.weights = vec![1; film.cells()];
    film
}

/// The largest grid, made to be slow: a thick pad (14 falling to 8 along the columns) inside two
/// thin courses of 1, the ring and the outermost cells. Hardly anything flows out through the thin
/// courses, so pressure climbs round after round towards several millions, and the budget of the
/// report ends first.
pub fn stopped() -> Film {
    made((32, 32), HIGHEST, 100_000_000, stopped_thickness)
}

/// The law of that film.
pub(crate) fn stopped_thickness(r: usize, c: usize) -> u8 {
    let thin = r < 2 || c < 2 || r > 31 || c > 31;
    if thin {
        1
    } else {
        14 - (6 * (c as u8 - 2)) / 29
    }
}

// Widths of the mesh's columns and heights of its rows, the ring's among them, which has none.
// Cells are small in the middle.
const WIDTHS: [Whole; 18] = [0, 4, 3, 2, 2, 1, 1, 1, 1, 1, 1, 1, 1, 2, 2, 3, 4, 0];
const HEIGHTS: [Whole; 14] = [0, 3, 2, 2, 1, 1, 1, 1, 1, 1, 2, 2, 3, 0];

/// A pad with a pocket on a graded mesh, which no gauge grid gives. The film falls from 80 at the
/// inlet to 20 at the outlet, and the pocket lies 40 deeper.
pub fn mesh() -> CoefficientFilm {
    meshed((12, 16), 1_000_000, |r, c| {
        let [before, after] = [(r, c - 1), (r, c + 1)].map(|other| mesh_face((r, c), other));
        let [below, above] = [(r - 1, c), (r + 1, c)].map(|other| mesh_face((r, c), other));
        let rim = [
            (c == 1, before),
            (c == 16, after),
            (r == 1, below),
            (r == 12, above),
        ];
        let fall = mesh_thickness((r, c + 1)) - mesh_thickness((r, c - 1));
        Faces {
            loss: rim.iter().filter(|face| face.0).map(|face| face.1).sum(),
            right: after,
            up: above,
            source: 50_000_000 * HEIGHTS[r] * fall,
        }
    })
}

/// The link of two neighbours: the cube of the sum of their thicknesses, as on a grid, but times the
/// length of their face and by the distance of their middles, rounded down. The ring has no width, so
/// a face at the rim is half as far away.
fn mesh_face(one: (usize, usize), other: (usize, usize)) -> Whole {
    let sum = mesh_thickness(one) + mesh_thickness(other);
    let width = WIDTHS[one.1] + WIDTHS[other.1];
    let height = HEIGHTS[one.0] + HEIGHTS[other.0];
    let (length, twice_the_distance) = if one.0 == other.0 {
        (HEIGHTS[one.0], width)
    } else {
        (WIDTHS[one.1], height)
    };
    2 * length * sum * sum * sum / twice_the_distance
}

/// Thickness at the middle of a cell, or of the ring.
fn mesh_thickness((r, c): (usize, usize)) -> Whole {
    let before: Whole = WIDTHS[..c].iter().sum();
    let pocket = (5..=8).contains(&r) && (6..=10).contains(&c);
    80 - (2 * before + WIDTHS[c]) + if pocket { 40 } else { 0 }
}

/// The small slider converted, but with its faces to the ring among the right links, as a mesh might
/// hold them: they belong into the diagonals alone, and the film is refused with 14 at the end of its
/// first row.
pub fn refused_coefficients() -> CoefficientFilm {
    let gauged = over();
    let mut film = convert(&gauged);
    let columns = gauged.columns;
    for r in 1..=gauged.rows {
        let sum = gauged.thickness_at(r, columns) + gauged.thickness_at(r, columns + 1);
        film.coefficients.rights[r * columns - 1] = sum * sum * sum;
    }
    film
}

/// Every sample with its name, in the order of the page that describes them.
pub fn samples() -> Vec<(&'static str, Vec<u8>)> {
    [
        equal_step_samples(),
        step_samples(),
        peak_samples(),
        weight_samples(),
    ]
    .concat()
}

/// The samples without field 0A.
pub(crate) fn equal_step_samples() -> Vec<(&'static str, Vec<u8>)> {
    let coefficients = coefficient_film::write;
    vec![
        ("film-f", write(&film_f())),
        ("tilted-pad", write(&tilted_pad())),
        ("journal", write(&journal())),
        ("over", write(&over())),
        ("refused", write(&refused())),
        ("stopped", write(&stopped())),
        ("film-f-coefficients", coefficients(&convert(&film_f()))),
        ("mesh", coefficients(&mesh())),
        (
            "refused-coefficients",
            coefficients(&refused_coefficients()),
        ),
    ]
}

/// The samples of unequal steps.
pub(crate) fn step_samples() -> Vec<(&'static str, Vec<u8>)> {
    vec![
        ("film-f-steps", write(&film_f_steps())),
        ("unequal-pad", write(&unequal_pad())),
    ]
}

/// The sample of the peak among equals.
pub(crate) fn peak_samples() -> Vec<(&'static str, Vec<u8>)> {
    vec![("flat-top", write(&flat_top()))]
}

/// The samples without weights.
pub(crate) fn weight_samples() -> Vec<(&'static str, Vec<u8>)> {
    vec![
        ("rough-pad", write(&rough_pad())),
        ("no-weights", write(&no_weights())),
    ]
}
