//! Projected relaxation in binary64, as a laboratory writes it: Gauss–Seidel and SOR.

use crate::problem::Problem;

/// A problem in real numbers, by cell index.
pub struct Real {
    pub rows: usize,
    pub columns: usize,
    pub diagonals: Vec<f64>,
    pub rights: Vec<f64>,
    pub ups: Vec<f64>,
    pub sources: Vec<f64>,
}

impl Real {
    /// `law` gives diagonal, right link, up link and source at a row and column counted from 0.
    pub fn new(rows: usize, columns: usize, law: impl Fn(usize, usize) -> [f64; 4]) -> Real {
        let cells: Vec<[f64; 4]> = (0..rows * columns)
            .map(|cell| law(cell / columns, cell % columns))
            .collect();
        let part = |number: usize| cells.iter().map(|cell| cell[number]).collect();
        Real {
            rows,
            columns,
            diagonals: part(0),
            rights: part(1),
            ups: part(2),
            sources: part(3),
        }
    }

    pub fn of(problem: &Problem) -> Real {
        Real::new(problem.rows, problem.columns, |row, column| {
            let cell = row * problem.columns + column;
            [
                problem.diagonals[cell].into(),
                problem.rights[cell].into(),
                problem.ups[cell].into(),
                problem.sources[cell] as f64,
            ]
        })
    }

    /// Links to the cells before, after, below and above; 0 where there is none in the grid.
    fn links(&self, cell: usize) -> [f64; 4] {
        let columns = self.columns;
        let before = if !cell.is_multiple_of(columns) {
            self.rights[cell - 1]
        } else {
            0.0
        };
        let below = if cell >= columns {
            self.ups[cell - columns]
        } else {
            0.0
        };
        [before, self.rights[cell], below, self.ups[cell]]
    }

    /// What each diagonal holds beyond the links inside the grid: the links to the boundary ring.
    pub fn boundary(&self) -> Vec<f64> {
        let beyond = |cell| self.diagonals[cell] - self.links(cell).iter().sum::<f64>();
        (0..self.diagonals.len()).map(beyond).collect()
    }
}

/// The grid with a ring of zero pressures around it and every row of the matrix divided by its
/// diagonal beforehand, so that a step has neither a division nor a test for the edge.
pub struct Scaled {
    rows: usize,
    columns: usize,
    /// Links before, after, below, above, and the source.
    cells: Vec<[f64; 5]>,
    diagonals: Vec<f64>,
}

impl Scaled {
    pub fn of(real: &Real) -> Scaled {
        let cell = |cell: usize| {
            let diagonal = real.diagonals[cell];
            let [before, after, below, above] = real.links(cell).map(|link| link / diagonal);
            [before, after, below, above, real.sources[cell] / diagonal]
        };
        Scaled {
            rows: real.rows,
            columns: real.columns,
            cells: (0..real.diagonals.len()).map(cell).collect(),
            diagonals: real.diagonals.clone(),
        }
    }

    pub fn zeros(&self) -> Vec<f64> {
        vec![0.0; (self.rows + 2) * (self.columns + 2)]
    }

    /// Sweeps by index until no plain step of a sweep changes a pressure by `tolerance` or more.
    #[inline(never)]
    pub fn gauss_seidel(&self, field: &mut [f64], tolerance: f64) -> u32 {
        self.sweeps(field, tolerance, |_, wanted| wanted)
    }

    /// The same with every step made `factor` times as long.
    #[inline(never)]
    pub fn sor(&self, field: &mut [f64], factor: f64, tolerance: f64) -> u32 {
        self.sweeps(field, tolerance, |pressure, wanted| {
            pressure + factor * (wanted - pressure)
        })
    }

    /// SOR with the stopping rule of source paper 002: after a sweep the largest |slack|, of cells
    /// with pressure or with a negative slack, is below 10⁻⁷.
    pub fn paper_sor(&self, factor: f64) -> u32 {
        let mut field = self.zeros();
        let mut sweeps = 0;
        loop {
            self.sor(&mut field, factor, f64::MAX);
            sweeps += 1;
            let slacks = (0..self.cells.len())
                .map(|cell| self.diagonals[cell] * self.residual(&field, cell));
            if slacks.fold(0.0, f64::max) < 1e-7 {
                return sweeps;
            }
        }
    }

    /// The factor from 1.00 to 1.98, in steps of 0.02, with the fewest sweeps.
    pub fn best_factor(&self, sweeps: impl Fn(&Scaled, f64) -> u32) -> f64 {
        (50..100)
            .map(|fiftieths| f64::from(fiftieths) / 50.0)
            .min_by_key(|&factor| sweeps(self, factor))
            .expect("fifty factors")
    }

    #[inline(always)]
    fn sweeps(&self, field: &mut [f64], tolerance: f64, step: impl Fn(f64, f64) -> f64) -> u32 {
        let mut sweeps = 1;
        while self.sweep(field, &step) >= tolerance {
            sweeps += 1;
        }
        sweeps
    }

    /// One sweep; hands back the largest change that a plain step would have made.
    #[inline(always)]
    fn sweep(&self, field: &mut [f64], step: impl Fn(f64, f64) -> f64) -> f64 {
        let mut largest = 0.0;
        for row in 0..self.rows {
            for column in 0..self.columns {
                let cell = row * self.columns + column;
                let at = (row + 1) * (self.columns + 2) + column + 1;
                let (pressure, wanted) = (field[at], self.wanted(field, cell, at));
                let change = (positive(wanted) - pressure).abs();
                if change > largest {
                    largest = change;
                }
                field[at] = positive(step(pressure, wanted));
            }
        }
        largest
    }

    /// Where a cell lies in a field with its ring.
    fn place(&self, cell: usize) -> usize {
        let (row, column) = (cell / self.columns, cell % self.columns);
        (row + 1) * (self.columns + 2) + column + 1
    }

    /// The pressure that makes a cell's slack zero. The cell before, which was just changed, is
    /// added last: the step waits for nothing else.
    #[inline(always)]
    fn wanted(&self, field: &[f64], cell: usize, at: usize) -> f64 {
        let width = self.columns + 2;
        let [before, after, below, above, source] = self.cells[cell];
        let across = below * field[at - width] + above * field[at + width];
        (across + after * field[at + 1] - source) + before * field[at - 1]
    }

    /// By how many pressure steps a cell misses its complementarity.
    fn residual(&self, field: &[f64], cell: usize) -> f64 {
        let at = self.place(cell);
        (positive(self.wanted(field, cell, at)) - field[at]).abs()
    }

    pub fn largest_residual(&self, field: &[f64]) -> f64 {
        (0..self.cells.len())
            .map(|cell| self.residual(field, cell))
            .fold(0.0, f64::max)
    }

    /// A whole field as a real one with its ring.
    pub fn ringed(&self, pressures: &[u32]) -> Vec<f64> {
        let mut field = self.zeros();
        for (cell, &pressure) in pressures.iter().enumerate() {
            field[self.place(cell)] = pressure.into();
        }
        field
    }
}

/// Written as a choice, so that it is one instruction.
#[inline(always)]
fn positive(number: f64) -> f64 {
    if number > 0.0 {
        number
    } else {
        0.0
    }
}
