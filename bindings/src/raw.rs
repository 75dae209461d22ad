//! The library's C functions, and for each a safe function on slices. All `unsafe` is here.
//!
//! For callers with slices of their own, and for calls that the types of this package leave out: the
//! comparison with the oracle and the measurements make theirs through it.
//!
//! Why the calls are sound: the functions ask nothing of the numbers that they get. Any lengths and
//! values are answered or refused, and proved to be. What C can't promise, Rust's types do here:
//! each pointer comes from a reference that lives through the call, each length is that of the same
//! slice, and what is written was lent by `&mut`, so nothing else points to it. [`Head`] and [`Steps`]
//! are laid out as C's structs. No function keeps a pointer, calls back or unwinds.
//!
//! Each answers 0, or the number of a refusal; then `place` has its place and nothing else has
//! changed.

/// A film's shape and ceiling: C's `film_head`.
#[repr(C)]
#[derive(Clone, Copy, Debug, Default, PartialEq, Eq)]
pub struct Head {
    /// Rows of the grid, 1 to 32.
    pub rows: u32,
    /// Columns of the grid, 1 to 32.
    pub columns: u32,
    /// The upper bound of every pressure, 1 to 16,777,216 steps.
    pub ceiling: u32,
}

/// A gauged film's steps, or that it has none: C's `film_steps`.
#[repr(C)]
#[derive(Clone, Copy, Debug, Default, PartialEq, Eq)]
pub struct Steps {
    /// 0: the film has no field 0A, and no call reads or tests the two below. Any other number: it has
    /// one; `read` writes 1.
    pub given: u32,
    /// What links within a row are multiplied by, 1 to 4.
    pub along: u32,
    /// What links between rows are multiplied by, 1 to 4.
    pub across: u32,
}

/// A film as coefficients, one number of each slice a cell: the numbers of a coefficient film's
/// file.
#[derive(Clone, Copy)]
pub struct Problem<'a> {
    pub head: &'a Head,
    pub weights: &'a [u16],
    pub diagonals: &'a [u32],
    pub rights: &'a [u32],
    pub ups: &'a [u32],
    pub sources: &'a [i64],
}

/// A film as it was gauged: the numbers of a gauged film's file.
#[derive(Clone, Copy)]
pub struct Gauge<'a> {
    pub head: &'a Head,
    pub weights: &'a [u16],
    pub thicknesses: &'a [u8],
    pub wedge: i32,
    pub steps: &'a Steps,
}

/// Lent buffers that `read_coefficients` fills, 1,024 numbers each whatever the film.
pub struct Coefficients<'a> {
    pub weights: &'a mut [u16],
    pub diagonals: &'a mut [u32],
    pub rights: &'a mut [u32],
    pub ups: &'a mut [u32],
    pub sources: &'a mut [i64],
}

/// Lent slices that `form` fills.
pub struct Formed<'a> {
    pub diagonals: &'a mut [u32],
    pub rights: &'a mut [u32],
    pub ups: &'a mut [u32],
    pub sources: &'a mut [i64],
}

/// What a run tells.
#[derive(Clone, Copy, Debug, Default, PartialEq, Eq)]
pub struct Ran {
    /// 0 done, 1 stopped, 2 over; visits; raises; cells raised by proposals.
    pub result: [u32; 4],
    /// The cell of over; else unchanged.
    pub cell: usize,
    pub place: usize,
}

/// Reads a gauged film's file into `weights`, 1,024 of them, and `thicknesses`, 1,156. Where the file
/// has no weights, those that the library finds are written. Of `steps` it writes `given` alone where
/// the film has none.
#[inline]
pub fn read(
    file: &[u8],
    weights: &mut [u16],
    thicknesses: &mut [u8],
    head: &mut Head,
    wedge: &mut i32,
    steps: &mut Steps,
    place: &mut usize,
) -> u32 {
    // SAFETY: `file` is read within its length; the two buffers are written within theirs, and they
    // and the four results are lent by `&mut`.
    unsafe {
        film_read(
            file.as_ptr(),
            file.len(),
            weights.as_mut_ptr(),
            weights.len(),
            thicknesses.as_mut_ptr(),
            thicknesses.len(),
            head,
            wedge,
            steps,
            place,
        )
    }
}

/// Writes a gauged film's file into `out`, which must have exactly its length.
#[inline]
pub fn write(gauge: Gauge, out: &mut [u8], place: &mut usize) -> u32 {
    // SAFETY: weights and thicknesses are read within their lengths; `out` is written within its
    // own, and it and `place` are lent by `&mut`.
    unsafe {
        film_write(
            gauge.head,
            gauge.weights.as_ptr(),
            gauge.weights.len(),
            gauge.thicknesses.as_ptr(),
            gauge.thicknesses.len(),
            gauge.wedge,
            gauge.steps,
            out.as_mut_ptr(),
            out.len(),
            place,
        )
    }
}

/// Forms coefficients.
#[inline]
pub fn form(gauge: Gauge, formed: Formed, place: &mut usize) -> u32 {
    // SAFETY: weights and thicknesses are read within their lengths; the four slices are written
    // within theirs, and they and `place` are lent by `&mut`, so that none overlaps another.
    unsafe {
        film_form(
            gauge.head,
            gauge.weights.as_ptr(),
            gauge.weights.len(),
            gauge.thicknesses.as_ptr(),
            gauge.thicknesses.len(),
            gauge.wedge,
            gauge.steps,
            formed.diagonals.as_mut_ptr(),
            formed.diagonals.len(),
            formed.rights.as_mut_ptr(),
            formed.rights.len(),
            formed.ups.as_mut_ptr(),
            formed.ups.len(),
            formed.sources.as_mut_ptr(),
            formed.sources.len(),
            place,
        )
    }
}

/// Reads a coefficient film's file into the five buffers. Where the file has no weights, those that
/// the library finds are written.
#[inline]
pub fn read_coefficients(
    file: &[u8],
    buffers: Coefficients,
    head: &mut Head,
    place: &mut usize,
) -> u32 {
    // SAFETY: `file` is read within its length; the five buffers are written within theirs, and
    // they, `head` and `place` are lent by `&mut`, so that none overlaps another.
    unsafe {
        film_read_coefficients(
            file.as_ptr(),
            file.len(),
            buffers.weights.as_mut_ptr(),
            buffers.weights.len(),
            buffers.diagonals.as_mut_ptr(),
            buffers.diagonals.len(),
            buffers.rights.as_mut_ptr(),
            buffers.rights.len(),
            buffers.ups.as_mut_ptr(),
            buffers.ups.len(),
            buffers.sources.as_mut_ptr(),
            buffers.sources.len(),
            head,
            place,
        )
    }
}

/// Writes a coefficient film's file into `out`, which must have exactly its length.
#[inline]
pub fn write_coefficients(problem: Problem, out: &mut [u8], place: &mut usize) -> u32 {
    // SAFETY: the film's slices are read within their lengths; `out` is written within its own, and
    // it and `place` are lent by `&mut`.
    unsafe {
        film_write_coefficients(
            problem.head,
            problem.weights.as_ptr(),
            problem.weights.len(),
            problem.diagonals.as_ptr(),
            problem.diagonals.len(),
            problem.rights.as_ptr(),
            problem.rights.len(),
            problem.ups.as_ptr(),
            problem.ups.len(),
            problem.sources.as_ptr(),
            problem.sources.len(),
            out.as_mut_ptr(),
            out.len(),
            place,
        )
    }
}

/// Converts a gauged film: writes the file of the coefficient film of the same problem into `out`,
/// which must have exactly its length.
#[inline]
pub fn convert(gauge: Gauge, out: &mut [u8], place: &mut usize) -> u32 {
    // SAFETY: weights and thicknesses are read within their lengths; `out` is written within its
    // own, and it and `place` are lent by `&mut`.
    unsafe {
        film_convert(
            gauge.head,
            gauge.weights.as_ptr(),
            gauge.weights.len(),
            gauge.thicknesses.as_ptr(),
            gauge.thicknesses.len(),
            gauge.wedge,
            gauge.steps,
            out.as_mut_ptr(),
            out.len(),
            place,
        )
    }
}

/// Relaxes cell `at`. `result`: 0 quiet, 1 raised, 2 over; the pressure raised to, else 0.
#[inline]
pub fn relax(
    problem: Problem,
    field: &mut [u32],
    at: usize,
    result: &mut [u32; 2],
    place: &mut usize,
) -> u32 {
    // SAFETY: the film's slices are read within their lengths; `field` is written within its own,
    // and it, `result` and `place` are lent by `&mut`. Any `at` will do.
    unsafe {
        film_relax(
            problem.head,
            problem.weights.as_ptr(),
            problem.weights.len(),
            problem.diagonals.as_ptr(),
            problem.diagonals.len(),
            problem.rights.as_ptr(),
            problem.rights.len(),
            problem.ups.as_ptr(),
            problem.ups.len(),
            problem.sources.as_ptr(),
            problem.sources.len(),
            field.as_mut_ptr(),
            field.len(),
            at,
            result,
            place,
        )
    }
}

/// The slack of cell `at`.
#[inline]
pub fn slack(
    problem: Problem,
    field: &[u32],
    at: usize,
    slack: &mut i64,
    place: &mut usize,
) -> u32 {
    // SAFETY: the film's slices and `field` are read within their lengths; `slack` and `place` are
    // lent by `&mut`. Any `at` will do.
    unsafe {
        film_slack(
            problem.head,
            problem.weights.as_ptr(),
            problem.weights.len(),
            problem.diagonals.as_ptr(),
            problem.diagonals.len(),
            problem.rights.as_ptr(),
            problem.rights.len(),
            problem.ups.as_ptr(),
            problem.ups.len(),
            problem.sources.as_ptr(),
            problem.sources.len(),
            field.as_ptr(),
            field.len(),
            at,
            slack,
            place,
        )
    }
}

/// The film's margin.
#[inline]
pub fn margin(problem: Problem, margin: &mut u32, place: &mut usize) -> u32 {
    // SAFETY: the film's slices are read within their lengths; `margin` and `place` are lent by
    // `&mut`.
    unsafe {
        film_margin(
            problem.head,
            problem.weights.as_ptr(),
            problem.weights.len(),
            problem.diagonals.as_ptr(),
            problem.diagonals.len(),
            problem.rights.as_ptr(),
            problem.rights.len(),
            problem.ups.as_ptr(),
            problem.ups.len(),
            problem.sources.as_ptr(),
            problem.sources.len(),
            margin,
            place,
        )
    }
}

/// Proposes pressures for a line. `result`: 1 accepted, 0 rejected; the number of cells raised.
#[inline]
pub fn propose(
    problem: Problem,
    field: &mut [u32],
    line: u32,
    proposal: &[u32],
    result: &mut [u32; 2],
    place: &mut usize,
) -> u32 {
    // SAFETY: the film's slices and `proposal` are read within their lengths; `field` is written
    // within its own, and it, `result` and `place` are lent by `&mut`. Any `line` will do.
    unsafe {
        film_propose(
            problem.head,
            problem.weights.as_ptr(),
            problem.weights.len(),
            problem.diagonals.as_ptr(),
            problem.diagonals.len(),
            problem.rights.as_ptr(),
            problem.rights.len(),
            problem.ups.as_ptr(),
            problem.ups.len(),
            problem.sources.as_ptr(),
            problem.sources.len(),
            field.as_mut_ptr(),
            field.len(),
            line,
            proposal.as_ptr(),
            proposal.len(),
            result,
            place,
        )
    }
}

/// Writes the program's own proposal for a line.
#[inline]
pub fn estimate(
    problem: Problem,
    field: &[u32],
    line: u32,
    proposal: &mut [u32],
    place: &mut usize,
) -> u32 {
    // SAFETY: the film's slices and `field` are read within their lengths; `proposal` is written
    // within its own, and it and `place` are lent by `&mut`. Any `line` will do.
    unsafe {
        film_estimate(
            problem.head,
            problem.weights.as_ptr(),
            problem.weights.len(),
            problem.diagonals.as_ptr(),
            problem.diagonals.len(),
            problem.rights.as_ptr(),
            problem.rights.len(),
            problem.ups.as_ptr(),
            problem.ups.len(),
            problem.sources.as_ptr(),
            problem.sources.len(),
            field.as_ptr(),
            field.len(),
            line,
            proposal.as_mut_ptr(),
            proposal.len(),
            place,
        )
    }
}

/// Runs relaxations by an ordering, with proposals first if they are on.
#[inline]
pub fn run(
    problem: Problem,
    field: &mut [u32],
    budget: u32,
    order: u32,
    proposals: bool,
    ran: &mut Ran,
) -> u32 {
    // SAFETY: the film's slices are read within their lengths; `field` is written within its own;
    // it and the three parts of `ran`, which lie apart, are lent by `&mut`. Rust's `bool` is C's.
    // Any budget and order will do.
    unsafe {
        film_run(
            problem.head,
            problem.weights.as_ptr(),
            problem.weights.len(),
            problem.diagonals.as_ptr(),
            problem.diagonals.len(),
            problem.rights.as_ptr(),
            problem.rights.len(),
            problem.ups.as_ptr(),
            problem.ups.len(),
            problem.sources.as_ptr(),
            problem.sources.len(),
            field.as_mut_ptr(),
            field.len(),
            budget,
            order,
            proposals,
            &mut ran.result,
            &mut ran.cell,
            &mut ran.place,
        )
    }
}

/// Writes the report of a file of either kind into `out`, of at least 33,288 bytes, and its length.
#[inline]
pub fn report(file: &[u8], out: &mut [u8], length: &mut usize, place: &mut usize) -> u32 {
    // SAFETY: `file` is read within its length; `out` is written within its own, and it, `length`
    // and `place` are lent by `&mut`.
    unsafe {
        film_report(
            file.as_ptr(),
            file.len(),
            out.as_mut_ptr(),
            out.len(),
            length,
            place,
        )
    }
}

// As in include/film.h: a slice is a pointer and a length. Declared here and nowhere else.
extern "C" {
    fn film_read(
        file: *const u8,
        file_len: usize,
        weights: *mut u16,
        weights_len: usize,
        thicknesses: *mut u8,
        thicknesses_len: usize,
        head: *mut Head,
        wedge: *mut i32,
        steps: *mut Steps,
        place: *mut usize,
    ) -> u32;

    fn film_write(
        head: *const Head,
        weights: *const u16,
        weights_len: usize,
        thicknesses: *const u8,
        thicknesses_len: usize,
        wedge: i32,
        steps: *const Steps,
        out: *mut u8,
        out_len: usize,
        place: *mut usize,
    ) -> u32;

    fn film_form(
        head: *const Head,
        weights: *const u16,
        weights_len: usize,
        thicknesses: *const u8,
        thicknesses_len: usize,
        wedge: i32,
        steps: *const Steps,
        diagonals: *mut u32,
        diagonals_len: usize,
        rights: *mut u32,
        rights_len: usize,
        ups: *mut u32,
        ups_len: usize,
        sources: *mut i64,
        sources_len: usize,
        place: *mut usize,
    ) -> u32;

    fn film_read_coefficients(
        file: *const u8,
        file_len: usize,
        weights: *mut u16,
        weights_len: usize,
        diagonals: *mut u32,
        diagonals_len: usize,
        rights: *mut u32,
        rights_len: usize,
        ups: *mut u32,
        ups_len: usize,
        sources: *mut i64,
        sources_len: usize,
        head: *mut Head,
        place: *mut usize,
    ) -> u32;

    fn film_write_coefficients(
        head: *const Head,
        weights: *const u16,
        weights_len: usize,
        diagonals: *const u32,
        diagonals_len: usize,
        rights: *const u32,
        rights_len: usize,
        ups: *const u32,
        ups_len: usize,
        sources: *const i64,
        sources_len: usize,
        out: *mut u8,
        out_len: usize,
        place: *mut usize,
    ) -> u32;

    fn film_convert(
        head: *const Head,
        weights: *const u16,
        weights_len: usize,
        thicknesses: *const u8,
        thicknesses_len: usize,
        wedge: i32,
        steps: *const Steps,
        out: *mut u8,
        out_len: usize,
        place: *mut usize,
    ) -> u32;

    fn film_relax(
        head: *const Head,
        weights: *const u16,
        weights_len: usize,
        diagonals: *const u32,
        diagonals_len: usize,
        rights: *const u32,
        rights_len: usize,
        ups: *const u32,
        ups_len: usize,
        sources: *const i64,
        sources_len: usize,
        field: *mut u32,
        field_len: usize,
        at: usize,
        result: *mut [u32; 2],
        place: *mut usize,
    ) -> u32;

    fn film_slack(
        head: *const Head,
        weights: *const u16,
        weights_len: usize,
        diagonals: *const u32,
        diagonals_len: usize,
        rights: *const u32,
        rights_len: usize,
        ups: *const u32,
        ups_len: usize,
        sources: *const i64,
        sources_len: usize,
        field: *const u32,
        field_len: usize,
        at: usize,
        slack: *mut i64,
        place: *mut usize,
    ) -> u32;

    fn film_margin(
        head: *const Head,
        weights: *const u16,
        weights_len: usize,
        diagonals: *const u32,
        diagonals_len: usize,
        rights: *const u32,
        rights_len: usize,
        ups: *const u32,
        ups_len: usize,
        sources: *const i64,
        sources_len: usize,
        margin: *mut u32,
        place: *mut usize,
    ) -> u32;

    fn film_propose(
        head: *const Head,
        weights: *const u16,
        weights_len: usize,
        diagonals: *const u32,
        diagonals_len: usize,
        rights: *const u32,
        rights_len: usize,
        ups: *const u32,
        ups_len: usize,
        sources: *const i64,
        sources_len: usize,
        field: *mut u32,
        field_len: usize,
        line: u32,
        proposal: *const u32,
        proposal_len: usize,
        result: *mut [u32; 2],
        place: *mut usize,
    ) -> u32;

    fn film_estimate(
        head: *const Head,
        weights: *const u16,
        weights_len: usize,
        diagonals: *const u32,
        diagonals_len: usize,
        rights: *const u32,
        rights_len: usize,
        ups: *const u32,
        ups_len: usize,
        sources: *const i64,
        sources_len: usize,
        field: *const u32,
        field_len: usize,
        line: u32,
        proposal: *mut u32,
        proposal_len: usize,
        place: *mut usize,
    ) -> u32;

    fn film_run(
        head: *const Head,
        weights: *const u16,
        weights_len: usize,
        diagonals: *const u32,
        diagonals_len: usize,
        rights: *const u32,
        rights_len: usize,
        ups: *const u32,
        ups_len: usize,
        sources: *const i64,
        sources_len: usize,
        field: *mut u32,
        field_len: usize,
        budget: u32,
        order: u32,
        proposals: bool,
        result: *mut [u32; 4],
        cell: *mut usize,
        place: *mut usize,
    ) -> u32;

    fn film_report(
        file: *const u8,
        file_len: usize,
        out: *mut u8,
        out_len: usize,
        length: *mut usize,
        place: *mut usize,
    ) -> u32;
}
