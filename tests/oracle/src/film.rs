//! The film file: its numbers, its reader and its writer (document 01, "The film file" and
//! "Refusals"; document 02, W2 and W5). Fields 01 to 03, the walk over the optional fields and the tests
//! of single numbers are those of a coefficient film too.

use crate::coefficients::{form, System};
use crate::relax::first_not_dominant;
use crate::weights::held;
use crate::{refuse, Refusal, Whole};

/// Length of the weight buffer that a caller lends to the reader.
pub const WEIGHT_BUFFER: usize = 1_024;
/// Length of the thickness buffer that a caller lends to the reader.
pub const THICKNESS_BUFFER: usize = 1_156;

const LARGEST_SIDE: Whole = 32;
const LARGEST_CEILING: Whole = 16_777_216;
const LARGEST_THICKNESS: u8 = 128;
const LARGEST_WEDGE: i32 = 1_000_000_000;
const LARGEST_STEP: u32 = 4;

/// Tag of the grid steps, and the length of their body.
const STEPS_TAG: u8 = 0x0a;
const STEPS_LENGTH: usize = 2;

// Where the numbers of a file lie.
const ROWS_AT: usize = 3;
const COLUMNS_AT: usize = 4;
const CEILING_AT: usize = 8;
const WEIGHTS_AT: usize = 15;

/// Grid steps (document 02, W2), as factors: of the links within a row, and of those between rows.
#[derive(Clone, Copy, Debug, PartialEq, Eq)]
pub struct Steps {
    pub along: u32,
    pub across: u32,
}

/// The numbers of a film file.
#[derive(Clone, Debug, PartialEq, Eq)]
pub struct Film {
    pub rows: usize,
    pub columns: usize,
    pub ceiling: u32,
    /// One for each cell, by index; none at all stand for an empty field 03.
    pub weights: Vec<u16>,
    /// Rows 0 to R + 1, and in each of them columns 0 to C + 1: the boundary ring is included.
    pub thickness: Vec<u8>,
    pub wedge: i32,
    /// None where field 0A was not there: steps 1 1 that were given are another file.
    pub steps: Option<Steps>,
}

impl Film {
    /// N, the number of cells.
    pub fn cells(&self) -> usize {
        self.rows * self.columns
    }

    /// Thickness at row 0 to R + 1 and column 0 to C + 1.
    pub fn thickness_at(&self, row: usize, column: usize) -> Whole {
        Whole::from(self.thickness[row * (self.columns + 2) + column])
    }

    /// The factors of the links: a film without the field has 1 and 1.
    pub fn factors(&self) -> Steps {
        self.steps.unwrap_or(Steps {
            along: 1,
            across: 1,
        })
    }
}

/// Number of thicknesses, the ring included.
pub fn thickness_count(rows: usize, columns: usize) -> usize {
    (rows + 2) * (columns + 2)
}

/// Length of the file that the writer makes of a film with `rows` and `columns`, with or without field 0A.
/// Its weights are in place, and so they are in the offsets below.
pub fn file_length(rows: usize, columns: usize, steps: bool) -> usize {
    let required = 25 + 2 * rows * columns + thickness_count(rows, columns);
    required + if steps { 3 + STEPS_LENGTH } else { 0 }
}

fn thickness_offset(cells: usize) -> usize {
    18 + 2 * cells
}

fn wedge_offset(rows: usize, columns: usize) -> usize {
    21 + 2 * rows * columns + thickness_count(rows, columns)
}

fn steps_offset(rows: usize, columns: usize) -> usize {
    28 + 2 * rows * columns + thickness_count(rows, columns)
}

/// The numbers of fields 01, 02 and 03, with which a file of either kind begins.
pub(crate) struct Opening {
    pub rows: usize,
    pub columns: usize,
    pub ceiling: u32,
    /// None where field 03 is empty.
    pub weights: Vec<u16>,
    /// Where the tag after field 03 lies.
    pub end: usize,
}

/// Where the tag after field 03 lies in a file that carries its weights.
pub(crate) fn after_weights(cells: usize) -> usize {
    WEIGHTS_AT + 2 * cells
}

/// Where the tag after field 03 lies in this file (document 02, W5). The two length bytes of field 03 tell
/// whether it has weights: 0 means none, anything else is held to two bytes a cell. Bytes beyond the end
/// count as 0, since such a file is cut short either way.
pub(crate) fn weights_end(bytes: &[u8], cells: usize) -> usize {
    let above_0 = |at: usize| bytes.get(at).is_some_and(|&byte| byte > 0);
    if above_0(WEIGHTS_AT - 2) || above_0(WEIGHTS_AT - 1) {
        after_weights(cells)
    } else {
        WEIGHTS_AT
    }
}

/// Reads fields 01, 02 and 03, each: header, tag, length, presence of the body, values.
pub(crate) fn read_opening(bytes: &[u8]) -> Result<Opening, Refusal> {
    let shape = body(bytes, 0, 0x01, 2)?;
    let (rows, columns) = (usize::from(shape[0]), usize::from(shape[1]));
    check_shape(rows as Whole, columns as Whole)?;

    let ceiling = be_u32(body(bytes, 5, 0x02, 4)?);
    check_ceiling(ceiling.into())?;

    let end = weights_end(bytes, rows * columns);
    let weights: Vec<u16> = body(bytes, 12, 0x03, end - WEIGHTS_AT)?
        .chunks(2)
        .map(|pair| u16::from_be_bytes([pair[0], pair[1]]))
        .collect();
    check_weights(&weights)?;
    Ok(Opening {
        rows,
        columns,
        ceiling,
        weights,
        end,
    })
}

/// Reads a film file into numbers of its own. Its fields come first, and the bytes after them; then
/// dominance, or the search for weights where the file carries none.
pub fn read(bytes: &[u8]) -> Result<Film, Refusal> {
    let mut film = read_fields(bytes)?;
    film.weights = held(form(&film).system(), film.weights)?;
    Ok(film)
}

/// The numbers that a film file's fields have, its weights empty where field 03 is. The tests come field
/// by field: header, tag, length, presence of the body, values; then the optional field in its own
/// order, and bytes after it. Every field lies behind the one before it, so that a file without weights
/// has its later numbers 2 bytes a cell earlier.
pub fn read_fields(bytes: &[u8]) -> Result<Film, Refusal> {
    let Opening {
        rows,
        columns,
        ceiling,
        weights,
        end,
    } = read_opening(bytes)?;

    let count = thickness_count(rows, columns);
    let thickness = body(bytes, end, 0x04, count)?.to_vec();
    check_thickness(&thickness, end + 3)?;

    let wedge_header = end + 3 + count;
    let wedge = be_u32(body(bytes, wedge_header, 0x05, 4)?) as i32;
    check_wedge(wedge, wedge_header + 3)?;

    let permitted = [Optional {
        tag: STEPS_TAG,
        length: STEPS_LENGTH,
        check: &|body, at| check_steps(steps_in(body), at),
    }];
    let [steps] = optional_bodies(bytes, wedge_header + 7, permitted)?;
    Ok(Film {
        rows,
        columns,
        ceiling,
        weights,
        thickness,
        wedge,
        steps: steps.map(steps_in),
    })
}

/// The reading call: fills the two lent buffers and hands back rows, columns, ceiling, wedge and
/// steps. Wrong buffers come first; places beyond those used keep their contents.
pub fn read_into(
    bytes: &[u8],
    weights: &mut [u16],
    thickness: &mut [u8],
) -> Result<(usize, usize, u32, i32, Option<Steps>), Refusal> {
    if weights.len() != WEIGHT_BUFFER || thickness.len() != THICKNESS_BUFFER {
        return refuse(10, 0);
    }
    let film = read(bytes)?;
    weights[..film.weights.len()].copy_from_slice(&film.weights);
    thickness[..film.thickness.len()].copy_from_slice(&film.thickness);
    Ok((
        film.rows,
        film.columns,
        film.ceiling,
        film.wedge,
        film.steps,
    ))
}

/// One field: the header of three bytes, its tag, its length, then its body.
pub(crate) fn body(bytes: &[u8], at: usize, tag: u8, length: usize) -> Result<&[u8], Refusal> {
    if bytes.len() < at + 3 {
        return refuse(1, bytes.len());
    }
    if bytes[at] != tag {
        return refuse(2, at);
    }
    if usize::from(u16::from_be_bytes([bytes[at + 1], bytes[at + 2]])) != length {
        return refuse(3, at);
    }
    if bytes.len() < at + 3 + length {
        return refuse(1, bytes.len());
    }
    Ok(&bytes[at + 3..at + 3 + length])
}

/// Tests the values of a body that begins at an offset.
type ValueTest<'a> = &'a dyn Fn(&[u8], usize) -> Result<(), Refusal>;

/// An optional field that a kind of film permits: its tag, the one length of its body, and the test of
/// its values.
pub(crate) struct Optional<'a> {
    pub tag: u8,
    pub length: usize,
    pub check: ValueTest<'a>,
}

/// The bodies of the optional fields, which begin at `at`, behind the last required field; None for
/// one that is not there. The tag is looked at before the header, so that a byte that is no permitted
/// tag is stray even where it stands alone. The fields stand in the order of `permitted`, each at most
/// once: an earlier or repeated tag is stray.
pub(crate) fn optional_bodies<'a, const COUNT: usize>(
    bytes: &'a [u8],
    mut at: usize,
    permitted: [Optional; COUNT],
) -> Result<[Option<&'a [u8]>; COUNT], Refusal> {
    let mut bodies = [None; COUNT];
    for (found, field) in bodies.iter_mut().zip(permitted) {
        if bytes.get(at) == Some(&field.tag) {
            let body = body(bytes, at, field.tag, field.length)?;
            (field.check)(body, at + 3)?;
            *found = Some(body);
            at += 3 + field.length;
        }
    }
    if bytes.len() > at {
        return refuse(2, at);
    }
    Ok(bodies)
}

fn steps_in(body: &[u8]) -> Steps {
    Steps {
        along: body[0].into(),
        across: body[1].into(),
    }
}

fn be_u32(body: &[u8]) -> u32 {
    u32::from_be_bytes([body[0], body[1], body[2], body[3]])
}

/// The numbers that the writer, and the call that forms coefficients, are given.
#[derive(Clone, Copy)]
pub struct Numbers<'a> {
    pub rows: Whole,
    pub columns: Whole,
    pub ceiling: u32,
    pub weights: &'a [u16],
    pub thickness: &'a [u8],
    pub wedge: i32,
    pub steps: Option<Steps>,
}

impl<'a> From<&'a Film> for Numbers<'a> {
    fn from(film: &'a Film) -> Self {
        Numbers {
            rows: film.rows as Whole,
            columns: film.columns as Whole,
            ceiling: film.ceiling,
            weights: &film.weights,
            thickness: &film.thickness,
            wedge: film.wedge,
            steps: film.steps,
        }
    }
}

/// The tests of the writer, the forming call and the converter: 4, 10, 5, 6, 7, 8, 15, 9, at the
/// offsets that the numbers would get in a file; of steps that are not there nothing is tested.
/// `lent_fits` says, for a good shape, whether the slices that the call fills have the right lengths.
pub fn check_numbers(
    given: Numbers,
    lent_fits: impl Fn(usize, usize) -> bool,
) -> Result<Film, Refusal> {
    check_shape(given.rows, given.columns)?;
    let (rows, columns) = (given.rows as usize, given.columns as usize);
    let cells = rows * columns;
    let fits = given.weights.len() == cells
        && given.thickness.len() == thickness_count(rows, columns)
        && lent_fits(rows, columns);
    if !fits {
        return refuse(10, 0);
    }
    check_ceiling(given.ceiling.into())?;
    check_weights(given.weights)?;
    check_thickness(given.thickness, thickness_offset(cells))?;
    check_wedge(given.wedge, wedge_offset(rows, columns))?;
    if let Some(steps) = given.steps {
        check_steps(steps, steps_offset(rows, columns))?;
    }
    let film = Film {
        rows,
        columns,
        ceiling: given.ceiling,
        weights: given.weights.to_vec(),
        thickness: given.thickness.to_vec(),
        wedge: given.wedge,
        steps: given.steps,
    };
    check_dominance(form(&film).system(), &film.weights)?;
    Ok(film)
}

/// The writing call: fills a lent slice that has exactly the file's length.
pub fn write_into(given: Numbers, out: &mut [u8]) -> Result<(), Refusal> {
    let (length, steps) = (out.len(), given.steps.is_some());
    let film = check_numbers(given, |rows, columns| {
        length == file_length(rows, columns, steps)
    })?;
    out.copy_from_slice(&write(&film));
    Ok(())
}

/// The bytes of a film file, with no test at all: test vectors need refused files too, and files without
/// weights. A number must have room in its field.
pub fn write(film: &Film) -> Vec<u8> {
    let mut bytes = write_opening((film.rows, film.columns), film.ceiling, &film.weights);
    put_field(&mut bytes, 0x04, &film.thickness);
    put_field(&mut bytes, 0x05, &film.wedge.to_be_bytes());
    if let Some(steps) = film.steps {
        let body = [steps.along, steps.across].map(|step| u8::try_from(step).expect("one byte"));
        put_field(&mut bytes, STEPS_TAG, &body);
    }
    bytes
}

/// Fields 01, 02 and 03.
pub(crate) fn write_opening(shape: (usize, usize), ceiling: u32, weights: &[u16]) -> Vec<u8> {
    let weights: Vec<u8> = weights.iter().flat_map(|w| w.to_be_bytes()).collect();
    let mut bytes = Vec::new();
    put_field(&mut bytes, 0x01, &[shape.0 as u8, shape.1 as u8]);
    put_field(&mut bytes, 0x02, &ceiling.to_be_bytes());
    put_field(&mut bytes, 0x03, &weights);
    bytes
}

pub(crate) fn put_field(bytes: &mut Vec<u8>, tag: u8, body: &[u8]) {
    bytes.push(tag);
    bytes.extend((body.len() as u16).to_be_bytes());
    bytes.extend(body);
}

pub(crate) fn check_shape(rows: Whole, columns: Whole) -> Result<(), Refusal> {
    if !(1..=LARGEST_SIDE).contains(&rows) {
        return refuse(4, ROWS_AT);
    }
    if !(1..=LARGEST_SIDE).contains(&columns) {
        return refuse(4, COLUMNS_AT);
    }
    Ok(())
}

pub(crate) fn check_ceiling(ceiling: Whole) -> Result<(), Refusal> {
    if !(1..=LARGEST_CEILING).contains(&ceiling) {
        return refuse(5, CEILING_AT);
    }
    Ok(())
}

pub(crate) fn check_weights(weights: &[u16]) -> Result<(), Refusal> {
    match weights.iter().position(|&weight| weight == 0) {
        Some(cell) => refuse(6, WEIGHTS_AT + 2 * cell),
        None => Ok(()),
    }
}

/// Corners of the ring are read, so they are tested like the others. `at` is the offset of the first.
fn check_thickness(thickness: &[u8], at: usize) -> Result<(), Refusal> {
    match thickness
        .iter()
        .position(|h| !(1..=LARGEST_THICKNESS).contains(h))
    {
        Some(number) => refuse(7, at + number),
        None => Ok(()),
    }
}

fn check_wedge(wedge: i32, at: usize) -> Result<(), Refusal> {
    if !(-LARGEST_WEDGE..=LARGEST_WEDGE).contains(&wedge) {
        return refuse(8, at);
    }
    Ok(())
}

/// `at` is the offset of the first of the two steps.
fn check_steps(steps: Steps, at: usize) -> Result<(), Refusal> {
    let steps = [steps.along, steps.across];
    match steps
        .iter()
        .position(|step| !(1..=LARGEST_STEP).contains(step))
    {
        Some(number) => refuse(15, at + number),
        None => Ok(()),
    }
}

pub(crate) fn check_dominance(system: System, weights: &[u16]) -> Result<(), Refusal> {
    match first_not_dominant(system, weights) {
        Some(cell) => refuse(9, cell),
        None => Ok(()),
    }
}
