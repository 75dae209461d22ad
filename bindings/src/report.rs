//! The report of a film file.

use crate::raw;
use crate::refusal::{tested, Refusal};

/// The length of the longest report, which the library wants room for.
const LONGEST: usize = 33_288;

/// The report of any file, of either kind of film, as text: one run from the zero field, forward,
/// without proposals, with a budget of 4,000,000 relaxations. Where the file has no weights, the search
/// for them comes before it, with a budget of its own.
///
/// A file that is refused has a report too, the line `REFUSED` number place. So the call itself is
/// never refused; the result is there because the library's call has one.
pub fn report(file: &[u8]) -> Result<Vec<u8>, Refusal> {
    let mut text = vec![0; LONGEST];
    let (mut length, mut place) = (0, 0);
    let number = raw::report(file, &mut text, &mut length, &mut place);
    tested(number, place)?;
    text.truncate(length);
    Ok(text)
}
