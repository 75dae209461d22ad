//! Film files without weights: field 03 is empty, and who reads one finds the weights. The library's
//! writers want a film's weights, so these files are put together here. Nothing is tested: the reader
//! does that.

use crate::raw::Head;
use crate::{Coefficients, Steps};

/// A gauged film's file.
pub(crate) fn gauged(head: Head, thicknesses: &[u8], wedge: i32, steps: Option<Steps>) -> Vec<u8> {
    let mut file = opening(head);
    put(&mut file, 0x04, thicknesses);
    put(&mut file, 0x05, &wedge.to_be_bytes());
    if let Some(Steps { along, across }) = steps {
        put(&mut file, 0x0a, &[byte(along), byte(across)]);
    }
    file
}

/// A coefficient film's file.
pub(crate) fn meshed(head: Head, mesh: &Coefficients) -> Vec<u8> {
    let mut file = opening(head);
    put(&mut file, 0x06, &bytes(&mesh.diagonals, u32::to_be_bytes));
    put(&mut file, 0x07, &bytes(&mesh.rights, u32::to_be_bytes));
    put(&mut file, 0x08, &bytes(&mesh.ups, u32::to_be_bytes));
    put(&mut file, 0x09, &bytes(&mesh.sources, i64::to_be_bytes));
    file
}

/// A list of numbers as a body, each as `number` has it.
fn bytes<T: Copy, const BYTES: usize>(list: &[T], number: impl Fn(T) -> [u8; BYTES]) -> Vec<u8> {
    list.iter().flat_map(|&each| number(each)).collect()
}

/// Fields 01 to 03, the last of them empty.
fn opening(head: Head) -> Vec<u8> {
    let mut file = Vec::new();
    put(&mut file, 0x01, &[byte(head.rows), byte(head.columns)]);
    put(&mut file, 0x02, &head.ceiling.to_be_bytes());
    put(&mut file, 0x03, &[]);
    file
}

/// A number that has one byte in a file. One that is too large for it becomes 255, which no side and
/// no step may be either.
fn byte(number: u32) -> u8 {
    u8::try_from(number).unwrap_or(u8::MAX)
}

/// One field. A list that is too long for a length of two bytes gets the greatest, which no field may
/// have either.
fn put(file: &mut Vec<u8>, tag: u8, body: &[u8]) {
    let length = u16::try_from(body.len()).unwrap_or(u16::MAX);
    file.push(tag);
    file.extend(length.to_be_bytes());
    file.extend(body);
}
