//! Slices to lend to the library, and what was seen to be different.

use std::fmt::Debug;

const GUARDS: usize = 8;

/// A slice to lend, between guard values that no call may change.
pub struct Lent<T> {
    numbers: Vec<T>,
    guard: T,
}

impl<T: Copy + PartialEq> Lent<T> {
    pub fn new(contents: &[T], guard: T) -> Lent<T> {
        let mut numbers = vec![guard; GUARDS];
        numbers.extend(contents);
        numbers.extend([guard; GUARDS]);
        Lent { numbers, guard }
    }

    pub fn slice(&self) -> &[T] {
        &self.numbers[GUARDS..self.numbers.len() - GUARDS]
    }

    pub fn slice_mut(&mut self) -> &mut [T] {
        let end = self.numbers.len() - GUARDS;
        &mut self.numbers[GUARDS..end]
    }

    fn guarded(&self) -> bool {
        let (low, rest) = self.numbers.split_at(GUARDS);
        let high = &rest[rest.len() - GUARDS..];
        low.iter().chain(high).all(|&number| number == self.guard)
    }
}

/// What is different after a call, in words.
#[derive(Default)]
pub struct Differences(Vec<String>);

impl Differences {
    pub fn none(&self) -> bool {
        self.0.is_empty()
    }

    pub fn lines(&self) -> &[String] {
        &self.0
    }

    /// Compares one number or answer: the oracle's, then the library's.
    pub fn same<T: PartialEq + Debug>(&mut self, what: &str, wanted: T, told: T) {
        if wanted != told {
            self.0.push(format!(
                "{what}: the oracle has {wanted:?}, the library {told:?}"
            ));
        }
    }

    /// Compares a lent slice, and that its guards are whole.
    pub fn lent<T: Copy + PartialEq + Debug>(&mut self, what: &str, wanted: &[T], told: &Lent<T>) {
        if !told.guarded() {
            self.0.push(format!("{what}: written beyond its ends"));
        }
        let slice = told.slice();
        self.same(&format!("length of {what}"), wanted.len(), slice.len());
        if let Some(at) = (0..wanted.len().min(slice.len())).find(|&at| wanted[at] != slice[at]) {
            self.same(&format!("{what} at {at}"), wanted[at], slice[at]);
        }
    }
}
