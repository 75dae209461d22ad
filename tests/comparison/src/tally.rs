//! Counts of what was compared.

use std::collections::BTreeMap;

/// How often each call gave each answer.
#[derive(Default)]
pub struct Tally {
    answers: BTreeMap<&'static str, BTreeMap<&'static str, u64>>,
    calls: u64,
}

impl Tally {
    pub fn add(&mut self, call: &'static str, answer: &'static str) {
        self.calls += 1;
        *self
            .answers
            .entry(call)
            .or_default()
            .entry(answer)
            .or_default() += 1;
    }

    pub fn calls(&self) -> u64 {
        self.calls
    }

    /// A line for each call: how many, and its answers.
    pub fn print(&self) {
        for (call, answers) in &self.answers {
            let total: u64 = answers.values().sum();
            let parts: Vec<String> = answers.iter().map(|(a, n)| format!("{a} {n}")).collect();
            println!("{call:18} {total:9}: {}", parts.join(", "));
        }
    }
}

/// The answer of a call that told `number`, where `answered` is its answer if it isn't refused.
pub fn answer(number: u32, answered: &'static str) -> &'static str {
    const REFUSED: [&str; 18] = [
        "", "no. 01", "no. 02", "no. 03", "no. 04", "no. 05", "no. 06", "no. 07", "no. 08",
        "no. 09", "no. 10", "no. 11", "no. 12", "no. 13", "no. 14", "no. 15", "no. 16", "no. 17",
    ];
    match number {
        0 => answered,
        number => REFUSED
            .get(number as usize)
            .copied()
            .unwrap_or("no. above 17"),
    }
}
