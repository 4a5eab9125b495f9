//! Counts what was run and keeps the smallest input that differs.

use leafmesh::ffi::Outcome;
use std::collections::BTreeSet;

/// Refusals have the numbers 1 to 10.
const NUMBERS: usize = 11;

pub struct Report {
    call: &'static str,
    inputs: u64,
    refused: [u64; NUMBERS],
    /// Each refusal's number and place.
    places: BTreeSet<(u64, u64)>,
    /// Accepted calls with a value above 0: borders found, leaves listed, splits made.
    with_value: u64,
    differ: u64,
    smallest: Option<(u128, String)>,
}

impl Report {
    pub fn new(call: &'static str) -> Self {
        Report {
            call,
            inputs: 0,
            refused: [0; NUMBERS],
            places: BTreeSet::new(),
            with_value: 0,
            differ: 0,
            smallest: None,
        }
    }

    /// One input was run: `outcome` is the original's side, `same` whether the port's side equals
    /// it in all that can be seen. Size and words are asked for only where it doesn't.
    pub fn ran(&mut self, outcome: Outcome, same: bool, words: impl FnOnce() -> (u128, String)) {
        self.inputs += 1;
        match outcome.number {
            0 => self.with_value += u64::from(outcome.value > 0),
            number => {
                self.refused[number as usize] += 1;
                self.places.insert((number, outcome.place));
            }
        }
        if !same {
            self.differ += 1;
            self.keep_smaller(words());
        }
    }

    fn keep_smaller(&mut self, (size, words): (u128, String)) {
        if self.smallest.as_ref().map_or(true, |kept| size < kept.0) {
            self.smallest = Some((size, words));
        }
    }

    /// Says what was run; true if nothing differed.
    pub fn print(&self) -> bool {
        let refused: u64 = self.refused.iter().sum();
        println!(
            "{}: {} inputs, {} accepted ({} with a value above 0), {} refused{}, {} differ",
            self.call,
            self.inputs,
            self.inputs - refused,
            self.with_value,
            refused,
            self.by_number(),
            self.differ
        );
        if let Some((_, words)) = &self.smallest {
            println!("  smallest input that differs: {words}");
        }
        self.differ == 0
    }

    /// At how many places a refusal was met, where there are several.
    fn spread(&self, number: usize) -> String {
        let number = number as u64;
        match self.places.range((number, 0)..(number + 1, 0)).count() {
            0 | 1 => String::new(),
            places => format!(" at {places} places"),
        }
    }

    fn by_number(&self) -> String {
        let parts: Vec<String> = (0..NUMBERS)
            .filter(|&number| self.refused[number] > 0)
            .map(|number| format!("{} by {number}{}", self.refused[number], self.spread(number)))
            .collect();
        if parts.is_empty() {
            String::new()
        } else {
            format!(" ({})", parts.join(", "))
        }
    }
}
