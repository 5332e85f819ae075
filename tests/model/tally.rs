//! Counts how often each answer came up in a comparison.

use std::collections::BTreeMap;
use std::fmt::Display;

/// From this count on, each answer that can come up must have come up.
const ENOUGH: u64 = 10_000;

/// The answers are numbers, or names of what they are.
#[derive(Default)]
pub struct Tally<A = u64>(BTreeMap<A, u64>);

impl<A: Ord + Display> Tally<A> {
    pub fn add(&mut self, answer: A) {
        *self.0.entry(answer).or_default() += 1;
    }

    pub fn print(&self, what: &str) {
        let all: u64 = self.0.values().sum();
        println!("compared {all} {what}; numbers{}", self.times());
    }

    /// Every answer and how often it came up.
    pub fn times(&self) -> String {
        self.0.iter().map(|(answer, times)| format!(" {answer}:{times}")).collect()
    }

    /// An error if one of these never came up, where there was time enough.
    pub fn complete(&self, answers: &[A], count: u64) -> Result<(), String> {
        match answers.iter().find(|answer| !self.0.contains_key(answer)) {
            Some(answer) if count >= ENOUGH => Err(format!("{answer} never came up")),
            _ => Ok(()),
        }
    }
}
