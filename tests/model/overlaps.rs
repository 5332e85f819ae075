//! Counts how often the 400 ms rule decides: the releases before the deadline that
//! end an overlap under its share of the whole. Under 400 ms M and O count as two
//! single keys, from 400 ms on as a chord.

use crate::log::judged_events;
use crate::model::{Event, Machine, Resting, SHORT_OVERLAP};
use crate::pairs::Lent;
use crate::tally::Tally;

/// M's releases in S4 and O's in S5, by the overlap in milliseconds.
pub const OVERLAPS: [&str; 8] = [
    "S4-up-to-398",
    "S4-399",
    "S4-400",
    "S4-401-on",
    "S5-up-to-398",
    "S5-399",
    "S5-400",
    "S5-401-on",
];

#[derive(Default)]
pub struct Overlaps(Tally<&'static str>);

impl Overlaps {
    /// Counts an event, if it ends an overlap that 400 ms decide upon.
    pub fn add(&mut self, lent: &Lent, machine: &Machine, event: Event) {
        if let Some(overlap) = machine.overlap_ended_by(lent, event) {
            let first = if matches!(machine.resting, Resting::S4 { .. }) { 0 } else { 4 };
            let place = (overlap + 2).saturating_sub(SHORT_OVERLAP).min(3) as usize;
            self.0.add(OVERLAPS[first + place]);
        }
    }

    /// Counts the events of a log. One that is refused ends no overlap.
    pub fn add_log(&mut self, log: &[u8]) {
        let (lent, judged) = judged_events(log);
        judged.iter().for_each(|(machine, event)| self.add(&lent, machine, *event));
    }

    pub fn print(&self) {
        println!("  overlaps that 400 ms decided upon{}", self.0.times());
    }

    /// An error if one of these never came up, where there was time enough.
    pub fn complete(&self, count: u64) -> Result<(), String> {
        self.0.complete(&OVERLAPS, count).map_err(|what| format!("of overlaps, {what}"))
    }
}
