//! Counts what events are by the keys that are held (7/12): presses of new keys, ones
//! of a seventh key with the number that each is refused with, repeats, ups, and ups of
//! keys that are not held.

use crate::log::judged_events;
use crate::model::{step_with, Event, Machine, Resting::S8, MOST_HELD};
use crate::pairs::Lent;
use crate::tally::Tally;

pub const HOLDING: [&str; 10] = [
    "press",
    "seventh-refused-11",
    "seventh-refused-5",
    "seventh-refused-4",
    "seventh-refused-3",
    "repeat",
    "repeat-while-six",
    "up",
    "up-alone",
    "function-while-held",
];
/// Only in a state that no sequence from a fresh one leads to.
pub const UP_OF_M_ALONE: &str = "up-of-M-alone";

#[derive(Default)]
pub struct Holding(Tally<&'static str>);

impl Holding {
    /// Counts an event, if the held keys have to do with it.
    pub fn add(&mut self, lent: &Lent, machine: &Machine, event: Event) {
        let number = step_with(lent, machine, event).err().unwrap_or(0);
        let (held, many) = (machine.held.has(event.key), machine.held.count() == MOST_HELD);
        let what = match (event.kind, number) {
            (1, 0) if held && many => "repeat-while-six",
            (1, 0) if held => "repeat",
            (1, 0) => "press",
            (1, 11) => "seventh-refused-11",
            (1, 5) if many && !held => "seventh-refused-5",
            (1, 4) if many && !held => "seventh-refused-4",
            (1, 3) if many => "seventh-refused-3",
            (2, 0) if held => "up",
            (2, 0) if machine.waits(event.key) && !matches!(machine.resting, S8 { .. }) => {
                UP_OF_M_ALONE
            }
            (2, 0) => "up-alone",
            (5, 0) if machine.held.count() > 0 => "function-while-held",
            _ => return,
        };
        self.0.add(what);
    }

    /// Counts the accepted events of a log, and the one that is refused.
    pub fn add_log(&mut self, log: &[u8]) {
        let (lent, judged) = judged_events(log);
        judged.iter().for_each(|(machine, event)| self.add(&lent, machine, *event));
    }

    pub fn print(&self) {
        println!("  by the keys that are held{}", self.0.times());
    }

    /// An error if one of these never came up, where there was time enough.
    pub fn complete(&self, what: &[&'static str], count: u64) -> Result<(), String> {
        self.0.complete(what, count).map_err(|what| format!("of held keys, {what}"))
    }
}
