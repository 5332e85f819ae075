//! Counts what comes of two letters that wait, a pair of the lent list (9/12): how they
//! came together, and what ended or went on from that, by the rule that decided.

use crate::log::judged_events;
use crate::model::{step_with, Event, Item, Machine, Resting};
use crate::pairs::Lent;
use crate::tally::Tally;

pub const PAIRINGS: [&str; 19] = [
    "two-wait",
    "S7-late",
    "S7-M-up-pair",
    "S7-M-up-waits",
    "S7-K-up",
    "S7-function",
    "S7-letter-pair",
    "S7-letter-goes-on",
    "S7-letter-breaks-up",
    "S7-thumb-pair",
    "S7-thumb-goes-on",
    "S8-late",
    "S8-K-up-pair",
    "S8-K-up-both",
    "S8-function",
    "S8-letter-pair",
    "S8-letter-goes-on",
    "S8-thumb-pair",
    "equal-gaps",
];

#[derive(Default)]
pub struct Pairings(Tally<&'static str>);

impl Pairings {
    /// Counts an accepted event, if two letters wait before it or after it.
    pub fn add(&mut self, lent: &Lent, machine: &Machine, event: Event) {
        let Ok(step) = step_with(lent, machine, event) else { return };
        let late = machine.late_lines(lent, event.stamp) > 0;
        let together = matches!(step.items[..], [Item::Together { .. }]);
        let (released, [m, k, key, second]) = match machine.resting {
            Resting::S7 { key, m, second, k } => (false, [m, k, key.into(), second.into()]),
            Resting::S8 { key, m, second, k, .. } => (true, [m, k, key.into(), second.into()]),
            _ => {
                if step.machine.waiting().count() == 2 {
                    self.0.add("two-wait");
                }
                return;
            }
        };
        let own = u64::from(event.key);
        let pressed = matches!(event.kind, 1 | 3) && step.machine.resting != machine.resting;
        if pressed && !late && k - m == event.stamp - k {
            self.0.add("equal-gaps");
        }
        let two = step.machine.waiting().count() == 2;
        let what = match (event.kind, released) {
            (_, false) if late => "S7-late",
            (_, true) if late => "S8-late",
            (1, false) if pressed && together => "S7-letter-pair",
            (1, false) if pressed && two => "S7-letter-goes-on",
            (1, false) if pressed => "S7-letter-breaks-up",
            (1, true) if pressed && together => "S8-letter-pair",
            (1, true) if pressed => "S8-letter-goes-on",
            (2, false) if own == key && together => "S7-M-up-pair",
            (2, false) if own == key && two => "S7-M-up-waits",
            (2, false) if own == second && together => "S7-K-up",
            (2, true) if own == second && together => "S8-K-up-pair",
            (2, true) if own == second && !two => "S8-K-up-both",
            (3, false) if together => "S7-thumb-pair",
            (3, false) => "S7-thumb-goes-on",
            (3, true) if together => "S8-thumb-pair",
            (5, false) => "S7-function",
            (5, true) => "S8-function",
            _ => return,
        };
        self.0.add(what);
    }

    /// Counts the events of a log. One that is refused ends nothing.
    pub fn add_log(&mut self, log: &[u8]) {
        let (lent, judged) = judged_events(log);
        judged.iter().for_each(|(machine, event)| self.add(&lent, machine, *event));
    }

    pub fn print(&self) {
        println!("  of two letters{}", self.0.times());
    }

    /// An error if one of these never came up, where there was time enough.
    pub fn complete(&self, count: u64) -> Result<(), String> {
        self.0.complete(&PAIRINGS, count).map_err(|what| format!("of two letters, {what}"))
    }
}
