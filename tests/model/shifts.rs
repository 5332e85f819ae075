//! Makes shifts for the tests of 11/12: long logs that are accepted to their end, of every
//! kind of stroke near every deadline, repeats of held keys among them, with settings of all
//! kinds; typed ones; and drills. And short logs with and without a list, damaged too.

use crate::drill::{characters, write_drill};
use crate::generate::{
    next_event, open, random_case, right_settings, typed_log, typed_log_with, Hands,
};
use crate::lists::right_lent;
use crate::log::{list_record, log_with, split, RawSettings, HEADER, SETTINGS_LENGTH, TAG_LIST};
use crate::model::{step_with, Event};
use crate::pairs::{Lent, NO_PAIRS};
use crate::random::Random;

/// From one event to the next; so the stamps of a shift never come near the largest.
const LONGEST_GAP: u64 = 200_000;

/// A shift of about so many events, now and then with a list of no pairs.
pub fn random_shift(random: &mut Random, count: usize) -> Vec<u8> {
    let raw = right_settings(random);
    let empty = random.once_in(4).then(|| Lent { pairs: vec![], ..right_lent(random) });
    match random.below(4) {
        0 => typed_log(random, raw, 13 * count),
        1 => drilled(random, raw, count),
        _ => log_with(raw, empty.as_ref(), &strokes(random, raw, count)),
    }
}

/// Events near every deadline, by hands that change after a while.
fn strokes(random: &mut Random, raw: RawSettings, count: usize) -> Vec<Event> {
    let Some(mut machine) = open(raw) else { return vec![] };
    let mut events = Vec::with_capacity(count);
    let mut hands = Hands::random(random, &NO_PAIRS);
    while events.len() < count {
        if random.once_in(100) {
            hands = Hands::random(random, &NO_PAIRS);
        }
        let event = next_event(random, &NO_PAIRS, &machine, &hands, false);
        if event.stamp - machine.last > LONGEST_GAP {
            continue;
        }
        if let Ok(step) = step_with(&NO_PAIRS, &machine, event) {
            machine = step.machine;
            events.push(event);
        }
    }
    events
}

/// The log of a line of any characters, doubled ones among them.
fn drilled(random: &mut Random, raw: RawSettings, count: usize) -> Vec<u8> {
    let all = characters();
    let mut line: Vec<u16> = (0..count / 3).map(|_| random.pick(&all)).collect();
    for place in 1..line.len() {
        if random.once_in(5) {
            line[place] = line[place - 1];
        }
    }
    write_drill(raw, &line, 8 + 65 * line.len()).1
}

/// Any log for a second opinion: the reader's cases, most of them short, with lists and
/// damaged, where most lists are taken out again or have no pairs left; and typed ones with
/// a list of pairs.
pub fn random_opined(random: &mut Random) -> Vec<u8> {
    if random.once_in(40) {
        let raw = right_settings(random);
        let pairs = random.place(65);
        return typed_log_with(random, raw, pairs, 1_000);
    }
    let mut log = random_case(random).log;
    let second = log.get(SETTINGS_LENGTH..).and_then(split);
    if let Some((TAG_LIST, body)) = second.filter(|_| !random.once_in(4)) {
        let record = HEADER + body.len();
        let none = list_record(&Lent { pairs: vec![], ..right_lent(random) });
        let list = if random.once_in(2) { none } else { vec![] };
        log.splice(SETTINGS_LENGTH..SETTINGS_LENGTH + record, list);
    }
    log
}
