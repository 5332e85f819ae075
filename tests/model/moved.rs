//! Request 8/12: the same number k added to every stamp, of an event, of a log's events
//! or of a machine; and numbers to add to the stamps of a sequence.

use crate::live::{Flat, Wrong};
use crate::log::{event, event_record, split, HEADER, TAG_EVENT};
use crate::model::{Event, Machine, Resting, LARGEST_STAMP};
use crate::pairs::Lent;
use crate::random::Random;

// ---- What is moved ----

/// A stamp above the largest stays above it, so what has it is refused both times; also
/// where k does not fit any more, of which 8/12 says nothing.
pub fn moved_stamp(stamp: u64, k: u64) -> u64 {
    stamp.saturating_add(k)
}

/// A stamp that is at most the largest still is.
pub fn stays(stamp: u64, k: u64) -> bool {
    stamp > LARGEST_STAMP || moved_stamp(stamp, k) <= LARGEST_STAMP
}

pub fn moved_event(event: Event, k: u64) -> Event {
    Event { stamp: moved_stamp(event.stamp, k), ..event }
}

/// Every stamp of a machine, its last one too. (That of a fresh machine, 0, is no moment
/// of the clock but a bound which nothing is before: a machine that accepted no event is
/// not moved.)
pub fn moved_machine(machine: &Machine, k: u64) -> Machine {
    let resting = match machine.resting {
        Resting::S1 => Resting::S1,
        Resting::S2 { key, m } => Resting::S2 { key, m: m + k },
        Resting::S3 { thumb, o } => Resting::S3 { thumb, o: o + k },
        Resting::S4 { key, m, thumb, o } => Resting::S4 { key, m: m + k, thumb, o: o + k },
        Resting::S5 { thumb, o, key, m } => Resting::S5 { thumb, o: o + k, key, m: m + k },
        Resting::S6 { thumb, o, key, m, r } => {
            Resting::S6 { thumb, o: o + k, key, m: m + k, r: r + k }
        }
        Resting::S7 { key, m, second, k: later } => {
            Resting::S7 { key, m: m + k, second, k: later + k }
        }
        Resting::S8 { key, m, second, k: later, r } => {
            Resting::S8 { key, m: m + k, second, k: later + k, r: r + k }
        }
    };
    Machine { resting, last: machine.last + k, ..*machine }
}

/// The same as numbers; those that name no machine, or one that is not well formed with
/// this list lent, stay as they are.
pub fn moved_flat(lent: &Lent, flat: &Flat, k: u64) -> Flat {
    match flat.machine_with(lent, Wrong::default()) {
        Ok(machine) => Flat::of(flat.raw_settings(), &moved_machine(&machine, k)),
        Err(_) => *flat,
    }
}

/// Every event record of a log, behind a refused one too. What is no event, and what is
/// cut at the end, stays as it is.
pub fn moved_log(log: &[u8], k: u64) -> Vec<u8> {
    let (records, cut) = records(log);
    let moved = records.into_iter().flat_map(|record| match event_of(record) {
        Some(event) => event_record(moved_event(event, k)),
        None => record.to_vec(),
    });
    moved.chain(cut.iter().copied()).collect()
}

/// The stamps that are moved with a log.
pub fn log_stamps(log: &[u8]) -> Vec<u64> {
    let (records, _) = records(log);
    records.into_iter().filter_map(event_of).map(|event| event.stamp).collect()
}

/// The records of a log, each by its stated length, and what is cut at the end.
fn records(log: &[u8]) -> (Vec<&[u8]>, &[u8]) {
    let (mut records, mut rest) = (vec![], log);
    while let Some((_, body)) = split(rest) {
        let (record, more) = rest.split_at(HEADER + body.len());
        records.push(record);
        rest = more;
    }
    (records, rest)
}

/// The event of a record; none if it is no event.
fn event_of(record: &[u8]) -> Option<Event> {
    let (tag, body) = split(record)?;
    event(body).ok().filter(|_| tag == TAG_EVENT)
}

// ---- Numbers to add ----

/// By one; by any number; so that the latest stamp becomes the largest; and so that a
/// stamp comes to a place where a clock of fewer bits would begin anew.
pub const MOVES: [&str; 4] = ["by-1", "by-any", "to-the-largest", "over-a-turn"];

const TURNS: [u64; 5] = [1 << 16, 1 << 31, 1 << 32, 1 << 32, 1 << 39];

/// Which of these, and the number.
pub type Move = (&'static str, u64);

/// Numbers above 0 with which each of the stamps that is at most the largest stays so;
/// none if there is no such number, or no such stamp.
pub fn moves(random: &mut Random, stamps: &[u64]) -> Vec<Move> {
    let stamps: Vec<u64> = stamps.iter().copied().filter(|s| *s <= LARGEST_STAMP).collect();
    let Some(latest) = stamps.iter().max() else { return vec![] };
    let most = LARGEST_STAMP - latest;
    let turn = over_a_turn(random, &stamps).unwrap_or(0);
    let numbers = [1, random.between(1, most), most, turn];
    MOVES.into_iter().zip(numbers).filter(|(_, k)| (1..=most).contains(k)).collect()
}

/// One of them.
pub fn one_move(random: &mut Random, stamps: &[u64]) -> Option<Move> {
    let moves = moves(random, stamps);
    moves.get(random.place(moves.len())).copied()
}

/// One of the stamps comes to a turn or little behind it; none if it is past it already.
fn over_a_turn(random: &mut Random, stamps: &[u64]) -> Option<u64> {
    let little = random.below(100);
    let place = random.pick(&TURNS) + random.pick(&[0, 0, 1, little]);
    place.checked_sub(random.pick(stamps))
}
