//! Damages logs for the tests of 12/12, in every way there is: bytes changed, lost and put
//! in, lengths that swallow good records, runs of bad records, more than 1,000 that are
//! dropped, lists that are bad, cut or out of their place, and cut tails.

use crate::generate::{
    base_logs, every_place, open, random_events, right_settings, starts, typed_log, EVENT_LENGTH,
};
use crate::lists::{right_lent, wrong_lent};
use crate::log::{event_record, list_record, log_with, settings_record, HEADER, SETTINGS_LENGTH};
use crate::mend::MOST_LISTED;
use crate::model::{Event, LARGEST_STAMP};
use crate::notation;
use crate::pairs::NO_PAIRS;
use crate::random::Random;

/// A log to mend and the length of the run that it is mended into.
pub struct Mend {
    pub log: Vec<u8>,
    pub room: usize,
}

// ---- Random ones ----

/// A log with a few damages, with many, or with none.
pub fn random_damaged(random: &mut Random) -> Vec<u8> {
    let mut log = good_log(random);
    for _ in 0..random.pick(&[0, 1, 1, 1, 2, 3, 5, 12]) {
        damage(random, &mut log);
    }
    log
}

/// A log that the reader accepts.
fn good_log(random: &mut Random) -> Vec<u8> {
    let raw = right_settings(random);
    if random.once_in(200) {
        return typed_log(random, raw, 20_000);
    }
    let list = random.once_in(2).then(|| right_lent(random));
    let lent = list.as_ref().unwrap_or(&NO_PAIRS);
    let count = random.pick(&[0, 1, 3, 10, 30, 60]);
    let count = random.place(count + 1);
    let events = open(raw).map(|machine| random_events(random, lent, machine, count, false));
    log_with(raw, list.as_ref(), &events.unwrap_or_default())
}

/// One damage at a random place, of a log that may be damaged already.
fn damage(random: &mut Random, log: &mut Vec<u8>) {
    if log.is_empty() {
        return log.push(random.pick(&[0, 1, 2, 3]));
    }
    let starts = starts(log);
    let start = random.pick(&starts);
    // The settings are mostly let be, as all is refused without them.
    let start = match start == 0 && !random.once_in(8) {
        true => random.pick(&starts),
        false => start,
    };
    let place = match random.once_in(12) {
        true => random.place(log.len()),
        false => SETTINGS_LENGTH.min(log.len() - 1).max(random.place(log.len())),
    };
    let within = |place: usize| place.min(log.len() - 1);
    match random.below(20) {
        0 | 1 => log[place] = random.byte(),
        2 => log[place] ^= random.pick(&[1, 2, 4, 8, 16, 32, 64, 128]),
        3 => log[start] = random.pick(&[0, 1, 2, 3, 4, 255]),
        // A length that swallows what follows, a little or far past the end.
        4 | 5 => {
            let place = within(start + 2);
            log[place] = random.pick(&[0, 5, 9, 11, 12, 13, 23, 26, 36, 100, 255]);
        }
        6 => {
            let place = within(start + 1);
            log[place] = random.pick(&[1, 2, 255]);
        }
        7 => log.truncate(place),
        8 => drop(log.remove(place)),
        9 => log.insert(place, random.byte()),
        10 => {
            let end = (place + random.place(40)).min(log.len());
            drop(log.drain(place..end));
        }
        11 => {
            // A part of the log once more, as a cable fault sends it.
            let end = (start + random.place(60)).min(log.len());
            let again = log[start..end].to_vec();
            insert(log, start, &again);
        }
        12 => {
            let far = random.pick(&[LARGEST_STAMP, LARGEST_STAMP - 1, 5_000_000]);
            insert(log, start, &event_record(Event { kind: 6, key: 0, stamp: far }));
        }
        13 => log.extend((0..random.between(1, 20)).map(|_| random.pick(&[0, 1, 2, 3, 10]))),
        14 => {
            let list = any_list(random);
            let place = random.pick(&[start, SETTINGS_LENGTH.min(log.len())]);
            insert(log, place, &list);
        }
        15 => {
            // Between the settings and a list or an event.
            let bad = bad_record(random);
            insert(log, SETTINGS_LENGTH.min(log.len()), &bad);
        }
        _ => {
            let run = bad_run(random);
            insert(log, start, &run);
        }
    }
}

fn insert(log: &mut Vec<u8>, place: usize, bytes: &[u8]) {
    log.splice(place..place, bytes.iter().copied());
}

/// A list's record, good, bad, of a wrong length or cut.
fn any_list(random: &mut Random) -> Vec<u8> {
    let good = list_record(&right_lent(random));
    match random.below(4) {
        0 => good,
        1 => list_record(&wrong_lent(random).0),
        2 => crate::generate::odd_list(random, good),
        _ => good[..random.between(1, good.len() as u64) as usize].to_vec(),
    }
}

/// A whole record that is refused wherever it stands but first.
fn bad_record(random: &mut Random) -> Vec<u8> {
    let length = random.pick(&[0, 0, 1, 5, 10, 13, 40]);
    let body = random.bytes(length);
    let forbidden = Event { kind: random.pick(&[0, 7, 255]), key: 0, stamp: LARGEST_STAMP };
    let beyond = Event { kind: 1, key: 21, stamp: LARGEST_STAMP + 1 + random.below(9) };
    match random.below(6) {
        0 => event_record(forbidden),
        1 => event_record(beyond),
        2 => settings_record(100, 50, 50, 1),
        3 => [&[2, 0, length as u8 + 11][..], &body, &[0; 11]].concat(),
        4 => [&[random.pick(&[0, 4, 9, 255]), 0, length as u8][..], &body].concat(),
        // Good records inside one that is bad.
        _ => {
            let inside = event_record(Event { kind: 6, key: 0, stamp: 0 }).repeat(3);
            [&[9, 0, inside.len() as u8][..], &inside].concat()
        }
    }
}

/// Bad records one behind the other; now and then around 1,000 of them.
fn bad_run(random: &mut Random) -> Vec<u8> {
    let count = match random.once_in(40) {
        true => MOST_LISTED + random.pick(&[0, 1, 2, 9, 500]) - random.pick(&[0, 1, 3]),
        false => random.pick(&[1, 2, 3, 10, 40]),
    };
    let one = bad_record(random);
    match random.once_in(2) || count > 100 {
        // Of the shortest there are.
        true => [random.pick(&[0, 9, 2, 1]), 0, 0].repeat(count),
        false if random.once_in(2) => one.repeat(count),
        false => (0..count).flat_map(|_| bad_record(random)).collect(),
    }
}

/// Rooms for what a log is mended to: just enough, one too short, none, more.
pub fn random_mend(random: &mut Random) -> Mend {
    let log = random_damaged(random);
    let need = crate::mend::mend(&log).map_or(0, |mended| mended.log.len());
    let room = match random.below(8) {
        0 => random.place(need + 1),
        1 => need.saturating_sub(1),
        2 => 0,
        3 => need,
        4 => log.len(),
        5 => need + 1,
        _ => log.len() + random.place(20),
    };
    Mend { log, room }
}

// ---- Damage at every place ----

/// Hands over every case of the fixed set; stops at the first error: the reader's, cut and
/// with every value in every byte, settings and lists everywhere, lists on every bound; and
/// runs of bad records before every record, with rooms on and beside what is needed.
pub fn every_damage<E>(mut visit: impl FnMut(Mend) -> Result<(), E>) -> Result<(), E> {
    every_place(|case| {
        let room = case.log.len();
        visit(Mend { log: case.log, room })
    })?;
    let mut random = Random::new(12);
    for log in base_logs() {
        for start in starts(&log).into_iter().chain([log.len()]) {
            for count in [1, 2, 17, MOST_LISTED - 1, MOST_LISTED, MOST_LISTED + 1, 2_500] {
                let mut log = log.clone();
                insert(&mut log, start, &[9, 0, 0].repeat(count));
                let room = log.len();
                visit(Mend { log, room })?;
            }
            for record in (0..8).map(|_| bad_record(&mut random)) {
                let mut log = log.clone();
                insert(&mut log, start, &record);
                every_room(&log, &mut visit)?;
            }
        }
        for (place, swallowed) in swallowing(&log) {
            let mut log = log.clone();
            log[place + 1..place + HEADER].copy_from_slice(&swallowed.to_be_bytes());
            every_room(&log, &mut visit)?;
        }
    }
    lists_behind(&mut visit)
}

/// The starts of records, and lengths for them that take in the next one, or more, whole or
/// in part, or go to the end and past it.
fn swallowing(log: &[u8]) -> Vec<(usize, u16)> {
    let end = log.len();
    let lengths = |start: usize| {
        let rest = end - start - HEADER;
        let more = (0..5).map(move |count| 10 + count * EVENT_LENGTH);
        let near = more.flat_map(|length| [length - 1, length, length + 1]);
        near.chain([rest - 1, rest, rest + 1, 65_535]).map(move |length| (start, length as u16))
    };
    starts(log).into_iter().flat_map(lengths).collect()
}

fn every_room<E>(log: &[u8], visit: &mut dyn FnMut(Mend) -> Result<(), E>) -> Result<(), E> {
    let need = crate::mend::mend(log).map_or(0, |mended| mended.log.len());
    for room in [0, need.saturating_sub(1), need, need + 1] {
        visit(Mend { log: log.to_vec(), room })?;
    }
    Ok(())
}

/// Lists second and third, good and bad and cut, behind settings and a dropped record.
fn lists_behind<E>(visit: &mut dyn FnMut(Mend) -> Result<(), E>) -> Result<(), E> {
    let settings = settings_record(100, 50, 50, 0);
    let good = list_record(&crate::states::usual_lent());
    let mut bad = good.clone();
    bad[5] = 0;
    let mut odd = good.clone();
    odd[2] -= 1;
    let dropped = [vec![], vec![9, 0, 0], vec![2, 0, 1, 7], [9, 0, 0].repeat(3), settings.clone()];
    let text = "21@0 24@30 21up@70 24up@75";
    let events: Vec<u8> =
        notation::events(text).unwrap_or_default().into_iter().flat_map(event_record).collect();
    for before in &dropped {
        for list in [&good, &bad, &odd] {
            for cut in 0..=list.len() {
                let log = [&settings[..], before, &list[..cut]].concat();
                every_room(&log, visit)?;
            }
            for behind in [&events[..], &good, &[&good[..], &events].concat()] {
                let log = [&settings[..], before, list, behind].concat();
                every_room(&log, visit)?;
            }
        }
    }
    Ok(())
}
