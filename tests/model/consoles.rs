//! Makes console's logs for the tests (10/12): of several typists whose records come mixed,
//! each with settings of its own or refused somewhere; damaged ones; a fixed set damaged at
//! every place; and long ones.

use crate::console::{keyboard_record, CONSOLE_BUFFER};
use crate::generate::{
    odd_list, open, random_events, right_settings, starts, typed_log, wrong_settings, EVENT_LENGTH,
};
use crate::lists::{right_lent, wrong_lent};
use crate::log::{event_record, list_record, log_of, settings_record, split, HEADER};
use crate::model::{Event, LARGEST_STAMP};
use crate::notation;
use crate::pairs::{pair, Lent, NO_PAIRS};
use crate::random::Random;
use crate::row::MOST_KEYBOARDS;

/// A keyboard's record around an event's.
pub const KEYBOARD_EVENT_LENGTH: usize = HEADER + 1 + EVENT_LENGTH;

// ---- Random logs ----

/// One random log, every other one damaged.
pub fn random_console(random: &mut Random) -> Vec<u8> {
    let mut log = whole_console(random);
    for _ in 0..random.pick(&[0, 0, 1, 1, 1, 3]) {
        log = damaged_console(random, log);
    }
    log
}

/// A log whose records are whole; a keyboard's settings or events may be refused, and the
/// list in front.
fn whole_console(random: &mut Random) -> Vec<u8> {
    let list = match random.below(16) {
        0..=5 => vec![],
        6 => list_record(&wrong_lent(random).0),
        7 => {
            let list = list_record(&right_lent(random));
            odd_list(random, list)
        }
        _ => list_record(&right_lent(random)),
    };
    let lent = read_list(&list).unwrap_or(NO_PAIRS.clone());
    let count = random.pick(&[1, 2, 2, 3, 5, MOST_KEYBOARDS]);
    let mut boards: Vec<u8> = (0..MOST_KEYBOARDS as u8).collect();
    crate::lists::shuffle(random, &mut boards);
    let logs: Vec<_> = boards[..count].iter().map(|b| (*b, typist(random, &lent))).collect();
    [list, mixed(random, logs)].concat()
}

/// The list of a good record.
fn read_list(record: &[u8]) -> Option<Lent> {
    let (_, body) = split(record)?;
    crate::log::list(None, body).ok()
}

/// The records of one keyboard.
fn typist(random: &mut Random, lent: &Lent) -> Vec<Vec<u8>> {
    let raw = if random.once_in(12) { wrong_settings(random) } else { right_settings(random) };
    let count = random.pick(&[0, 5, 20, 40]);
    let (count, refusals) = (random.place(count + 1), random.once_in(4));
    let events = match open(raw) {
        Some(machine) => random_events(random, lent, machine, count, refusals),
        None => vec![Event { kind: 1, key: 21, stamp: 0 }; count.min(3)],
    };
    let (t, j, l, solo) = raw;
    let settings = std::iter::once(settings_record(t, j, l, solo));
    settings.chain(events.into_iter().map(event_record)).collect()
}

/// The records of all of them, each keyboard's in order.
fn mixed(random: &mut Random, logs: Vec<(u8, Vec<Vec<u8>>)>) -> Vec<u8> {
    let mut rest: Vec<_> = logs.into_iter().map(|(b, log)| (b, log.into_iter())).collect();
    let mut mixed = vec![];
    while !rest.is_empty() {
        let place = random.place(rest.len());
        // Now and then one types a few in a row.
        for _ in 0..random.pick(&[1, 1, 1, 4]) {
            let (board, records) = &mut rest[place];
            match records.next() {
                Some(record) => mixed.extend(keyboard_record(*board, &record)),
                None => {
                    rest.swap_remove(place);
                    break;
                }
            }
        }
    }
    mixed
}

/// A log with one damage at a random place.
fn damaged_console(random: &mut Random, mut log: Vec<u8>) -> Vec<u8> {
    if log.is_empty() {
        return random.pick(&[&[4][..], &[4, 0, 0], &[3, 0, 3, 0, 50, 50], &[0]]).to_vec();
    }
    let starts = starts(&log);
    let record = random.pick(&starts);
    let place = random.place(log.len());
    let board = random.pick(&[0, 1, 5, 15, 15, 16, 17, 255]);
    let inside = (record + HEADER).min(log.len() - 1);
    match random.below(20) {
        0..=2 => log[place] = log[place].wrapping_add(random.between(1, 255) as u8),
        3 => log[place] ^= random.pick(&[1, 2, 4, 8, 16, 32, 64, 128]),
        4 | 5 => {
            let place = (record + random.place(HEADER)).min(log.len() - 1);
            log[place] = random.pick(&[0, 1, 2, 3, 4, 5, 8, 9, 10, 13, 14, 15, 255]);
        }
        6 | 7 => log[inside] = board,
        8..=10 => {
            let place = (inside + 1 + random.place(HEADER)).min(log.len() - 1);
            log[place] = random.pick(&[0, 1, 2, 3, 4, 5, 6, 9, 10, 11, 255]);
        }
        11 => log.truncate(place),
        12 => drop(log.remove(place)),
        13 => log.insert(place, random.byte()),
        14 => log.extend((0..random.between(1, 20)).map(|_| random.pick(&[0, 1, 2, 4, 14]))),
        15 => insert(&mut log, random.pick(&[0, record]), &list_record(&right_lent(random))),
        _ => {
            let odd = odd_records(board);
            insert(&mut log, record, &odd[random.place(odd.len())]);
        }
    }
    log
}

/// Records that are not as they should be, of a keyboard or of none.
fn odd_records(board: u8) -> Vec<Vec<u8>> {
    let settings = settings_record(100, 50, 50, 1);
    let event = event_record(Event { kind: 1, key: 21, stamp: 0 });
    let far = event_record(Event { kind: 1, key: 21, stamp: LARGEST_STAMP });
    let list = list_record(&Lent::new(&[pair(21, 24, 0x304c)], 100, 50));
    let of = |inner: &[u8]| keyboard_record(board, inner);
    vec![
        settings.clone(),
        event.clone(),
        list.clone(),
        vec![4, 0, 0],
        of(&[]),
        of(&[1]),
        of(&[2, 0]),
        of(&[2, 0, 0]),
        of(&[2, 0, 10]),
        of(&settings),
        of(&event),
        of(&far),
        of(&list),
        of(&event[..EVENT_LENGTH - 1]),
        of(&[&event[..], &[0]].concat()),
        of(&[&settings[..], &event].concat()),
        of(&of(&event)),
        vec![5, 0, 0],
        vec![0],
    ]
}

fn insert(log: &mut Vec<u8>, place: usize, bytes: &[u8]) {
    log.splice(place..place, bytes.iter().copied());
}

// ---- Damage at every place ----

/// Keyboards and their keystrokes, mixed by the order in which they stand here. Stamps of
/// different keyboards have nothing to do with each other.
const BASES: [(Option<Pairs>, &[(u8, &str)]); 3] = [
    (
        None,
        &[
            (0, "24@0 24up@60"),
            (15, "R@900000 21@900040"),
            (0, "18@100 18up@150 21@200"),
            (15, "Rup@900060 tick@900080 L@900100"),
            (0, "R@230 21up@270 Rup@280 18@300 tick@400"),
            (15, "F@900120"),
        ],
    ),
    (
        Some((21, 24, 0x304b, 60, 40)),
        &[
            (7, "21@0 24@30"),
            (3, "21@1000 24@1030 21up@1050"),
            (7, "21up@50 24up@65"),
            (8, "21@5"),
            (3, "24up@1065 10@1070"),
        ],
    ),
    (Some((5, 6, 0x20, 50, 1)), &[(1, "0@7 1@8"), (0, "0@3 1@4"), (1, "2@9"), (0, "5@5 6@9")]),
];

/// A pair with its character, T_s and N.
type Pairs = (u8, u8, u16, u16, u8);

/// The settings of each keyboard are its own: solo in every other.
fn base_logs() -> impl Iterator<Item = Vec<u8>> {
    BASES.iter().map(|(pairs, lines)| {
        let list = pairs.map(|(a, b, c, ts, n)| list_record(&Lent::new(&[pair(a, b, c)], ts, n)));
        let mut log = list.unwrap_or_default();
        let mut opened = vec![];
        for (board, text) in *lines {
            if !opened.contains(board) {
                opened.push(*board);
                let settings = settings_record(100 - u16::from(*board), 50, 50, board % 2);
                log.extend(keyboard_record(*board, &settings));
            }
            for event in notation::events(text).unwrap_or_default() {
                log.extend(keyboard_record(*board, &event_record(event)));
            }
        }
        log
    })
}

/// What is put into every byte.
const VALUES: [u8; 12] = [0, 1, 2, 3, 4, 5, 9, 13, 14, 15, 16, 255];

/// Hands over every log of the fixed set; stops at the first error.
pub fn every_console<E>(mut visit: impl FnMut(&[u8]) -> Result<(), E>) -> Result<(), E> {
    visit(&[])?;
    for log in base_logs() {
        (1..=log.len()).try_for_each(|cut| visit(&log[..cut]))?;
        for place in 0..log.len() {
            let byte = log[place];
            let beside = [byte.wrapping_add(1), byte.wrapping_sub(1), byte ^ 128];
            for value in VALUES.into_iter().chain(beside).filter(|value| *value != byte) {
                let mut log = log.clone();
                log[place] = value;
                visit(&log)?;
            }
        }
        for start in starts(&log).into_iter().chain([log.len()]) {
            for odd in [0, 7, 15, 16].into_iter().flat_map(odd_records) {
                let mut log = log.clone();
                insert(&mut log, start, &odd);
                visit(&log)?;
            }
        }
    }
    Ok(())
}

// ---- Long logs ----

/// Logs around the end of the program's buffer: one that just fills it, one cut there, one
/// that is a byte longer, one that is much longer, and one of many words.
pub fn long_consoles(random: &mut Random) -> Vec<Vec<u8>> {
    // Seven settings and then events fill the buffer to its last byte.
    let settings = 7 * (HEADER + 1 + 8);
    let events = (CONSOLE_BUFFER - settings) / KEYBOARD_EVENT_LENGTH;
    let raw = (100, 50, 50, 1);
    let logs = (0..7).map(|board| {
        let count = events / 7 + usize::from(board < events % 7);
        let typed = typed_log(random, raw, log_of(raw, &[]).len() + count * EVENT_LENGTH);
        (2 * board as u8, records(&typed))
    });
    let logs = logs.collect();
    let full = mixed(random, logs);
    let longer = [&full[..], &[4]].concat();
    let mut cut = full.clone();
    cut[CONSOLE_BUFFER - KEYBOARD_EVENT_LENGTH + 2] += 1;
    let much = [&full[..], &full].concat();
    vec![full[..CONSOLE_BUFFER - 1].to_vec(), full, longer, cut, much, marks()]
}

/// The thumbs by turns, with solo: each event but the first gives a mark, and the log fills
/// the buffer as far as whole records do.
fn marks() -> Vec<u8> {
    let settings = keyboard_record(15, &settings_record(100, 50, 50, 1));
    let events = (CONSOLE_BUFFER - settings.len()) / KEYBOARD_EVENT_LENGTH;
    let presses = (0..events as u64).map(|stamp| Event { kind: 3, key: stamp as u8 % 2, stamp });
    let records = presses.flat_map(|press| keyboard_record(15, &event_record(press)));
    settings.iter().copied().chain(records).collect()
}

/// The records of an undamaged log of 01.
fn records(log: &[u8]) -> Vec<Vec<u8>> {
    let starts = starts(log);
    let ends = starts[1..].iter().copied().chain([log.len()]);
    starts.iter().copied().zip(ends).map(|(start, end)| log[start..end].to_vec()).collect()
}
