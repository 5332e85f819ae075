//! Makes logs for the tests: random ones that crowd around the places where a
//! rule turns, a fixed set damaged at every place, long typed ones, and typing
//! without end.

use crate::lists::{boundary_lists, right_lent, typed_lent, wrong_lent};
use crate::log::{
    event_record, list_record, log_of, log_with, read_log, settings_record, split, RawSettings,
    HEADER, SETTINGS_LENGTH,
};
use crate::model::{
    step_with, Event, Machine, Resting, Settings, Thumb, KEYS, LARGEST_STAMP, LEAST_T, MOST_HELD,
    MOST_T, SHORT_OVERLAP,
};
use crate::notation;
use crate::pairs::{pair, Lent, Pair, NO_PAIRS};
use crate::random::Random;

pub const EVENT_LENGTH: usize = 13;

/// A log and the length of the byte run that it is read into.
pub struct Case {
    pub log: Vec<u8>,
    pub room: usize,
}

// ---- Random cases ----

/// One random case; the same random numbers give the same case.
pub fn random_case(random: &mut Random) -> Case {
    let log = match random.below(64) {
        0 => noise(random),
        1..=16 => {
            let log = random_log(random);
            damaged(random, log)
        }
        _ => random_log(random),
    };
    let room = random_room(random, &log);
    Case { log, room }
}

/// A log whose records are whole; its settings or events may be refused.
fn random_log(random: &mut Random) -> Vec<u8> {
    let raw = if random.once_in(24) { wrong_settings(random) } else { right_settings(random) };
    let count = random_count(random);
    let refusals = random.once_in(4);
    let list = match random.below(24) {
        0..=9 => None,
        10 => Some(wrong_lent(random).0),
        _ => Some(right_lent(random)),
    };
    let lent = list.as_ref().filter(|list| list.good(None)).unwrap_or(&NO_PAIRS);
    // After refused settings there is no machine; any will do to go on with.
    let events = match open(raw) {
        Some(machine) => random_events(random, lent, machine, count, refusals),
        None => vec![Event { kind: 1, key: 21, stamp: 0 }; count.min(3)],
    };
    log_with(raw, list.as_ref(), &events)
}

/// A fresh machine, if the settings are in range.
pub fn open((t, j, l, solo): RawSettings) -> Option<Machine> {
    Settings::new(t.into(), j.into(), l.into(), solo.into()).map(Machine::fresh)
}

/// Mostly short; now and then beyond the program's buffer.
fn random_count(random: &mut Random) -> usize {
    match random.below(5_000) {
        0 => random.between(5_000, 5_080) as usize,
        1..=100 => 0,
        101..=800 => random.place(5),
        801..=4_600 => random.place(30),
        _ => random.place(150),
    }
}

/// Settings in range, boundaries often among them.
pub fn right_settings(random: &mut Random) -> RawSettings {
    let t = match random.below(4) {
        0 => random.between(LEAST_T, MOST_T) as u16,
        _ => random.pick(&[50, 51, 100, 100, 200, 201, 400, 401, 500, 999, 1_000, 1_000]),
    };
    (t, percent(random), percent(random), random.pick(&[0, 1]))
}

pub fn percent(random: &mut Random) -> u8 {
    match random.below(4) {
        0 => random.between(1, 99) as u8,
        _ => random.pick(&[1, 2, 33, 50, 50, 60, 70, 98, 99]),
    }
}

/// Settings with at least one number out of range.
pub fn wrong_settings(random: &mut Random) -> RawSettings {
    let (t, j, l, solo) = right_settings(random);
    let percent = random.pick(&[0, 100, 255]);
    match random.below(4) {
        0 => (random.pick(&[0, 49, 1_001, 1_002, 1_074, 12_800, 65_535]), j, l, solo),
        1 => (t, percent, l, solo),
        2 => (t, j, percent, solo),
        _ => (t, j, l, random.pick(&[2, 3, 255])),
    }
}

/// Events one after the other, each made with the machine that the ones before
/// it left, so that stamps can be chosen around its deadline.
pub fn random_events(
    random: &mut Random,
    lent: &Lent,
    mut machine: Machine,
    count: usize,
    refusals: bool,
) -> Vec<Event> {
    let hands = Hands::random(random, lent);
    let mut events = Vec::with_capacity(count);
    for _ in 0..count {
        let event = next_event(random, lent, &machine, &hands, refusals);
        if let Ok(step) = step_with(lent, &machine, event) {
            machine = step.machine;
        }
        events.push(event);
    }
    events
}

/// Whose hands are on the keys: which keys they mostly press, and how many more than
/// the one that waits they hold before they let go of one.
pub struct Hands {
    keys: Vec<u8>,
    fingers: usize,
}

impl Hands {
    /// Few keys, so that they are often pressed again; or many, as where a keyboard
    /// ghosts, and more fingers than may be held. Where there are pairs, mostly keys of
    /// some of them.
    pub fn random(random: &mut Random, lent: &Lent) -> Hands {
        let (keys, fingers) = random.pick(&[(3, 0), (3, 1), (3, 2), (9, 7)]);
        let mut keys: Vec<u8> = (0..keys).map(|_| random.below(KEYS.into()) as u8).collect();
        for places in keys.chunks_mut(2).filter(|_| !lent.pairs.is_empty()) {
            let Pair { first, second, .. } = random.pick(&lent.pairs);
            if !random.once_in(6) {
                places.iter_mut().zip([first, second]).for_each(|(place, key)| *place = key);
            }
        }
        Hands { keys, fingers }
    }

    fn ghosts(&self) -> bool {
        self.fingers > MOST_HELD as usize
    }
}

/// An event for the machine: one that it accepts or, if asked for and only now and
/// then, one that it refuses.
pub fn next_event(
    random: &mut Random,
    lent: &Lent,
    machine: &Machine,
    hands: &Hands,
    refusals: bool,
) -> Event {
    let full = machine.held.count() == MOST_HELD;
    // Ghosts are to come as far as a seventh key.
    let rare = if full { 3 } else { 10 + 30 * u64::from(hands.ghosts()) };
    if refusals && random.once_in(rare) {
        refused_event(random, lent, machine)
    } else {
        accepted_event(random, lent, machine, hands)
    }
}

/// Character keys, both thumbs, the function key and ticks.
fn accepted_event(random: &mut Random, lent: &Lent, machine: &Machine, hands: &Hands) -> Event {
    if random.once_in(4) {
        if let Some(event) = turning_event(random, lent, machine, hands) {
            return event;
        }
    }
    if !lent.pairs.is_empty() && !random.once_in(3) {
        if let Some(event) = pair_event(random, lent, machine, hands) {
            return event;
        }
    }
    if let Some(event) = held_event(random, lent, machine, hands) {
        return event;
    }
    let thumb = random.pick(&[0, 1]);
    let (kind, key) = match random.below(20) {
        0..=5 => (1, pressed(random, machine, hands)),
        6..=9 => {
            let waiting: Vec<u8> = machine.waiting().collect();
            let other = waiting.is_empty() || random.once_in(4);
            (2, if other { any(random, hands) } else { random.pick(&waiting) })
        }
        10..=14 => (3, thumb),
        15..=16 => (4, thumb),
        17 => (5, 0),
        _ => (6, 0),
    };
    Event { kind, key, stamp: next_stamp(random, lent, machine) }
}

/// While a letter waits that is in some pair: another letter of it, soon or just before
/// the deadline. While two wait: a third key or a release, at or beside the stamp where
/// its rule turns: equal gaps, where the overlap has its share of the whole (by N, L or
/// both), and T_s.
fn pair_event(random: &mut Random, lent: &Lent, machine: &Machine, hands: &Hands) -> Option<Event> {
    let last = machine.last;
    let up_to = |share: u64, percent: u64| (100 * share).div_ceil(percent.max(1));
    let (_, _, l, _) = machine.settings.numbers();
    let (kind, key, stamp) = match machine.resting {
        Resting::S2 { key, m } => {
            let soon = last + random.between(1, 60);
            let late = due(lent, machine)?.saturating_sub(random.between(1, 40));
            let equal = last + (last - m);
            let partner = partner(random, lent, machine, key)?;
            (1, partner, random.pick(&[last, soon, soon, late, equal]))
        }
        Resting::S7 { key, m, second, k } => {
            let (n, gap) = (u64::from(lent.n), k - m);
            let share = k + (n * gap).div_ceil(100 - n);
            let soon = k + random.below(gap.max(1));
            match random.below(8) {
                0 | 1 => third(random, lent, machine, hands, second, k + gap)?,
                2 => (3, random.pick(&[0, 1]), k + gap),
                3 => (2, second, random.pick(&[share, k + u64::from(lent.ts), soon])),
                _ => (2, key, random.pick(&[share, soon, soon, k + u64::from(lent.ts)])),
            }
        }
        Resting::S8 { m, second, k, r, .. } => {
            let by_l = k + up_to(r - k, l.into());
            let by_n = k + up_to(r - k, lent.n.into());
            let equal = random.pick(&[k + (k - m), last]);
            match random.below(10) {
                0 | 1 => third(random, lent, machine, hands, second, equal)?,
                2 => (3, random.pick(&[0, 1]), equal),
                3 => (5, 0, last),
                _ => (2, second, random.pick(&[by_l, by_l, by_n, r])),
            }
        }
        _ => return None,
    };
    Some(Event { kind, key, stamp: beside(random, machine, stamp) })
}

/// A third letter that is a pair with the second, or any new one.
fn third(
    random: &mut Random,
    lent: &Lent,
    machine: &Machine,
    hands: &Hands,
    second: u8,
    stamp: u64,
) -> Option<(u8, u8, u64)> {
    let partner = partner(random, lent, machine, second).filter(|_| random.once_in(2));
    Some((1, partner.or_else(|| new_key(random, machine, hands))?, stamp))
}

/// A key that is a pair with this one and may be pressed.
fn partner(random: &mut Random, lent: &Lent, machine: &Machine, key: u8) -> Option<u8> {
    let pairs = lent.pairs.iter().filter(|pair| pair.has(key));
    let others = pairs.map(|pair| if pair.first == key { pair.second } else { pair.first });
    let others: Vec<u8> = others.filter(|other| !machine.held.has(*other)).collect();
    let may = machine.held.count() < MOST_HELD && !others.is_empty();
    may.then(|| random.pick(&others))
}

/// What comes of keys that are held besides the one that waits: one of them goes up,
/// where the hands hold no more; or further ones go down with the last, as ghosts do.
fn held_event(random: &mut Random, lent: &Lent, machine: &Machine, hands: &Hands) -> Option<Event> {
    let besides: Vec<u8> = machine.held.keys().filter(|key| !machine.waits(*key)).collect();
    if besides.len() > hands.fingers && random.once_in(2) {
        let stamp = next_stamp(random, lent, machine);
        return Some(Event { kind: 2, key: random.pick(&besides), stamp });
    }
    let ghosts = hands.ghosts() && machine.held.count() > 0 && random.once_in(3);
    let key = new_key(random, machine, hands).filter(|_| ghosts)?;
    Some(Event { kind: 1, key, stamp: machine.last })
}

/// One of the hands' keys, or any other.
fn any(random: &mut Random, hands: &Hands) -> u8 {
    let other = random.below(KEYS.into()) as u8;
    if random.once_in(8) {
        other
    } else {
        random.pick(&hands.keys)
    }
}

/// A key that is not held; none if so many are held that it would be refused.
fn new_key(random: &mut Random, machine: &Machine, hands: &Hands) -> Option<u8> {
    let (key, other) = (any(random, hands), free_key(random, machine));
    let new = if machine.held.has(key) { other } else { key };
    (machine.held.count() < MOST_HELD).then_some(new)
}

/// Any key that is not held; at most 6 of 31 are.
fn free_key(random: &mut Random, machine: &Machine) -> u8 {
    let free: Vec<u8> = (0..KEYS).filter(|key| !machine.held.has(*key)).collect();
    random.pick(&free)
}

/// A key to press: a new one or, now and then and where no new one may come, one that
/// is held already, which is a repeat.
fn pressed(random: &mut Random, machine: &Machine, hands: &Hands) -> u8 {
    let held: Vec<u8> = machine.held.keys().collect();
    match new_key(random, machine, hands) {
        Some(new) if held.is_empty() || !random.once_in(5) => new,
        _ => random.pick(&held),
    }
}

/// An event at or beside the stamp where its own rule turns: equal gaps in S4
/// and S5, 400 ms in both, and in S5 the longest wait that leads on to S4. In S2
/// and S3 one that leads on to a long wait, in which 400 ms may come up.
fn turning_event(
    random: &mut Random,
    lent: &Lent,
    machine: &Machine,
    hands: &Hands,
) -> Option<Event> {
    let deadline = due(lent, machine).unwrap_or(machine.last);
    let (kind, key, stamp) = match machine.resting {
        Resting::S1 | Resting::S6 { .. } => return None,
        Resting::S7 { .. } | Resting::S8 { .. } => return pair_event(random, lent, machine, hands),
        Resting::S2 { .. } => {
            (3, random.pick(&[0, 1]), deadline.saturating_sub(random.between(2, 50)))
        }
        Resting::S3 { o, .. } => {
            let wait = (o + machine.settings.b()).saturating_sub(random.between(2, 50));
            (1, new_key(random, machine, hands)?, wait)
        }
        Resting::S4 { m, o, .. } if random.once_in(2) => {
            (1, new_key(random, machine, hands)?, o + (o - m))
        }
        Resting::S4 { key, o, .. } => (2, key, o + SHORT_OVERLAP),
        Resting::S5 { m, thumb, .. } if random.once_in(2) => {
            (4, u8::from(thumb == Thumb::Right), m + SHORT_OVERLAP)
        }
        Resting::S5 { o, m, thumb, .. } => {
            let other = u8::from(thumb == Thumb::Left);
            (3, other, random.pick(&[m + (m - o), deadline.saturating_sub(2)]))
        }
    };
    Some(Event { kind, key, stamp: beside(random, machine, stamp) })
}

/// The stamp at which the machine's deadline is due, by the distance to it.
pub fn due(lent: &Lent, machine: &Machine) -> Option<u64> {
    let distance = machine.distance_with(lent, machine.last).ok()??;
    machine.last.checked_add_signed(distance)
}

/// One before, at or one after a stamp, if the machine accepts that.
fn beside(random: &mut Random, machine: &Machine, stamp: u64) -> u64 {
    (stamp + random.below(3)).saturating_sub(1).clamp(machine.last, LARGEST_STAMP)
}

/// A stamp that the machine accepts, often at or beside its deadline.
pub fn next_stamp(random: &mut Random, lent: &Lent, machine: &Machine) -> u64 {
    let last = machine.last;
    let deadline = due(lent, machine);
    let stamp = match random.below(64) {
        0..=9 => last,
        10..=37 => return beside(random, machine, deadline.unwrap_or(last)),
        38..=50 => last + random.below(40),
        51..=55 => last + random.below(450),
        56..=59 => last + random.below(1_200),
        60 | 61 => last + random.below(30_000),
        62 => last + random.below(150_000),
        _ => LARGEST_STAMP - random.below(1_000),
    };
    stamp.clamp(last, LARGEST_STAMP)
}

/// An event that is refused 3, 4, 5 or, while so many keys are held, 11; sometimes for
/// two reasons at once.
fn refused_event(random: &mut Random, lent: &Lent, machine: &Machine) -> Event {
    let hands = Hands { keys: vec![0, 30], fingers: 2 };
    let event = match seventh(random, lent, machine) {
        Some(event) if random.once_in(2) => return event,
        Some(event) => event,
        None => accepted_event(random, lent, machine, &hands),
    };
    let early = machine.last.saturating_sub(random.pick(&[1, 1, 256]));
    let beyond = random.pick(&[LARGEST_STAMP + 1, LARGEST_STAMP + 256, u64::MAX]);
    let (kind, key) = forbidden(random);
    match random.below(6) {
        0 | 1 => Event { kind, key, ..event },
        2 => Event { kind, key, stamp: random.pick(&[early, beyond]) },
        3 => Event { stamp: beyond, ..event },
        _ => Event { stamp: early, ..event },
    }
}

/// A press of a new key while 6 are held; none while there are fewer.
fn seventh(random: &mut Random, lent: &Lent, machine: &Machine) -> Option<Event> {
    let (key, stamp) = (free_key(random, machine), next_stamp(random, lent, machine));
    (machine.held.count() == MOST_HELD).then_some(Event { kind: 1, key, stamp })
}

/// A kind and key that are not allowed.
pub fn forbidden(random: &mut Random) -> (u8, u8) {
    random.pick(&[
        (0, 0),
        (7, 0),
        (8, 1),
        (255, 0),
        (1, 31),
        (1, 32),
        (1, 255),
        (2, 31),
        (2, 255),
        (3, 2),
        (3, 31),
        (4, 2),
        (4, 255),
        (5, 1),
        (6, 1),
        (6, 30),
    ])
}

/// Bytes that are no log, mostly small numbers so that some look like headers.
fn noise(random: &mut Random) -> Vec<u8> {
    let mut log = if random.once_in(2) { settings_record(100, 50, 50, 1) } else { vec![] };
    for _ in 0..random.below(40) {
        let byte = random.byte();
        log.push(random.pick(&[0, 1, 2, 3, 5, 7, 10, byte]));
    }
    log
}

/// A log with one damage at a random place. A list's record and the one behind it are
/// damaged more often than others.
fn damaged(random: &mut Random, mut log: Vec<u8>) -> Vec<u8> {
    let starts = starts(&log);
    let second = starts.get(1).copied().unwrap_or(0);
    let third = starts.get(2).copied().unwrap_or(log.len());
    let place = match random.once_in(4) {
        true => second + random.place(third - second),
        false => random.place(log.len()),
    };
    let record = random.pick(&starts);
    let record = random.pick(&[record, record, record, second]);
    match random.below(20) {
        0..=3 => log[place] = log[place].wrapping_add(random.between(1, 255) as u8),
        4 => log[place] ^= random.pick(&[1, 2, 4, 8, 16, 32, 64, 128]),
        5..=7 => log[record + random.place(3)] = random.pick(&[0, 1, 2, 3, 5, 9, 10, 11, 255]),
        8..=10 => log.truncate(place),
        16 | 17 => {
            let list = list_record(&right_lent(random));
            insert(&mut log, random.pick(&[record, second, third]), &list);
        }
        18 => {
            let list = list_record(&right_lent(random));
            insert(&mut log, SETTINGS_LENGTH, &odd_list(random, list));
        }
        11 => insert(&mut log, record, &settings_record(100, 50, 50, 0)),
        12 => drop(log.drain(..SETTINGS_LENGTH)),
        13 => drop(log.remove(place)),
        14 => log.insert(place, random.byte()),
        _ => log.extend((0..random.between(1, 20)).map(|_| random.pick(&[0, 1, 2, 10]))),
    }
    log
}

fn insert(log: &mut Vec<u8>, place: usize, bytes: &[u8]) {
    log.splice(place..place, bytes.iter().copied());
}

/// A list's record with a few bytes more or fewer, its stated length with them.
pub fn odd_list(random: &mut Random, mut list: Vec<u8>) -> Vec<u8> {
    let body = list.len() - HEADER;
    let length = random.pick(&[0, 1, 2, body - 2, body - 1, body + 1, body + 2, body + 3]);
    list.resize(HEADER + length, 0);
    let [high, low] = ((list.len() - HEADER) as u16).to_be_bytes();
    list[1..HEADER].copy_from_slice(&[high, low]);
    list
}

/// Where the records of a log start, as far as they are whole.
pub(crate) fn starts(log: &[u8]) -> Vec<usize> {
    let mut starts = vec![0];
    while let Some((_, body)) = split(&log[starts[starts.len() - 1]..]) {
        starts.push(starts[starts.len() - 1] + HEADER + body.len());
    }
    // The last is the log's end, unless there is no record at all.
    if starts.len() > 1 {
        starts.pop();
    }
    starts
}

/// The bytes that a log's words need.
fn need(log: &[u8]) -> usize {
    let mut run = vec![0; log.len()];
    2 * read_log(log, &mut run).words as usize
}

/// A run's length: ample, just enough, one too short, small, odd or even.
fn random_room(random: &mut Random, log: &[u8]) -> usize {
    let need = need(log);
    match random.below(12) {
        0 => random.place(8),
        1 => need,
        2 => need + 1,
        3 => need.saturating_sub(1),
        4 => need.saturating_sub(2),
        5 => random.place(need + 1),
        _ => need + 2 + random.place(40),
    }
}

// ---- Damage at every place ----

/// Logs that every damage is tried on: 01's own, one through all states, one with
/// steps of two words, one of slower hands with overlaps of 399 and 400 ms in S4 and
/// S5, one of held keys (repeats, ups that come alone, doubled letters, a function
/// key), and one of six keys held, in which a seventh is pressed.
/// Two more have a list of pairs: one through S7 and S8, its pairs sharing a key, one
/// through the splits by a third letter and by a thumb.
const BASES: [(RawSettings, &str, List); 8] = [
    (
        (100, 50, 50, 0),
        "24@0 24up@60 18@100 18up@150 21@200 R@230 21up@270 Rup@280 18@300 tick@400",
        None,
    ),
    (
        (100, 50, 50, 1),
        "R@0 21@40 Rup@60 L@70 24@80 R@90 24up@95 0@300 R@310 10@340 F@345 L@350 R@360 tick@470",
        None,
    ),
    ((100, 50, 50, 1), "R@0 21@40 Rup@60 tick@80 L@100 24@140 Lup@160 F@170 30@180", None),
    (
        (1_000, 50, 50, 1),
        "21@0 R@500 21up@899 Rup@950 21@1000 R@1500 21up@1900 Rup@1950 \
         L@2000 24@2500 Lup@2899 tick@3298 24up@3300 L@4000 24@4500 Lup@4900 18@5000",
        None,
    ),
    (
        (100, 50, 50, 1),
        "21up@0 21@10 21@60 R@70 21@80 24up@85 21up@90 Rup@95 21@100 21up@110 21@120 21@220 \
         F@230 21@240",
        None,
    ),
    ((100, 50, 50, 0), "0@0 1@10 2@20 3@30 4@40 24@50 24@60 4up@70 21@80 L@90 21@95 5@300", None),
    (
        (100, 50, 70, 0),
        "21@0 24@30 21up@50 24up@65 24@100 21@130 24up@140 tick@155 21up@160 21@200 22@210 \
         tick@270 21up@280 24@300",
        Some((&[pair(21, 24, 0x304b), pair(22, 21, 0x4e00)], 60, 40)),
    ),
    (
        (100, 50, 50, 1),
        "21@0 24@30 22@60 R@80 24up@85 22up@90 Rup@95 24@200 21@210 L@230 21up@500 24up@500 \
         10@600 21@610",
        Some((&[pair(24, 21, 0xffff), pair(22, 24, 0x20)], 100, 50)),
    ),
];

/// Pairs, T_s and N.
type List = Option<(&'static [Pair], u16, u8)>;

pub fn base_logs() -> impl Iterator<Item = Vec<u8>> {
    BASES.iter().map(|(raw, text, list)| {
        let lent = list.map(|(pairs, ts, n)| Lent::new(pairs, ts, n));
        log_with(*raw, lent.as_ref(), &notation::events(text).unwrap_or_default())
    })
}

/// Hands over every case of the fixed set; stops at the first error.
pub fn every_place<E>(mut visit: impl FnMut(Case) -> Result<(), E>) -> Result<(), E> {
    visit(Case { log: vec![], room: 5 })?;
    for log in base_logs() {
        every_room(&log, &mut visit)?;
        every_cut(&log, &mut visit)?;
        every_byte(&log, &mut visit)?;
        settings_everywhere(&log, &mut visit)?;
        lists_everywhere(&log, &mut visit)?;
        every_boundary(&log[SETTINGS_LENGTH..], &mut visit)?;
    }
    every_list(&mut visit)?;
    every_kind_and_key(&mut visit)
}

type Visit<'a, E> = &'a mut dyn FnMut(Case) -> Result<(), E>;

/// Every length of run, up to more than enough.
fn every_room<E>(log: &[u8], visit: Visit<E>) -> Result<(), E> {
    (0..need(log) + 5).try_for_each(|room| visit(Case { log: log.to_vec(), room }))
}

/// Cut at every place.
fn every_cut<E>(log: &[u8], visit: Visit<E>) -> Result<(), E> {
    (0..=log.len()).try_for_each(|cut| visit(Case { log: log[..cut].to_vec(), room: 41 }))
}

/// Every value in every byte.
fn every_byte<E>(log: &[u8], visit: Visit<E>) -> Result<(), E> {
    for place in 0..log.len() {
        for value in 0..=255 {
            let mut log = log.to_vec();
            log[place] = value;
            visit(Case { log, room: 41 })?;
        }
    }
    Ok(())
}

/// A settings record before every record and at the end.
fn settings_everywhere<E>(log: &[u8], visit: Visit<E>) -> Result<(), E> {
    starts(log).into_iter().chain([log.len()]).try_for_each(|start| {
        let mut log = log.to_vec();
        insert(&mut log, start, &settings_record(100, 50, 50, 0));
        visit(Case { log, room: 41 })
    })
}

/// A list before every record and at the end, the first record too: of a pair and of
/// none, good, bad and of a wrong length.
fn lists_everywhere<E>(log: &[u8], visit: Visit<E>) -> Result<(), E> {
    let one = Lent::new(&[pair(24, 21, 0x3042)], 200, 30);
    let none = Lent::new(&[], 50, 99);
    let bad = Lent::new(&[pair(24, 24, 0x3042)], 200, 30);
    let mut odd = list_record(&none);
    odd[2] = 2;
    odd.pop();
    let lists = [list_record(&one), list_record(&none), list_record(&bad), odd];
    for start in starts(log).into_iter().chain([log.len()]) {
        for list in &lists {
            let mut log = log.to_vec();
            insert(&mut log, start, list);
            visit(Case { log, room: 41 })?;
        }
    }
    Ok(())
}

/// Lists on and beside every bound in their place, with a chord behind them; and list
/// records of every length up to more than may be, whole, and cut behind a byte or before
/// the last.
fn every_list<E>(visit: Visit<E>) -> Result<(), E> {
    let text = "21@0 24@30 21up@70 24up@75 0@200 1@205 30@290 30up@330 tick@500";
    let events = notation::events(text).unwrap_or_default();
    for list in boundary_lists() {
        visit(Case { log: log_with((100, 50, 50, 0), Some(&list), &events), room: 41 })?;
    }
    let settings = settings_record(100, 50, 50, 0);
    let body = [&[0, 100, 50][..], &many_pairs()].concat();
    for length in (0..=body.len()).chain([65_535]) {
        let [high, low] = (length as u16).to_be_bytes();
        let body = body.iter().copied().cycle().take(length);
        let list: Vec<u8> = [3, high, low].into_iter().chain(body).collect();
        let event = event_record(Event { kind: 1, key: 21, stamp: 7 });
        visit(Case { log: [&settings[..], &list, &event].concat(), room: 9 })?;
        visit(Case { log: [&settings[..], &list[..list.len() - 1]].concat(), room: 9 })?;
        visit(Case { log: [&settings[..], &list[..4.min(list.len())]].concat(), room: 9 })?;
    }
    Ok(())
}

/// The bytes of 70 good pairs.
fn many_pairs() -> Vec<u8> {
    let two = (0..KEYS).flat_map(|a| (a + 1..KEYS).map(move |b| pair(b, a, 0x3041)));
    two.take(70).flat_map(|pair| pair.bytes()).collect()
}

/// Settings on and beside every boundary, before the same events.
fn every_boundary<E>(events: &[u8], visit: Visit<E>) -> Result<(), E> {
    boundary_settings().try_for_each(|(t, j, l, solo)| {
        let log = [&settings_record(t, j, l, solo), events].concat();
        visit(Case { log, room: 41 })
    })
}

/// Settings on and beside every boundary.
pub fn boundary_settings() -> impl Iterator<Item = RawSettings> {
    const PERCENTS: [u8; 8] = [0, 1, 2, 50, 98, 99, 100, 255];
    // 1,074 and 12,800 have 50 for one byte and would pass if the other were lost.
    const TIMES: [u16; 17] = [
        0, 49, 50, 51, 100, 200, 201, 256, 306, 400, 401, 999, 1_000, 1_001, 1_074, 12_800, 65_535,
    ];
    let first = TIMES.into_iter().flat_map(|t| PERCENTS.map(|j| (t, j)));
    let second = first.flat_map(|(t, j)| PERCENTS.map(|l| (t, j, l)));
    second.flat_map(|(t, j, l)| [0, 1, 2, 255].map(|solo| (t, j, l, solo)))
}

/// Every kind with every key, at stamps on and beside the bounds; while one key is
/// held, and while six are, with room for the words of what is late and without.
fn every_kind_and_key<E>(visit: Visit<E>) -> Result<(), E> {
    let down = |key| Event { kind: 1, key, stamp: 7 };
    let one = log_of((100, 50, 50, 1), &[down(21)]);
    let six = log_of((100, 50, 50, 1), &[0, 1, 2, 3, 30, 21].map(down));
    let stamps = [6, 7, 106, 107, LARGEST_STAMP, LARGEST_STAMP + 1, u64::MAX];
    for (index, (kind, key)) in pairs_of_bytes().enumerate() {
        // All stamps where kind and key are near the allowed ones, one elsewhere.
        let near = kind < 8 && key < 33;
        let other = [stamps[index % stamps.len()]];
        for stamp in if near { &stamps[..] } else { &other[..] } {
            let record = event_record(Event { kind, key, stamp: *stamp });
            visit(Case { log: [&one[..], &record].concat(), room: 9 })?;
            if near {
                visit(Case { log: [&six[..], &record].concat(), room: 12 })?;
                visit(Case { log: [&six[..], &record].concat(), room: 10 })?;
            }
        }
    }
    Ok(())
}

fn pairs_of_bytes() -> impl Iterator<Item = (u8, u8)> {
    (0..=255).flat_map(|first| (0..=255).map(move |second| (first, second)))
}

// ---- Long typed logs ----

/// A valid log of at most `bytes` bytes, as a typist would leave it: single
/// keys, chords with the thumb a little before or after, overlapping keys, some
/// function keys, and ticks from the host.
pub fn typed_log(random: &mut Random, raw: RawSettings, bytes: usize) -> Vec<u8> {
    typed(random, raw, None, bytes)
}

/// The same with a list of so many pairs, up to 64, whose letters are now and then typed
/// together.
pub fn typed_log_with(
    random: &mut Random,
    raw: RawSettings,
    pairs: usize,
    bytes: usize,
) -> Vec<u8> {
    let lent = typed_lent(random, pairs);
    typed(random, raw, Some(&lent), bytes)
}

fn typed(random: &mut Random, raw: RawSettings, lent: Option<&Lent>, bytes: usize) -> Vec<u8> {
    let head = log_with(raw, lent, &[]).len();
    let count = bytes.saturating_sub(head) / EVENT_LENGTH;
    let mut events = Vec::with_capacity(count + 8);
    let mut now = random.below(1_000_000_000);
    while events.len() < count {
        match lent {
            Some(lent) if random.once_in(4) => type_pair(random, lent, now, &mut events),
            _ => type_one(random, now, &mut events),
        }
        now += random.between(70, 220);
    }
    events.sort_by_key(|event| event.stamp);
    events.truncate(count);
    log_with(raw, lent, &events)
}

/// Two letters of a pair one after the other, in either order.
fn type_pair(random: &mut Random, lent: &Lent, now: u64, events: &mut Vec<Event>) {
    let Pair { first, second, .. } = random.pick(&lent.pairs);
    let keys = if random.once_in(2) { [first, second] } else { [second, first] };
    let later = now + random.between(0, 60);
    for (key, press) in keys.into_iter().zip([now, later]) {
        let up = press + random.between(40, 140);
        events.push(Event { kind: 1, key, stamp: press });
        events.push(Event { kind: 2, key, stamp: up });
    }
}

/// Events without end as in a typed log, in the order of their stamps, and few at a
/// time in memory.
struct Typing {
    random: Random,
    now: u64,
    waiting: Vec<Event>,
}

impl Typing {
    fn new(seed: u64) -> Typing {
        Typing { random: Random::new(seed), now: 0, waiting: vec![] }
    }
}

impl Iterator for Typing {
    type Item = Event;

    fn next(&mut self) -> Option<Event> {
        // No stroke to come has an event before `now`.
        while self.waiting.first().is_none_or(|event| event.stamp > self.now) {
            type_one(&mut self.random, self.now, &mut self.waiting);
            self.waiting.sort_by_key(|event| event.stamp);
            self.now += self.random.between(70, 220);
        }
        Some(self.waiting.remove(0))
    }
}

const LONG_SEED: u64 = 20_010_401;

/// The records of a valid log of at most `bytes` bytes, always of the same typing.
pub fn long_log(bytes: usize) -> impl Iterator<Item = Vec<u8>> {
    let count = bytes.saturating_sub(SETTINGS_LENGTH) / EVENT_LENGTH;
    let events = Typing::new(LONG_SEED).take(count).map(event_record);
    std::iter::once(settings_record(100, 50, 50, 1)).chain(events)
}

/// One stroke that starts at `now`.
fn type_one(random: &mut Random, now: u64, events: &mut Vec<Event>) {
    let key = random.below(KEYS.into()) as u8;
    let thumb = random.pick(&[0, 1]);
    let lag = random.between(0, 45);
    let held = random.between(50, 140);
    let mut add = |kind, key, stamp| events.push(Event { kind, key, stamp });
    let (press, thumb_press) = match random.below(20) {
        0 => return add(5, 0, now),
        1..=11 => (now, None),
        12..=15 => (now, Some(now + lag)),
        _ => (now + lag, Some(now)),
    };
    add(1, key, press);
    add(2, key, press + held);
    if let Some(stamp) = thumb_press {
        add(3, thumb, stamp);
        add(4, thumb, stamp + random.between(50, 140));
    }
    if random.once_in(3) {
        add(6, 0, now + 100);
    }
}
