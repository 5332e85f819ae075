//! Makes states as numbers for the tests, with events and stamps for them: random
//! ones that crowd around the places where a rule turns, ones that are not well
//! formed or name no machine, and a fixed set that tries every place of the numbers.
//! They are made for a list that is lent with them (9/12).

use crate::generate::{boundary_settings, due, forbidden, right_settings, wrong_settings};
use crate::lists::boundary_lists;
use crate::live::{at, Flat, Wrong};
use crate::model::{Event, Held, KEYS, LARGEST_STAMP, MOST_HELD, SHORT_OVERLAP};
use crate::pairs::{pair, Lent, Pair};
use crate::random::Random;

// ---- Random states ----

/// Any state, most of them well formed.
pub fn random_state(random: &mut Random, lent: &Lent) -> Flat {
    match random.below(16) {
        0 | 1 => broken_state(random, lent),
        2 => nameless_state(random, lent),
        3 => noise(random, lent),
        _ => right_state(random, lent),
    }
}

/// A well-formed state, its deadline before, at or after its last stamp. Where there are
/// pairs, two letters wait in every other one.
pub fn right_state(random: &mut Random, lent: &Lent) -> Flat {
    let state = random.between(1, 6) as u8;
    let two = !lent.pairs.is_empty() && random.once_in(2);
    let state = if two { random.pick(&[7, 8]) } else { state };
    right_state_in(random, lent, state)
}

/// S7 and S8 only where there are pairs.
fn right_state_in(random: &mut Random, lent: &Lent, state: u8) -> Flat {
    let (t, j, l, solo) = right_settings(random);
    let settings = Flat { t, j, l, solo, ..Flat::default() };
    let last = last_stamp(random);
    let third = last.saturating_sub(gap(random, lent, &settings));
    let second = third.saturating_sub(gap(random, lent, &settings));
    let first = second.saturating_sub(gap(random, lent, &settings));
    if state >= 7 {
        return two_letters(random, lent, Flat { state, ..settings }, [first, second, third, last]);
    }
    let (key, thumb) = (random_key(random, lent), random.pick(&[0, 1]));
    let held = right_held(random, key).0;
    let [last, third, second, first] = [last, third, second, first].map(at);
    let flat = Flat { last, held, state, ..settings };
    match state {
        1 => flat,
        2 => Flat { key, m: third, ..flat },
        3 => Flat { thumb, o: third, ..flat },
        4 => Flat { key, m: second, thumb, o: third, ..flat },
        5 => Flat { key, m: third, thumb, o: second, ..flat },
        _ => Flat { key, m: second, thumb, o: first, r: third, ..flat },
    }
}

/// S7 or S8 with a pair of the list, in either order. Often the second gap is that to the
/// last stamp too.
fn two_letters(
    random: &mut Random,
    lent: &Lent,
    flat: Flat,
    [first, second, third, last]: [u64; 4],
) -> Flat {
    let Pair { first: a, second: b, .. } = random.pick(&lent.pairs);
    let (key, other) = if random.once_in(2) { (a, b) } else { (b, a) };
    // A bad list may have a key that is none.
    let (key, other) = (key.min(KEYS - 1), other.min(KEYS - 1));
    let held = right_held(random, other);
    let may = held.count() < MOST_HELD && (flat.state == 7) != random.once_in(8);
    let held = if may { held.with(key) } else { held.without(key) };
    let flat = Flat { last: at(last), held: held.0, key, second: other.into(), ..flat };
    match flat.state {
        7 => Flat { m: at(second), k: at(third), ..flat },
        _ => Flat { m: at(first), k: at(second), r: at(third), ..flat },
    }
}

/// Up to six keys, often six; mostly with this one among them, which is the one that
/// waits, if one does.
fn right_held(random: &mut Random, waiting: u8) -> Held {
    let count = random.pick(&[0, 1, 1, 2, 3, 5, 6, 6]);
    let among = count > 0 && !random.once_in(4);
    let held = if among { Held::of(&[waiting]) } else { Held::default() };
    filled(random, held, count, |key| key != waiting)
}

/// A key of a pair, or any.
fn random_key(random: &mut Random, lent: &Lent) -> u8 {
    let other = right_key(random);
    match lent.pairs.is_empty() || random.once_in(3) {
        true => other,
        false => {
            let pair = random.pick(&lent.pairs);
            random.pick(&[pair.first, pair.second]).min(KEYS - 1)
        }
    }
}

/// A set with more keys put in, any of those that may be, until there are so many.
fn filled(random: &mut Random, held: Held, count: u32, may_be: impl Fn(u8) -> bool) -> Held {
    let mut held = held;
    while held.count() < count {
        let key = random.below(KEYS.into()) as u8;
        if may_be(key) {
            held = held.with(key);
        }
    }
    held
}

/// Near 0, near the largest, or anywhere between.
fn last_stamp(random: &mut Random) -> u64 {
    match random.below(8) {
        0 => random.below(3),
        1..=3 => random.below(2_000),
        4 => LARGEST_STAMP - random.below(3),
        5 => LARGEST_STAMP - random.below(40_000),
        _ => random.below(LARGEST_STAMP + 1),
    }
}

/// From one stamp to the next: none, small, around T, the waits and 400 ms, or wide.
fn gap(random: &mut Random, lent: &Lent, flat: &Flat) -> u64 {
    let (t, ts) = (u64::from(flat.t), u64::from(lent.ts));
    let wait = |t: u64, percent: u8| (t * 100).div_ceil(percent.max(1).into()).saturating_sub(t);
    match random.below(18) {
        0..=3 => 0,
        4..=6 => random.below(40),
        7 => near(random, t),
        8 => near(random, wait(t, flat.j)),
        9 => near(random, wait(t, flat.l)),
        16 => near(random, ts),
        17 => near(random, wait(ts, lent.n)),
        10 => near(random, SHORT_OVERLAP),
        11 | 12 => random.below(450),
        13 => random.below(1_200),
        14 => random.below(150_000),
        _ => random.below(LARGEST_STAMP + 1),
    }
}

/// One before, at or one after; never below 0.
fn near(random: &mut Random, number: u64) -> u64 {
    number.saturating_add(random.below(3)).saturating_sub(1)
}

fn right_key(random: &mut Random) -> u8 {
    let any = random.below(KEYS.into()) as u8;
    random.pick(&[any, any, 0, 21, 30])
}

/// A state that names a machine, but one that is not well formed: one clause is
/// broken, or a stamp is far out.
pub fn broken_state(random: &mut Random, lent: &Lent) -> Flat {
    match random.below(6) {
        0 => {
            let (t, j, l, solo) = wrong_settings(random);
            Flat { t, j, l, solo, ..right_state(random, lent) }
        }
        1 => {
            let state = random.pick(&[2, 4, 5, 6]);
            Flat { key: random.pick(&[31, 32, 63, 255]), ..right_state_in(random, lent, state) }
        }
        2 => late_stamp(random, lent),
        3 => wrong_held(random, lent),
        4 => no_pair(random, lent),
        _ => wrong_order(random, lent),
    }
}

/// Two letters wait that are no pair of the list, one of them maybe no key.
fn no_pair(random: &mut Random, lent: &Lent) -> Flat {
    let state = random.pick(&[7, 8]);
    let any = lent.pairs.is_empty();
    let flat = right_state_in(random, lent, if any { 1 } else { state });
    let (key, other) = (random_key(random, lent), random_key(random, lent));
    let beyond = random.pick(&[31, 32, 255]);
    let (key, second) =
        random.pick(&[(key, other), (key, other), (key, key), (beyond, key), (key, beyond)]);
    let is_pair = lent.pairs.iter().any(|pair| pair.is_of(key, second));
    let second = if is_pair { key } else { second };
    let last = flat.last;
    let r = if state == 8 { last } else { at(0) };
    Flat { state, key, second: second.into(), m: last, k: last, r, ..flat }
}

/// More than six keys are held, or bit 31 is 1, or both.
fn wrong_held(random: &mut Random, lent: &Lent) -> Flat {
    let flat = right_state(random, lent);
    let held = Held(flat.held);
    let many = random.pick(&[MOST_HELD + 1, MOST_HELD + 1, 10, 31]);
    let seven = filled(random, held, many, |_| true);
    let top = 1 << 31;
    // With five others or fewer, bit 31 is one of six at most.
    let few = if held.count() < MOST_HELD { held.0 } else { 0 };
    let held = random.pick(&[seven.0, seven.0, seven.0 | top, few | top, few | top, top]);
    Flat { held, ..flat }
}

/// The last accepted stamp is above the largest, or another above it.
fn late_stamp(random: &mut Random, lent: &Lent) -> Flat {
    let flat = right_state(random, lent);
    let state = flat.state;
    let beyond = random.pick(&[LARGEST_STAMP + 1, LARGEST_STAMP + 256, 1 << 63, u64::MAX]);
    let after = random.pick(&[flat.last.ms + 1, flat.last.ms + 256, beyond]);
    let [beyond, after] = [beyond, after].map(at);
    match (state, random.once_in(4)) {
        (1, _) | (_, true) => Flat { last: beyond, ..flat },
        (2 | 5, _) => Flat { m: after, ..flat },
        (3 | 4, _) => Flat { o: after, ..flat },
        (7, _) => Flat { k: after, ..flat },
        _ => Flat { r: after, ..flat },
    }
}

/// Two stamps of S4 to S8 in the wrong order, none above the last.
fn wrong_order(random: &mut Random, lent: &Lent) -> Flat {
    let states = if lent.pairs.is_empty() { &[4, 5, 6][..] } else { &[4, 5, 6, 7, 7, 8, 8] };
    let state = random.pick(states);
    let flat = right_state_in(random, lent, state);
    let last = flat.last.ms.max(1);
    let low = last - 1 - gap(random, lent, &flat).min(last - 1);
    let wide = gap(random, lent, &flat);
    let high = random.pick(&[low + 1, last, low + 1 + wide]).min(last);
    let lower = random.below(low + 1);
    let [last, low, high, lower] = [last, low, high, lower].map(at);
    let flat = Flat { last, ..flat };
    match (state, random.once_in(2)) {
        (4, _) => Flat { m: high, o: low, ..flat },
        (5, _) => Flat { m: low, o: high, ..flat },
        (7, _) => Flat { m: high, k: low, ..flat },
        (8, true) => Flat { m: high, k: low, r: last, ..flat },
        (8, _) => Flat { m: lower, k: high, r: low, ..flat },
        (_, true) => Flat { m: low, o: high, r: last, ..flat },
        _ => Flat { m: high, o: lower, r: low, ..flat },
    }
}

/// A state that names no machine, well formed apart from that.
pub fn nameless_state(random: &mut Random, lent: &Lent) -> Flat {
    match random.below(4) {
        0 => Flat { state: random.pick(&[0, 9, 10, 255]), ..right_state(random, lent) },
        1 => {
            let state = random.between(3, 6) as u8;
            Flat { thumb: random.pick(&[2, 3, 255]), ..right_state_in(random, lent, state) }
        }
        2 => {
            // A second key of more than a byte, the low one as it may be.
            let flat = right_state(random, lent);
            let beyond = random.pick(&[1 << 8, 1 << 9, 1 << 31, u32::MAX << 8]);
            Flat { second: flat.second | beyond, ..flat }
        }
        _ => left_over(random, lent),
    }
}

/// A number that the state doesn't use is not 0.
fn left_over(random: &mut Random, lent: &Lent) -> Flat {
    let flat = right_state(random, lent);
    let state = flat.state;
    let stamp = random.pick(&[1, 1, flat.last.ms.max(1), LARGEST_STAMP + 1, 1 << 32, u64::MAX]);
    let stamp = at(stamp);
    let (key, thumb) = (random.pick(&[1, 30, 31, 255]), random.pick(&[1, 2, 255]));
    let with_m = Flat { m: stamp, ..flat };
    let with_k = Flat { k: stamp, ..flat };
    let with_o = Flat { o: stamp, ..flat };
    let with_r = Flat { r: stamp, ..flat };
    let with_key = Flat { key, ..flat };
    let with_second = Flat { second: key.into(), ..flat };
    let with_thumb = Flat { thumb, ..flat };
    let second = random.pick(&[with_k, with_second]);
    match state {
        1 => random.pick(&[with_m, with_o, with_r, with_key, with_thumb, second]),
        2 => random.pick(&[with_o, with_r, with_thumb, second]),
        3 => random.pick(&[with_m, with_r, with_key, second]),
        4 | 5 => random.pick(&[with_r, second]),
        6 => second,
        7 => random.pick(&[with_o, with_r, with_thumb]),
        _ => random.pick(&[with_o, with_thumb]),
    }
}

/// Any numbers at all, small ones often among them.
fn noise(random: &mut Random, lent: &Lent) -> Flat {
    let base = right_state(random, lent);
    let mut stamp = |right| {
        let any = random.next();
        random.pick(&[right, right, at(0), at(any), at(any % LARGEST_STAMP)])
    };
    let [last, m, k, o, r] = [base.last, base.m, base.k, base.o, base.r].map(&mut stamp);
    let any = random.next() as u32;
    let held = random.pick(&[base.held, base.held, 0, any, any >> 16, 1 << (any % 32)]);
    let second = random.pick(&[base.second, base.second, 0, any % 32, any]);
    let mut byte = |right| {
        let any = random.byte();
        random.pick(&[right, right, right, 0, any, any % 8])
    };
    let [j, l, solo, state] = [base.j, base.l, base.solo, base.state].map(&mut byte);
    let [key, thumb] = [base.key, base.thumb].map(&mut byte);
    Flat { last, m, k, o, r, held, second, t: base.t, j, l, solo, state, key, thumb }
}

// ---- Events and stamps for a state ----

/// Any event, most of them allowed and with a stamp where a rule turns.
pub fn random_event(random: &mut Random, lent: &Lent, flat: &Flat) -> Event {
    if let Some(event) = overlap_end(random, flat).filter(|_| random.once_in(6)) {
        return event;
    }
    if flat.state >= 7 && random.once_in(2) {
        return pair_event(random, lent, flat);
    }
    let (kind, key) = match random.below(16) {
        0 => forbidden(random),
        1 => (random.pick(&[0, 1, 2, 3, 4, 5, 6, 7, 255]), random.byte()),
        _ => allowed(random, lent, flat),
    };
    Event { kind, key, stamp: random_stamp(random, lent, flat) }
}

/// While two letters wait: a third key or a release of one of them, at or beside a stamp
/// where its rule turns.
fn pair_event(random: &mut Random, lent: &Lent, flat: &Flat) -> Event {
    let (own, second) = (flat.key.min(KEYS - 1), flat.second.min(u32::from(KEYS) - 1) as u8);
    let third = random_key(random, lent);
    let (kind, key) =
        random.pick(&[(1, third), (1, own), (2, own), (2, second), (2, second), (3, 1)]);
    let turn = random.pick(&pair_turns(lent, flat));
    let last = flat.last.ms;
    Event { kind, key, stamp: near(random, turn).clamp(last, LARGEST_STAMP.max(last)) }
}

/// Where a rule turns while two letters wait: equal gaps, the shares of the overlap by N
/// and by L, T_s, and S8's deadline.
fn pair_turns(lent: &Lent, flat: &Flat) -> [u64; 6] {
    let (m, k, r) = (flat.m.ms, flat.k.ms, flat.r.ms);
    let n = u64::from(lent.n.clamp(1, 99));
    let l = u64::from(flat.l.clamp(1, 99));
    let gap = k.saturating_sub(m).min(LARGEST_STAMP);
    let overlap = r.saturating_sub(k).min(LARGEST_STAMP);
    let later = |wait: u64| k.saturating_add(wait);
    [
        later(gap),
        later((n * gap).div_ceil(100 - n)),
        later((100 * overlap).div_ceil(l)),
        later((100 * overlap).div_ceil(n)),
        later(lent.ts.into()),
        r,
    ]
}

/// The release that ends an overlap, at or beside 400 ms.
fn overlap_end(random: &mut Random, flat: &Flat) -> Option<Event> {
    let (kind, key, pressed) = match flat.state {
        4 => (2, flat.key, flat.o.ms),
        5 => (4, flat.thumb, flat.m.ms),
        _ => return None,
    };
    let last = flat.last.ms;
    let stamp = near(random, pressed.saturating_add(SHORT_OVERLAP));
    Some(Event { kind, key, stamp: stamp.clamp(last, LARGEST_STAMP.max(last)) })
}

/// Of character keys M's, one that is held, and others.
fn allowed(random: &mut Random, lent: &Lent, flat: &Flat) -> (u8, u8) {
    let own = flat.key.min(KEYS - 1);
    let other = random_key(random, lent);
    let held: Vec<u8> = Held(flat.held).keys().chain([other]).collect();
    let held = random.pick(&held);
    match random.below(12) {
        0..=2 => (1, random.pick(&[own, held, other, other])),
        3 | 4 => (2, random.pick(&[own, own, held, other])),
        5..=7 => (3, random.pick(&[0, 1])),
        8 | 9 => (4, random.pick(&[0, 1])),
        10 => (5, 0),
        _ => (6, 0),
    }
}

/// A stamp for an event or to ask at, mostly one that the state accepts.
pub fn random_stamp(random: &mut Random, lent: &Lent, flat: &Flat) -> u64 {
    let turn = random.pick(&turns(flat));
    let last = flat.last.ms;
    let accepted = LARGEST_STAMP.max(last);
    let any = random.next();
    match random.below(32) {
        0..=2 => last,
        3..=9 => near(random, deadline(lent, flat)).clamp(last, accepted),
        10..=15 => near(random, turn).clamp(last, accepted),
        16..=20 => last.saturating_add(random.below(40)),
        21..=24 => last.saturating_add(gap(random, lent, flat)),
        25 | 26 => last.saturating_sub(random.pick(&[1, 1, 2, 256])),
        27 => near(random, turn),
        28 => last.saturating_sub(gap(random, lent, flat)),
        29 | 30 => LARGEST_STAMP - 2 + random.below(5),
        _ => random.pick(&[0, LARGEST_STAMP + 256, 1 << 63, (1 << 63) - 1, u64::MAX, any]),
    }
}

/// The stamp of the deadline; the last accepted one if there is none.
fn deadline(lent: &Lent, flat: &Flat) -> u64 {
    let machine = flat.machine_with(lent, Wrong::default());
    machine.ok().and_then(|machine| due(lent, &machine)).unwrap_or(flat.last.ms)
}

/// Where a rule may turn besides the deadline: equal gaps, T and 400 ms.
fn turns(flat: &Flat) -> [u64; 6] {
    let (m, o, t) = (flat.m.ms, flat.o.ms, u64::from(flat.t));
    [
        o.saturating_add(o.saturating_sub(m)),
        m.saturating_add(m.saturating_sub(o)),
        o.saturating_add(SHORT_OVERLAP),
        m.saturating_add(SHORT_OVERLAP),
        o.saturating_add(t),
        m.saturating_add(t),
    ]
}

// ---- Every place of the numbers ----

/// No machine: every number is 0.
pub const NONE: Flat = Flat {
    last: at(0),
    m: at(0),
    k: at(0),
    o: at(0),
    r: at(0),
    held: 0,
    second: 0,
    t: 0,
    j: 0,
    l: 0,
    solo: 0,
    state: 0,
    key: 0,
    thumb: 0,
};

/// Opened, and an event since.
pub const USUAL: Flat = Flat { last: at(1_000), t: 100, j: 50, l: 50, solo: 1, state: 1, ..NONE };

/// The bit of a key.
pub const fn bit(key: u8) -> u32 {
    1 << key
}

/// Six keys, the lowest and the highest among them, and 21.
pub const SIX: u32 = bit(0) | bit(1) | bit(10) | bit(21) | bit(24) | bit(30);

/// Every state, its deadline still to come, some that are due or overdue, and two of
/// slower hands that still wait when 400 ms are over. Some hold M, or six keys with it
/// or without it, and some no key.
/// In the last two letters wait, which are a pair of the list.
const BASES: [Flat; 17] = [
    USUAL,
    Flat { held: SIX, ..USUAL },
    Flat { state: 2, key: 21, m: at(990), held: bit(21), ..USUAL },
    Flat { state: 2, key: 0, m: at(500), held: SIX, ..USUAL },
    Flat { state: 3, thumb: 1, o: at(980), held: bit(30), ..USUAL },
    Flat { state: 3, thumb: 0, o: at(3), solo: 0, held: SIX, ..USUAL },
    Flat { state: 4, key: 30, m: at(960), thumb: 1, o: at(990), held: SIX, ..USUAL },
    Flat { state: 5, key: 10, m: at(970), thumb: 0, o: at(940), held: bit(10) | bit(5), ..USUAL },
    Flat { state: 5, key: 5, m: at(995), thumb: 1, o: at(0), held: SIX, ..USUAL },
    Flat { state: 6, key: 24, m: at(980), thumb: 1, o: at(950), r: at(995), ..USUAL },
    Flat { state: 6, key: 24, m: at(980), thumb: 1, o: at(950), r: at(995), held: SIX, ..USUAL },
    Flat { t: 1_000, state: 4, key: 21, m: at(100), thumb: 1, o: at(700), held: SIX, ..USUAL },
    Flat { t: 1_000, state: 5, key: 21, m: at(700), thumb: 1, o: at(100), ..USUAL },
    Flat { state: 7, key: 21, m: at(960), second: 24, k: at(990), held: BOTH, ..USUAL },
    Flat { state: 7, key: 24, m: at(950), second: 21, k: at(970), held: SIX, ..USUAL },
    Flat { state: 8, m: at(950), k: at(980), r: at(990), held: bit(24), ..RELEASED },
    Flat { state: 8, m: at(900), k: at(960), r: at(1_000), held: SIX, ..RELEASED },
];

const BOTH: u32 = bit(21) | bit(24);
const RELEASED: Flat = Flat { key: 21, second: 24, l: 70, ..USUAL };

/// What is lent with them: 22 is a pair with 24 and not with 21, and 0 is in no pair.
pub fn usual_lent() -> Lent {
    Lent::new(&[pair(21, 24, 0x304c), pair(24, 22, 0x4e00), pair(30, 5, 0x20)], 60, 40)
}

/// What is put into each place of the numbers. As held sets: none, one key and two,
/// six with bit 30 and with bit 31, seven, and bit 31 alone.
pub const VALUES: [u64; 41] = [
    0,
    1,
    2,
    3,
    4,
    5,
    6,
    7,
    8,
    29,
    30,
    31,
    32,
    49,
    50,
    51,
    99,
    100,
    200,
    201,
    255,
    999,
    1_000,
    1_001,
    65_535,
    LARGEST_STAMP,
    LARGEST_STAMP + 1,
    1 << 32,
    1 << 63,
    u64::MAX,
    24,
    256 + 24,
    1 << 21,
    1 << 30,
    1 << 31,
    0b11_1111,
    0b111_1111,
    0x7e00_0000,
    0x7f00_0000,
    0xfc00_0000,
    (SIX | bit(5)) as u64,
];

/// How many places the numbers have.
pub const PLACES: usize = 14;

/// A number put into one place; none if it is too large for it.
pub fn with(flat: Flat, place: usize, value: u64) -> Option<Flat> {
    let byte = u8::try_from(value).ok();
    let short = u32::try_from(value).ok();
    Some(match place {
        0 => Flat { last: at(value), ..flat },
        1 => Flat { m: at(value), ..flat },
        2 => Flat { o: at(value), ..flat },
        3 => Flat { r: at(value), ..flat },
        4 => Flat { held: short?, ..flat },
        5 => Flat { t: u16::try_from(value).ok()?, ..flat },
        6 => Flat { j: byte?, ..flat },
        7 => Flat { l: byte?, ..flat },
        8 => Flat { solo: byte?, ..flat },
        9 => Flat { state: byte?, ..flat },
        10 => Flat { key: byte?, ..flat },
        11 => Flat { k: at(value), ..flat },
        12 => Flat { second: short?, ..flat },
        _ => Flat { thumb: byte?, ..flat },
    })
}

/// Hands over every list, state and event of the fixed set; stops at the first error. All
/// states with one list; those as they stand also with every list on and beside a bound.
pub fn every_state<E>(
    mut visit: impl FnMut(&Lent, &Flat, Event) -> Result<(), E>,
) -> Result<(), E> {
    let usual = usual_lent();
    let mut with_usual = |flat: &Flat, event| visit(&usual, flat, event);
    for base in BASES {
        every_kind_and_key(&usual, &base, &mut with_usual)?;
        for place in 0..PLACES {
            for flat in VALUES.iter().filter_map(|value| with(base, place, *value)) {
                every_allowed(&usual, &flat, &mut with_usual)?;
            }
        }
        for (t, j, l, solo) in boundary_settings() {
            every_allowed(&usual, &Flat { t, j, l, solo, ..base }, &mut with_usual)?;
        }
    }
    for lent in boundary_lists() {
        for base in BASES.into_iter().chain([Flat { state: 0, ..USUAL }]) {
            let (last, due) = (base.last.ms, deadline(&lent, &base));
            for stamp in [last - 1, last, due] {
                visit(&lent, &base, Event { kind: 6, key: 0, stamp })?;
                visit(&lent, &base, Event { kind: 1, key: 24, stamp })?;
            }
        }
    }
    Ok(())
}

type Visit<'a, E> = &'a mut dyn FnMut(&Flat, Event) -> Result<(), E>;

/// Kinds 0 to 8 and 255 with every key, at stamps on and beside the bounds.
fn every_kind_and_key<E>(lent: &Lent, flat: &Flat, visit: Visit<E>) -> Result<(), E> {
    let (last, due) = (flat.last.ms, deadline(lent, flat));
    let stamps = [last - 1, last, due, LARGEST_STAMP, LARGEST_STAMP + 1, u64::MAX];
    for kind in (0..=8).chain([255]) {
        for key in 0..=255 {
            stamps.iter().try_for_each(|stamp| visit(flat, Event { kind, key, stamp: *stamp }))?;
        }
    }
    Ok(())
}

/// Every kind with M's key, another one or either thumb, around the last stamp, the
/// deadline or 400 ms of overlap.
fn every_allowed<E>(lent: &Lent, flat: &Flat, visit: Visit<E>) -> Result<(), E> {
    let due = deadline(lent, flat);
    let own = flat.key.min(KEYS - 1);
    let second = flat.second.min(u32::from(KEYS) - 1) as u8;
    let keys = [(1, own), (2, own), (1, 22), (2, 22), (2, second)];
    let others = [(3, 0), (3, 1), (4, 0), (4, 1), (5, 0), (6, 0)];
    let pressed = if flat.state == 4 { flat.o } else { flat.m };
    let overlap = pressed.ms.saturating_add(SHORT_OVERLAP);
    let [gap, by_n, by_l, ..] = pair_turns(lent, flat);
    let turns = if flat.state >= 7 { [gap, gap.saturating_add(1), by_n, by_l] } else { [due; 4] };
    let stamps = [flat.last.ms, due.saturating_sub(1), due, overlap - 1, overlap];
    let stamps = [&stamps[..], if flat.state >= 7 { &turns } else { &[] }].concat();
    for (kind, key) in keys.into_iter().chain(others) {
        stamps.iter().try_for_each(|stamp| visit(flat, Event { kind, key, stamp: *stamp }))?;
    }
    Ok(())
}
