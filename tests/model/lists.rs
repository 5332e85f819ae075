//! Makes lists of pairs with T_s and N for the tests (9/12): good ones, whose pairs often
//! share a key, and ones that are bad in each way there is.

use crate::generate::percent;
use crate::model::KEYS;
use crate::pairs::{pair, Lent, Pair, LEAST_TS, MOST_PAIRS, MOST_TS};
use crate::random::Random;

// ---- Good lists ----

/// A good list: mostly of a few pairs, now and then of none or of as many as may be.
pub fn right_lent(random: &mut Random) -> Lent {
    let count = random.pick(&[0, 1, 1, 2, 2, 3, 3, 5, 8, 20, 63, 64]);
    let pairs = right_pairs(random, count);
    Lent { pairs, ts: right_ts(random), n: percent(random) }
}

/// A list of so many pairs for typing, T_s and N as a desk would set them.
pub fn typed_lent(random: &mut Random, count: usize) -> Lent {
    Lent { pairs: right_pairs(random, count.clamp(1, MOST_PAIRS)), ts: 100, n: 50 }
}

/// So many pairs, none twice, in either order, among no more keys than are needed or
/// among all.
fn right_pairs(random: &mut Random, count: usize) -> Vec<Pair> {
    let pairs_of = |keys: u8| usize::from(keys) * usize::from(keys - 1) / 2;
    let few = (2..KEYS).find(|keys| pairs_of(*keys) >= count).unwrap_or(KEYS);
    let keys = random.pick(&[few, few + 1, few + 3, KEYS]).min(KEYS);
    let mut of: Vec<u8> = (0..KEYS).collect();
    shuffle(random, &mut of);
    let of = &of[..keys.into()];
    let both = |place: usize| of[place + 1..].iter().map(move |second| (of[place], *second));
    let mut all: Vec<(u8, u8)> = (0..of.len()).flat_map(both).collect();
    shuffle(random, &mut all);
    all.truncate(count);
    all.into_iter().map(|(a, b)| pair(a, b, right_character(random))).collect()
}

pub(crate) fn shuffle<T>(random: &mut Random, things: &mut [T]) {
    for last in (1..things.len()).rev() {
        things.swap(last, random.place(last + 1));
    }
}

/// The bounds of a pair's character, ones of the layout (か, さ, が, the full-width stop),
/// and any other.
const RIGHT_CHARACTERS: [u16; 9] =
    [0x20, 0x21, 0xd7ff, 0xe000, 0xffff, 0x304b, 0x3055, 0x304c, 0xff0e];

fn right_character(random: &mut Random) -> u16 {
    let any = random.between(0x20, 0xd7ff) as u16;
    match random.below(3) {
        0 => any,
        _ => random.pick(&RIGHT_CHARACTERS),
    }
}

fn right_ts(random: &mut Random) -> u16 {
    match random.below(4) {
        0 => random.between(LEAST_TS, MOST_TS) as u16,
        _ => random.pick(&[50, 51, 60, 100, 100, 200, 400, 999, 1_000]),
    }
}

// ---- Bad lists ----

/// The ways in which a list can be bad; each that is named is the only one.
pub const BAD: [&str; 8] = [
    "too-many-pairs",
    "pair-twice",
    "pair-turned-twice",
    "key-with-itself",
    "key-31-on",
    "character",
    "T_s",
    "N",
];

/// A list that is bad in one way, and its name.
pub fn wrong_lent(random: &mut Random) -> (Lent, &'static str) {
    let way = random.pick(&BAD);
    let right = right_lent(random);
    let wrong = match way {
        "too-many-pairs" => {
            let count = MOST_PAIRS + random.pick(&[1, 1, 1, 2, 16, 100]);
            Lent { pairs: right_pairs(random, count), ..right }
        }
        "T_s" => Lent { ts: random.pick(&[0, 49, 1_001, 1_074, 12_800, 65_535]), ..right },
        "N" => Lent { n: random.pick(&[0, 100, 101, 255]), ..right },
        _ => with_wrong_pair(random, right, way),
    };
    (wrong, way)
}

/// A good list in which one pair is bad, at most 64 pairs in all.
fn with_wrong_pair(random: &mut Random, right: Lent, way: &str) -> Lent {
    let mut pairs = right.pairs;
    pairs.truncate(MOST_PAIRS - 1);
    if pairs.is_empty() {
        pairs.push(pair(21, 24, 0x304c));
    }
    let Pair { first, second, character } = random.pick(&pairs);
    let beyond = random.pick(&[31, 32, 63, 255]);
    let control = random.pick(&[0, 1, 2, 0x1f]);
    let surrogate = random.pick(&[0xd800, 0xd801, 0xdbff, 0xdc00, 0xdfff]);
    let other = right_character(random);
    let (place, end) = (random.place(pairs.len()), random.place(pairs.len() + 1));
    match way {
        "pair-twice" => pairs.insert(end, pair(first, second, random.pick(&[character, other]))),
        "pair-turned-twice" => {
            pairs.insert(end, pair(second, first, random.pick(&[character, other])));
        }
        "key-with-itself" => pairs.insert(end, pair(first, first, character)),
        "key-31-on" if random.once_in(2) => pairs[place].first = beyond,
        "key-31-on" => pairs[place].second = beyond,
        _ => pairs[place].character = random.pick(&[control, surrogate]),
    }
    Lent { pairs, ..right }
}

/// Any list, most of them good; of those that are not, some bad in two ways.
pub fn random_lent(random: &mut Random) -> Lent {
    let (bad, _) = wrong_lent(random);
    match random.below(24) {
        0 | 1 => bad,
        2 => Lent { ts: random.next() as u16, n: random.byte(), ..bad },
        _ => right_lent(random),
    }
}

// ---- Lists on and beside every bound ----

/// T_s and N on and beside their bounds, counts of pairs, and single pairs of every two
/// keys and with characters on and beside their bounds, good and bad.
pub fn boundary_lists() -> Vec<Lent> {
    let one = [pair(21, 24, 0x304c)];
    // 1,074 and 12,800 have 50 for one byte and would pass if the other were lost.
    let times = [0, 49, 50, 51, 256, 306, 999, 1_000, 1_001, 1_074, 12_800, 65_535];
    let percents = [0, 1, 2, 50, 98, 99, 100, 255];
    let mut lists = vec![];
    for (ts, n) in times.into_iter().flat_map(|ts| percents.map(|n| (ts, n))) {
        lists.extend([Lent::new(&[], ts, n), Lent::new(&one, ts, n)]);
    }
    let all: Vec<Pair> = every_two_keys().map(|(a, b)| pair(a, b, 0x4e00)).collect();
    let counts = [0, 1, 2, 62, 63, 64, 65, 66, 128, 465];
    lists.extend(counts.map(|count| Lent::new(&all[..count], 100, 50)));
    let keys = (0..=33).chain([63, 64, 127, 128, 255]);
    let two = keys.clone().flat_map(|a| keys.clone().map(move |b| (a, b)));
    lists.extend(two.map(|(a, b)| Lent::new(&[pair(a, b, 0x20)], 100, 50)));
    let characters = [0, 1, 2, 0x1f, 0x20, 0x7f, 0xd7ff, 0xd800, 0xdbff, 0xdc00, 0xdfff, 0xe000];
    let characters = characters.into_iter().chain([0xfffe, 0xffff]);
    lists.extend(characters.map(|c| Lent::new(&[pair(24, 21, c)], 100, 50)));
    // The same pair first and last, in both orders, and pairs that only share a key.
    for (a, b) in [(0, 1), (1, 0), (all[0].first, 30), (30, 29)] {
        let last = [&all[..MOST_PAIRS - 1], &[pair(a, b, 0x3042)]].concat();
        lists.push(Lent::new(&last, 100, 50));
    }
    lists
}

/// Every two keys once.
fn every_two_keys() -> impl Iterator<Item = (u8, u8)> {
    (0..KEYS).flat_map(|first| (first + 1..KEYS).map(move |second| (first, second)))
}
