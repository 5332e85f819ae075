//! Makes readers as numbers for the tests, with pieces for them: random ones in the
//! middle of a log, near every bound, ones that are not well formed or name no
//! reader, and a fixed set that tries every place of the numbers. And random ways to
//! cut a log.

use crate::generate::{odd_list, open, random_events, right_settings, wrong_settings};
use crate::lists::{right_lent, wrong_lent};
use crate::live::{self, at, Flat};
use crate::log::{event_record, list_record, settings_record, Before, SETTINGS_LENGTH};
use crate::model::{Event, Machine};
use crate::pairs::{pair, Lent, NO_PAIRS};
use crate::pieces::{FlatReader, Kept, Reader, Run, EMPTY, LONGEST_LOG, LONGEST_RECORD};
use crate::random::Random;
use crate::states::{self, bit, broken_state, nameless_state, right_state, NONE, SIX};

/// A reader with the run of its pairs, the piece that it is given and the length of that
/// piece's own run.
pub struct Call {
    pub kept: Kept,
    pub piece: Vec<u8>,
    pub room: usize,
}

// ---- Random calls ----

/// Any reader, most of them well formed, and a piece that often goes on where it is.
pub fn random_call(random: &mut Random) -> Call {
    let (before, bytes) = random_place(random);
    let count = random_count(random, &bytes);
    let (begun, rest) = bytes.split_at(count);
    let piece = random_part(random, rest);
    let far = random_offset(random, (count + piece.len()) as u64);
    let offset = if before.opened && random.once_in(2) { before.offset } else { far };
    let most_words = 2 * offset / 13;
    let words = random.pick(&[0, most_words / 2, most_words.saturating_sub(1), most_words]);
    let before = Before { offset, ..before };
    let lent = before.lent.clone();
    let kept = Kept::of(&Reader { before, words, begun: begun.to_vec(), told: None });
    let kept = match random.below(16) {
        0..=2 => broken(random, &lent, kept),
        3 | 4 => Kept { reader: told(random, kept.reader), ..kept },
        5 => Kept { reader: stray(random, kept.reader), ..kept },
        _ => kept,
    };
    let most = 4 * (piece.len() / 13 + 2);
    let room = if random.once_in(3) { random.place(8) } else { most + random.place(2) };
    Call { kept, piece, room }
}

/// What was read before, and records that may come next: nothing yet, straight after the
/// settings, mostly with a list to come (a reader made up may have any machine there and
/// any offset), or anywhere, with a list or without.
fn random_place(random: &mut Random) -> (Before, Vec<u8>) {
    let right = live::Wrong::default();
    if random.once_in(5) {
        return (Before::default(), random_settings(random));
    }
    if random.once_in(5) {
        let machine = match random.once_in(4) {
            false => open(right_settings(random)),
            true => right_state(random, &NO_PAIRS).machine_with(&NO_PAIRS, right).ok(),
        };
        let list = if random.once_in(4) { vec![] } else { random_list(random) };
        let events = machine.map_or(vec![], |machine| random_records(random, &NO_PAIRS, machine));
        let offset = SETTINGS_LENGTH as u64;
        let before = Before { machine, opened: true, offset, ..Before::default() };
        return (before, [list, events].concat());
    }
    let lent = if random.once_in(2) { NO_PAIRS.clone() } else { right_lent(random) };
    let flat = right_state(random, &lent);
    let machine = flat.machine_with(&lent, right).ok();
    let records = machine.map_or(vec![], |machine| random_records(random, &lent, machine));
    (Before { machine, lent, ..Before::default() }, records)
}

/// A list record, good, bad or of a wrong length.
fn random_list(random: &mut Random) -> Vec<u8> {
    match random.below(6) {
        0 => list_record(&wrong_lent(random).0),
        1 => {
            let list = list_record(&right_lent(random));
            odd_list(random, list)
        }
        _ => list_record(&right_lent(random)),
    }
}

/// Settings and an event, some of them refused.
fn random_settings(random: &mut Random) -> Vec<u8> {
    let first = random_record(random);
    let (t, j, l, solo) = match random.once_in(6) {
        true => wrong_settings(random),
        false => right_settings(random),
    };
    let opened = settings_record(t, j, l, solo);
    let list = if random.once_in(2) { random_list(random) } else { vec![] };
    let event = event_record(Event { kind: 1, key: 21, stamp: 5 });
    if random.once_in(4) {
        first
    } else {
        [opened, list, event].concat()
    }
}

/// Records that may come next, some of them refused.
fn random_records(random: &mut Random, lent: &Lent, machine: Machine) -> Vec<u8> {
    let first = random_record(random);
    let (count, refusals) = (random.place(6), random.once_in(3));
    let events = random_events(random, lent, machine, count, refusals);
    let records = events.into_iter().flat_map(event_record);
    if random.once_in(4) {
        first.into_iter().chain(records).collect()
    } else {
        records.collect()
    }
}

/// A record with any tag and length, mostly short; its body any bytes.
fn random_record(random: &mut Random) -> Vec<u8> {
    let tag = random.pick(&[0, 1, 2, 2, 3, 9, 255]);
    let length = match random.below(16) {
        0 => random.pick(&[255, 256, 257, 511, 1_000]),
        1 if random.once_in(8) => random.pick(&[65_534, 65_535]),
        2..=4 => random.pick(&[3, 5, 7, 10, 11]),
        _ => random.below(16) as u16,
    };
    let [high, low] = length.to_be_bytes();
    let body = (0..length).map(|_| random.byte());
    [tag, high, low].into_iter().chain(body).collect()
}

/// How many bytes of the first record came: fewer than it has.
fn random_count(random: &mut Random, bytes: &[u8]) -> usize {
    let byte = |place: usize| bytes.get(place).copied().map_or(0, usize::from);
    let length = 3 + 256 * byte(1) + byte(2);
    let count = match random.below(4) {
        0 => 0,
        1 => length - 1,
        _ => random.place(length),
    };
    count.min(bytes.len())
}

/// All of the rest, none of it, or a part.
fn random_part(random: &mut Random, rest: &[u8]) -> Vec<u8> {
    let length = match random.below(6) {
        0 => 0,
        1 => random.pick(&[1, 2, 3, 13]),
        2 => random.place(rest.len() + 1),
        _ => rest.len(),
    };
    rest[..length.min(rest.len())].to_vec()
}

/// Where the begun record starts: near 0, far, or so that these bytes end at or
/// beside the longest log.
fn random_offset(random: &mut Random, bytes: u64) -> u64 {
    let limit = LONGEST_LOG - bytes;
    match random.below(10) {
        0 => 0,
        1..=4 => random.below(5_000),
        5 => random.below(limit),
        6 => limit + 1,
        7 | 8 => limit,
        _ => limit - random.between(1, 20),
    }
}

/// With an answer for good, mostly one that a reader can have.
fn told(random: &mut Random, reader: FlatReader) -> FlatReader {
    let number = random.pick(&[0, 0, 1, 3, 4, 5, 6, 7, 8, 9, 11, 11, 12, 12]);
    let between = FlatReader { count: 0, header: 0, front: 0, tail: 0, ..reader };
    let reader = if random.once_in(4) { reader } else { between };
    FlatReader { told: 1, number, ..reader }
}

/// With bits above the bytes that came, which say nothing.
fn stray(random: &mut Random, reader: FlatReader) -> FlatReader {
    let (header, front, tail) = (random.next(), random.next(), random.next());
    let bits = FlatReader { header, front, tail, ..reader };
    let named = bits.clean();
    FlatReader {
        header: reader.header | header ^ named.header,
        front: reader.front | front ^ named.front,
        tail: reader.tail | tail ^ named.tail,
        ..reader
    }
}

/// With one clause of well-formedness broken, or no reader at all.
fn broken(random: &mut Random, lent: &Lent, kept: Kept) -> Kept {
    let Kept { reader, run } = kept;
    let length = 3 + reader.header % 65_536;
    let beyond = random.pick(&[LONGEST_LOG + 1, LONGEST_LOG + 256, 1 << 63, u64::MAX]);
    let bound = 2 * reader.offset / 13;
    let reader = match random.below(12) {
        0 => FlatReader { machine: broken_state(random, lent), ..reader },
        1 => FlatReader { machine: nameless_state(random, lent), ..reader },
        2 => FlatReader { offset: beyond, ..reader },
        3 => FlatReader { count: random.pick(&[length, length + 1, beyond]), ..reader },
        4 => {
            let many = random.pick(&[bound + 1, bound + 2, u64::MAX / 13 + 1, u64::MAX]);
            FlatReader { words: many, ..reader }
        }
        5 => FlatReader { told: 0, number: random.pick(&[1, 2, 6, 9, u32::MAX]), ..reader },
        6 => FlatReader { told: 1, number: random.pick(&[2, 10, 13, u32::MAX]), ..reader },
        7 => return with_list(reader, &wrong_lent(random).0),
        8 => FlatReader { pairs: random.pick(&[63, 64, 65, u32::MAX]), ts: 50, n: 50, ..reader },
        9 => FlatReader { opened: random.pick(&[1 - reader.opened, 2, 255]), ..reader },
        10 => FlatReader { ts: random.pick(&[0, 49, 1_001]), ..reader },
        _ => FlatReader { told: random.pick(&[2, 3, 256, u32::MAX]), ..reader },
    };
    Kept { reader, run }
}

/// With this list, good or not, as far as the run has room for it.
fn with_list(reader: FlatReader, lent: &Lent) -> Kept {
    let mut run = EMPTY;
    run.iter_mut().zip(&lent.pairs).for_each(|(place, pair)| *place = pair.number());
    let (pairs, ts, n) = (lent.pairs.len() as u32, lent.ts, lent.n);
    Kept { reader: FlatReader { pairs, ts, n, ..reader }, run }
}

// ---- Ways to cut a log ----

/// The lengths of the pieces of a log of this length: of one size or of any, with
/// empty ones among them.
pub fn random_cut(random: &mut Random, length: usize) -> Vec<usize> {
    let size = random.pick(&[1, 2, 7, 13, 64, 65_536, 0]);
    let mut pieces = match size {
        0 => any_cut(random, length),
        _ => cut(length, || size),
    };
    if random.once_in(4) {
        pieces.insert(random.place(pieces.len() + 1), 0);
    }
    pieces
}

/// The same of any sizes, so that there are not too many pieces of a long log.
pub fn any_cut(random: &mut Random, length: usize) -> Vec<usize> {
    cut(length, || {
        let most = random.pick(&[0, 1, 2, 7, 13, 64, 100, 1_000, 5_000, 65_536]);
        random.place(most + 1)
    })
}

fn cut(length: usize, mut size: impl FnMut() -> usize) -> Vec<usize> {
    let mut left = length;
    let mut pieces = vec![];
    while left > 0 {
        let piece = size().min(left);
        left -= piece;
        pieces.push(piece);
    }
    pieces
}

// ---- Every place of the numbers ----

const OPENED: Flat = Flat { last: at(50), ..states::USUAL };
const WAITING: Flat = Flat { state: 2, key: 21, m: at(50), held: bit(21), ..OPENED };
const FRESH: FlatReader = FlatReader {
    machine: NONE,
    offset: 0,
    words: 0,
    count: 0,
    header: 0,
    front: 0,
    tail: 0,
    told: 0,
    number: 0,
    pairs: 0,
    ts: 0,
    n: 0,
    opened: 0,
};
const BETWEEN: FlatReader =
    FlatReader { machine: WAITING, offset: 1_021, words: 157, ts: 50, n: 1, ..FRESH };

/// Between two records, within one at every part of it, after a refusal and after the
/// end, near the longest log, and while six keys are held.
/// The last ones have a list: of one pair that waits, and one whose record is not whole.
const BASES: [FlatReader; 17] = [
    FRESH,
    FlatReader { count: 7, header: 0x01_0005, front: 100, tail: 0x3232, ..FRESH },
    LISTING,
    BETWEEN,
    FlatReader { count: 2, header: 0x0200, ..BETWEEN },
    FlatReader { count: 4, header: 0x02_000a, front: 2, ..BETWEEN },
    FlatReader { count: 12, header: 0x02_000a, front: 0x0215, tail: 0, ..BETWEEN },
    FlatReader { count: 40, header: 0x09_ffff, front: 0xffff, tail: u64::MAX, ..BETWEEN },
    FlatReader { told: 1, number: 7, ..BETWEEN },
    FlatReader { told: 1, ..BETWEEN },
    FlatReader { offset: LONGEST_LOG - 13, ..BETWEEN },
    FlatReader { machine: Flat { held: SIX, ..WAITING }, ..BETWEEN },
    FlatReader { count: 12, header: 0x02_000a, front: 0x0116, machine: FULL, ..BETWEEN },
    FlatReader { told: 1, number: 11, machine: FULL, ..BETWEEN },
    FlatReader { machine: TWO, pairs: 1, ts: 60, n: 40, ..BETWEEN },
    FlatReader { count: 12, header: 0x03_000b, front: 60, tail: 40, ..LISTING },
    FlatReader { told: 1, number: 12, ..LISTING },
];

/// Two letters wait.
const TWO: Flat = Flat { state: 7, second: 24, k: at(50), ..WAITING };

/// Straight after the settings.
const LISTING: FlatReader = FlatReader { machine: OPENED, offset: 8, opened: 1, ..FRESH };

/// What stands in the run of them all: the pair that waits, and another.
fn usual_run() -> Run {
    let mut run = EMPTY;
    run[0] = pair(24, 21, 0x304c).number();
    run[1] = pair(21, 22, 0x4e00).number();
    run
}

/// Six keys are held, and what waits is due when the next record comes.
const FULL: Flat = Flat { m: at(0), last: at(9), held: SIX, ..WAITING };

/// What is put into each place besides the values of a state's places.
const MORE_VALUES: [u64; 15] = [
    9,
    10,
    11,
    12,
    13,
    14,
    157,
    158,
    1_021,
    0x01_0005,
    0x02_000a,
    0x09_ffff,
    LONGEST_RECORD - 1,
    LONGEST_RECORD,
    LONGEST_LOG - 12,
];

/// How many places a reader's numbers have besides its machine's.
const OWN_PLACES: usize = 12;

/// A number put into one place; none if it is too large for it.
fn with(reader: FlatReader, place: usize, value: u64) -> Option<FlatReader> {
    let short = u32::try_from(value).ok();
    Some(match place {
        0 => FlatReader { offset: value, ..reader },
        1 => FlatReader { words: value, ..reader },
        2 => FlatReader { count: value, ..reader },
        3 => FlatReader { header: value, ..reader },
        4 => FlatReader { front: value, ..reader },
        5 => FlatReader { tail: value, ..reader },
        6 => FlatReader { told: short?, ..reader },
        7 => FlatReader { number: short?, ..reader },
        8 => FlatReader { pairs: short?, ..reader },
        9 => FlatReader { ts: u16::try_from(value).ok()?, ..reader },
        10 => FlatReader { n: u8::try_from(value).ok()?, ..reader },
        11 => FlatReader { opened: u8::try_from(value).ok()?, ..reader },
        _ => {
            let machine = states::with(reader.machine, place - OWN_PLACES, value)?;
            FlatReader { machine, ..reader }
        }
    })
}

/// Hands over every call of the fixed set; stops at the first error.
pub fn every_call<E>(mut visit: impl FnMut(Call) -> Result<(), E>) -> Result<(), E> {
    let up = event_record(Event { kind: 2, key: 21, stamp: 60 });
    let down = event_record(Event { kind: 1, key: 22, stamp: 150 });
    let settings = settings_record(100, 50, 50, 1);
    let list = list_record(&Lent::new(&[pair(21, 24, 0x3042)], 100, 50));
    let records = [&[][..], &[10], &up, &up[1..], &up[12..], &down, &down[12..], &settings];
    let pieces = records.into_iter().chain([&[9, 255, 255][..], &[9, 0, 0]]);
    let pieces = pieces.chain([&list[..], &list[..9], &[0, 0]]);
    let run = usual_run();
    for base in BASES {
        for place in 0..OWN_PLACES + states::PLACES {
            let values = states::VALUES.iter().chain(&MORE_VALUES);
            for reader in values.filter_map(|value| with(base, place, *value)) {
                for (piece, room) in pieces.clone().flat_map(|piece| [(piece, 9), (piece, 1)]) {
                    let kept = Kept { reader, run };
                    visit(Call { kept, piece: piece.to_vec(), room })?;
                }
            }
        }
    }
    Ok(())
}
