//! The machine of document 01, with the requests up to 9/12, as a Rust programmer would
//! write it for speed. All Rust readers of the bench stand on it:
//!
//! - One jump by the state, and one by the kind of the event.
//! - Whether a deadline is due is decided by products: a wait of x n / d, rounded up, is
//!   over once x n is at most d times the time since. So a deadline need not be kept, and
//!   nothing is divided but for a thumb that was held long before its key.
//! - The fields are those of the C face's numbers. What a state doesn't use is left as it
//!   is while events are taken, and made 0 only where numbers are handed back.
//! - An event gives what rests next, which is kept once its words fit.
//! - A list of pairs is lent with every event. Logs that have none are read by code in
//!   which nothing asks for it (`NoPairs`).

use trabeculon_model::live::{at, Flat};

pub const EVENT_LENGTH: usize = 13;
pub const LARGEST_STAMP: u64 = 1_000_000_000_000;
pub const MOST_HELD: u32 = 6;
const SHORT_OVERLAP: u64 = 400;
const TICK: u8 = 6;

/// Allowed keys are below this, by kind.
const KEYS_OF_KIND: [u8; 7] = [0, 31, 31, 2, 2, 1, 1];

/// Plain, left thumb, right thumb; 0 for an empty face.
static FACES: [[u16; 3]; 31] = [
    ['．' as u16, 'ぅ' as u16, 0],
    ['ひ' as u16, 'ー' as u16, 'び' as u16],
    ['す' as u16, 'ろ' as u16, 'ず' as u16],
    ['ふ' as u16, 'や' as u16, 'ぶ' as u16],
    ['へ' as u16, 'ぃ' as u16, 'べ' as u16],
    ['め' as u16, 'ぷ' as u16, 'ぬ' as u16],
    ['そ' as u16, 'ぞ' as u16, 'ゆ' as u16],
    ['ね' as u16, 'ぺ' as u16, 'む' as u16],
    ['ほ' as u16, 'ぼ' as u16, 'わ' as u16],
    ['・' as u16, 0, 'ぉ' as u16],
    ['う' as u16, 'を' as u16, 0],
    ['し' as u16, 'あ' as u16, 'じ' as u16],
    ['て' as u16, 'な' as u16, 'で' as u16],
    ['け' as u16, 'ゅ' as u16, 'げ' as u16],
    ['せ' as u16, 'も' as u16, 'ぜ' as u16],
    ['は' as u16, 'ば' as u16, 'み' as u16],
    ['と' as u16, 'ど' as u16, 'お' as u16],
    ['き' as u16, 'ぎ' as u16, 'の' as u16],
    ['い' as u16, 'ぽ' as u16, 'ょ' as u16],
    ['ん' as u16, 0, 'っ' as u16],
    ['。' as u16, 'ぁ' as u16, 0],
    ['か' as u16, 'え' as u16, 'が' as u16],
    ['た' as u16, 'り' as u16, 'だ' as u16],
    ['こ' as u16, 'ゃ' as u16, 'ご' as u16],
    ['さ' as u16, 'れ' as u16, 'ざ' as u16],
    ['ら' as u16, 'ぱ' as u16, 'よ' as u16],
    ['ち' as u16, 'ぢ' as u16, 'に' as u16],
    ['く' as u16, 'ぐ' as u16, 'る' as u16],
    ['つ' as u16, 'づ' as u16, 'ま' as u16],
    ['，' as u16, 'ぴ' as u16, 'ぇ' as u16],
    ['、' as u16, 0, 0],
];

pub struct Event {
    pub kind: u8,
    pub key: u8,
    pub stamp: u64,
}

/// The event at the start of some bytes, whose record it takes away.
#[inline(always)]
pub fn next_event(rest: &mut &[u8]) -> Option<Event> {
    let (record, behind) = rest.split_first_chunk::<EVENT_LENGTH>()?;
    let [2, 0, 10, kind, key, stamp @ ..] = record else { return None };
    *rest = behind;
    Some(Event { kind: *kind, key: *key, stamp: u64::from_be_bytes(*stamp) })
}

/// Whether settings are in range.
#[inline(always)]
pub fn in_range(t: u16, j: u8, l: u8, solo: u8) -> bool {
    let percent = 1..=99;
    (50..=1000).contains(&t) && percent.contains(&j) && percent.contains(&l) && solo <= 1
}

/// What is lent with every event: a log's list, or that there is none.
pub trait Lent: Copy {
    /// Whether there are pairs, so that two letters may wait.
    const ANY: bool;
    /// The character of two keys; 0 if they are no pair.
    fn of(self, a: u8, b: u8) -> u16;
    /// Whether a key waits still, since it is in some pair.
    fn waits(self, key: u8, since: u64) -> bool;
    /// What an event does while two letters wait.
    fn in_s7(self, engine: Engine, kind: u8, new: u8, now: u64) -> Effect;
    fn in_s8(self, engine: Engine, kind: u8, new: u8, now: u64) -> Effect;
}

#[derive(Clone, Copy)]
pub struct NoPairs;

impl Lent for NoPairs {
    const ANY: bool = false;

    #[inline(always)]
    fn of(self, _: u8, _: u8) -> u16 {
        0
    }

    #[inline(always)]
    fn waits(self, _: u8, _: u64) -> bool {
        false
    }

    // No two letters wait.

    #[inline(always)]
    fn in_s7(self, engine: Engine, _: u8, _: u8, _: u64) -> Effect {
        (NOTHING, engine.resting)
    }

    #[inline(always)]
    fn in_s8(self, engine: Engine, _: u8, _: u8, _: u64) -> Effect {
        (NOTHING, engine.resting)
    }
}

/// What a log's list lends: one number a pair (key, key, character from the top), T_s and N.
#[derive(Clone, Copy)]
pub struct Pairs<'a> {
    pub list: &'a [u32],
    pub ts: u64,
    pub n: u64,
}

/// So many pairs may be lent.
pub const MOST_PAIRS: usize = 64;
/// How long a list record is without its pairs: tag, length, T_s, N.
pub const LIST_HEAD: usize = 6;

impl Lent for Pairs<'_> {
    const ANY: bool = true;

    #[inline(always)]
    fn of(self, a: u8, b: u8) -> u16 {
        find(self.list, a, b)
    }

    #[inline(always)]
    fn waits(self, key: u8, since: u64) -> bool {
        since * self.n < self.ts * (100 - self.n) && has(self.list, key)
    }

    #[inline(never)]
    fn in_s7(self, engine: Engine, kind: u8, new: u8, now: u64) -> Effect {
        engine.in_s7(self, kind, new, now)
    }

    #[inline(never)]
    fn in_s8(self, engine: Engine, kind: u8, new: u8, now: u64) -> Effect {
        engine.in_s8(self, kind, new, now)
    }
}

impl Pairs<'_> {
    /// Whether it is accepted.
    pub fn is_good(self) -> bool {
        let good = |number: &u32| {
            let [first, second, ..] = number.to_be_bytes();
            let character = number & 0xffff;
            let surrogate = (0xd800..0xe000).contains(&character);
            first < 31 && second < 31 && first != second && character >= 0x20 && !surrogate
        };
        let times = (50..=1000).contains(&self.ts) && (1..=99).contains(&self.n);
        times
            && self.list.len() <= MOST_PAIRS
            && self.list.iter().all(good)
            && (1..self.list.len()).all(|end| {
                let [first, second, ..] = self.list[end].to_be_bytes();
                find(&self.list[..end], first, second) == 0
            })
    }
}

#[inline(never)]
fn find(list: &[u32], a: u8, b: u8) -> u16 {
    let [one, other] = [(a, b), (b, a)].map(|(a, b)| u32::from_be_bytes([a, b, 0, 0]) >> 16);
    let is_of = |number: &&u32| **number >> 16 == one || **number >> 16 == other;
    list.iter().find(is_of).map_or(0, |number| *number as u16)
}

#[inline(never)]
fn has(list: &[u32], key: u8) -> bool {
    list.iter().any(|number| {
        let [first, second, ..] = number.to_be_bytes();
        first == key || second == key
    })
}

/// Where a log's list stands: straight after the settings.
pub const LIST_OFFSET: u64 = 8;

/// Keeps some bytes of a list's record behind those that came, from the first pair's on,
/// in the run where its pairs live.
#[cold]
pub fn keep_pairs(run: &mut [u32; MOST_PAIRS], count: u64, bytes: &[u8]) {
    for (index, byte) in (count..).zip(bytes).filter(|(index, _)| *index >= LIST_HEAD as u64) {
        let place = (index - LIST_HEAD as u64) as usize;
        if let Some(number) = run.get_mut(place / 4) {
            *number = *number << 8 | u32::from(*byte);
        }
    }
}

/// How many pairs a whole list record of so many bytes has, if it is accepted.
#[cold]
pub fn accepted_list(run: &[u32; MOST_PAIRS], count: u64, ts: u16, n: u8) -> Result<usize, u32> {
    let length = count as usize;
    if length < LIST_HEAD || (length - LIST_HEAD) % 4 != 0 {
        return Err(7);
    }
    let count = (length - LIST_HEAD) / 4;
    let pairs = Pairs { list: run.get(..count).ok_or(12u32)?, ts: ts.into(), n: n.into() };
    pairs.is_good().then_some(count).ok_or(12)
}

/// The words of one step: 0 where there is none, and no second without a first.
pub struct Words(u16, u16);

const NOTHING: Words = Words(0, 0);

impl Words {
    /// Writes all words, high byte first, and says how many bytes; none if they don't fit.
    #[inline(always)]
    fn write(self, out: &mut [u8]) -> Option<usize> {
        if self.0 == 0 {
            return Some(0);
        }
        let [a, b] = self.0.to_be_bytes();
        if self.1 == 0 {
            *out.first_chunk_mut()? = [a, b];
            return Some(2);
        }
        let [c, d] = self.1.to_be_bytes();
        *out.first_chunk_mut()? = [a, b, c, d];
        Some(4)
    }
}

#[derive(Clone, Copy)]
pub struct Engine {
    t: u64,
    j: u64,
    l: u64,
    solo: bool,
    last: u64,
    /// One bit a key.
    held: u32,
    resting: Resting,
}

/// Of two letters the second takes the thumb's place, and `o` is when it was pressed.
#[derive(Clone, Copy)]
pub struct Resting {
    state: u8,
    key: u8,
    thumb: u8,
    m: u64,
    o: u64,
    r: u64,
}

/// What an event commits, and what rests after it.
pub type Effect = (Words, Resting);

impl Engine {
    /// None if the settings are out of range.
    #[inline(always)]
    pub fn open(t: u16, j: u8, l: u8, solo: u8) -> Option<Engine> {
        let opened = Flat { t, j, l, solo, state: 1, ..Flat::default() };
        in_range(t, j, l, solo).then(|| Engine::of(&opened))
    }

    /// How many characters wait.
    #[inline(always)]
    pub fn waiting(&self) -> u32 {
        waiting(self.resting.state)
    }

    /// The machine that these numbers name. They are well formed.
    #[inline(always)]
    pub fn of(machine: &Flat) -> Engine {
        let Flat { last, m, k, o, r, held, second, t, j, l, solo, state, key, thumb } = *machine;
        let (thumb, o) = if state < 7 { (thumb, o) } else { (second as u8, k) };
        let resting = Resting { state, key, thumb, m: m.ms, o: o.ms, r: r.ms };
        let (t, j, l) = (t.into(), j.into(), l.into());
        Engine { t, j, l, solo: solo == 1, last: last.ms, held, resting }
    }

    /// The numbers after some events, given those before.
    #[inline(always)]
    pub fn numbers(&self, before: &Flat) -> Flat {
        let Resting { state, key, thumb, m, o, r } = self.resting;
        let (key, m) = if matches!(state, 1 | 3) { (0, 0) } else { (key, m) };
        let (second, k) = if state < 7 { (0, 0) } else { (thumb.into(), o) };
        let (thumb, o) = if matches!(state, 3..=6) { (thumb, o) } else { (0, 0) };
        let r = if matches!(state, 6 | 8) { r } else { 0 };
        let ([last, m, k, o, r], held) = ([self.last, m, k, o, r].map(at), self.held);
        Flat { last, m, k, o, r, held, second, state, key, thumb, ..*before }
    }

    /// Takes an event and writes its words. How many bytes; nothing is done where it is
    /// refused.
    #[inline(always)]
    pub fn put(&mut self, lent: impl Lent, event: Event, out: &mut [u8]) -> Result<usize, u32> {
        let Event { kind, key, stamp } = event;
        if kind > 6 || key >= KEYS_OF_KIND[usize::from(kind)] {
            return Err(3);
        }
        if stamp > LARGEST_STAMP {
            return Err(4);
        }
        if stamp < self.last {
            return Err(5);
        }
        let (kind, held) = self.hold(kind, key)?;
        let (words, resting) = self.take(lent, kind, key, stamp);
        let bytes = words.write(out).ok_or(8u32)?;
        self.resting = resting;
        self.last = stamp;
        self.held = held;
        Ok(bytes)
    }

    /// What an event acts as, and which keys are held after it: a repeat, and an up of a
    /// key that is not held, are ticks.
    #[inline(always)]
    fn hold(&self, kind: u8, key: u8) -> Result<(u8, u32), u32> {
        if kind > 2 {
            return Ok((kind, self.held));
        }
        let (down, bit) = (kind == 1, 1 << key);
        if down == (self.held & bit != 0) {
            return Ok((TICK, self.held));
        }
        if down && self.held.count_ones() == MOST_HELD {
            return Err(11);
        }
        Ok((kind, self.held ^ bit))
    }

    #[inline(always)]
    fn take<L: Lent>(&self, lent: L, kind: u8, k: u8, now: u64) -> Effect {
        match self.resting.state {
            1 => (NOTHING, self.resting.in_s1(kind, k, now)),
            2 => self.in_s2(lent, kind, k, now),
            3 => self.in_s3(kind, k, now),
            4 => self.in_s4(kind, k, now),
            5 => self.in_s5(kind, k, now),
            7 if L::ANY => lent.in_s7(*self, kind, k, now),
            8 if L::ANY => lent.in_s8(*self, kind, k, now),
            _ => self.in_s6(kind, k, now),
        }
    }

    // What is due comes first; it leaves S1, where no event commits.

    #[inline(always)]
    fn in_s2(&self, lent: impl Lent, kind: u8, k: u8, now: u64) -> Effect {
        let same @ Resting { key, m, .. } = self.resting;
        if (now - m) * self.j >= self.t * (100 - self.j) && !lent.waits(key, now - m) {
            return (plain(key), same.in_s1(kind, k, now));
        }
        match kind {
            1 if lent.of(key, k) != 0 => (NOTHING, Resting { state: 7, thumb: k, o: now, ..same }),
            1 => (plain(key), same.lone_key(k, now)),
            2 if k == key => (plain(key), same.at_rest()),
            3 => (NOTHING, Resting { state: 4, thumb: k, o: now, ..same }),
            5 => (plain(key), same.at_rest()),
            _ => (NOTHING, same),
        }
    }

    #[inline(always)]
    fn in_s3(&self, kind: u8, k: u8, now: u64) -> Effect {
        let same @ Resting { thumb, o, .. } = self.resting;
        if self.solo && (now - o) * self.l >= self.t * (100 - self.l) {
            return (self.mark(thumb), same.in_s1(kind, k, now));
        }
        match kind {
            1 => (NOTHING, Resting { state: 5, key: k, m: now, ..same }),
            3 if k != thumb => (self.mark(thumb), same.lone_thumb(k, now)),
            4 if k == thumb => (self.mark(thumb), same.at_rest()),
            5 => (self.mark(thumb), same.at_rest()),
            _ => (NOTHING, same),
        }
    }

    #[inline(always)]
    fn in_s4(&self, kind: u8, k: u8, now: u64) -> Effect {
        let same @ Resting { key, m, thumb, o, .. } = self.resting;
        if (now - o) * (100 - self.j) >= (o - m) * self.j {
            return (chord(key, thumb), same.in_s1(kind, k, now));
        }
        match kind {
            1 if o - m > now - o => (plain(key), Resting { state: 5, key: k, m: now, ..same }),
            1 => (chord(key, thumb), same.lone_key(k, now)),
            2 if k == key && short_overlap(self.j, o - m, now - o) => {
                (plain(key), Resting { state: 3, ..same })
            }
            2 if k == key => (chord(key, thumb), same.at_rest()),
            3 if k != thumb => (chord(key, thumb), same.lone_thumb(k, now)),
            4 if k == thumb => (chord(key, thumb), same.at_rest()),
            5 => (chord(key, thumb), same.at_rest()),
            _ => (NOTHING, same),
        }
    }

    #[inline(always)]
    fn in_s5(&self, kind: u8, k: u8, now: u64) -> Effect {
        let same @ Resting { key, m, thumb, o, .. } = self.resting;
        let since = (now - m) * (100 - self.l);
        // The lag counts for no more than a lone thumb's wait.
        let due = since >= (m - o) * self.l
            || since >= (self.t * (100 - self.l)).next_multiple_of(self.l);
        if due {
            return (chord(key, thumb), same.in_s1(kind, k, now));
        }
        match kind {
            1 => (chord(key, thumb), same.lone_key(k, now)),
            2 if k == key => (chord(key, thumb), same.at_rest()),
            3 if k != thumb && m - o >= now - m => {
                (self.mark(thumb), Resting { state: 4, thumb: k, o: now, ..same })
            }
            3 if k != thumb => (chord(key, thumb), same.lone_thumb(k, now)),
            4 if k == thumb && short_overlap(self.l, m - o, now - m) => {
                (NOTHING, Resting { state: 6, r: now, ..same })
            }
            4 if k == thumb => (chord(key, thumb), same.at_rest()),
            5 => (chord(key, thumb), same.at_rest()),
            _ => (NOTHING, same),
        }
    }

    #[inline(always)]
    fn in_s6(&self, kind: u8, k: u8, now: u64) -> Effect {
        let same @ Resting { key, m, thumb, r, .. } = self.resting;
        if now - r >= r - m {
            return (self.both(key, thumb), same.in_s1(kind, k, now));
        }
        match kind {
            1 => (chord(key, thumb), same.lone_key(k, now)),
            2 if k == key => (chord(key, thumb), same.at_rest()),
            3 => (chord(key, thumb), same.lone_thumb(k, now)),
            5 => (self.both(key, thumb), same.at_rest()),
            _ => (NOTHING, same),
        }
    }

    // Two letters wait, which only a log with pairs comes to.

    fn in_s7(self, pairs: Pairs, kind: u8, new: u8, now: u64) -> Effect {
        let same @ Resting { key, m, thumb: second, o: k, .. } = self.resting;
        let pair = Words(pairs.of(key, second), 0);
        if now - k >= pairs.ts {
            return (pair, same.in_s1(kind, new, now));
        }
        match kind {
            1 | 3 => self.third(pairs, kind, new, now),
            2 if new == key && 100 * (now - k) < pairs.n * (now - m) => {
                (NOTHING, Resting { state: 8, r: now, ..same })
            }
            2 if new == key || new == second => (pair, same.at_rest()),
            5 => (pair, same.at_rest()),
            _ => (NOTHING, same),
        }
    }

    fn in_s8(self, pairs: Pairs, kind: u8, new: u8, now: u64) -> Effect {
        let same @ Resting { key, thumb: second, o: k, r, .. } = self.resting;
        if (now - r) * pairs.n >= (r - k) * (100 - pairs.n) {
            return (two(key, second), same.in_s1(kind, new, now));
        }
        match kind {
            1 | 3 => self.third(pairs, kind, new, now),
            2 if new == second && 100 * (r - k) < self.l * (now - k) => {
                (two(key, second), same.at_rest())
            }
            2 if new == second => (Words(pairs.of(key, second), 0), same.at_rest()),
            5 => (Words(pairs.of(key, second), 0), same.at_rest()),
            _ => (NOTHING, same),
        }
    }

    /// A third key, letter or thumb.
    #[inline(always)]
    fn third(self, pairs: Pairs, kind: u8, new: u8, now: u64) -> Effect {
        let same @ Resting { key, m, thumb: second, o: k, .. } = self.resting;
        if k - m < now - k {
            return (Words(pairs.of(key, second), 0), same.in_s1(kind, new, now));
        }
        let left = Resting { key: second, m: k, ..same };
        match kind {
            3 => (plain(key), Resting { state: 4, thumb: new, o: now, ..left }),
            _ if pairs.of(second, new) != 0 => {
                (plain(key), Resting { state: 7, thumb: new, o: now, ..left })
            }
            _ => (two(key, second), same.lone_key(new, now)),
        }
    }

    #[inline(always)]
    fn mark(&self, thumb: u8) -> Words {
        if self.solo {
            Words(u16::from(thumb) + 1, 0)
        } else {
            NOTHING
        }
    }

    /// A mark, if there are marks, and then the plain character.
    #[inline(always)]
    fn both(&self, key: u8, thumb: u8) -> Words {
        let Words(character, _) = plain(key);
        if self.solo {
            Words(u16::from(thumb) + 1, character)
        } else {
            Words(character, 0)
        }
    }
}

impl Resting {
    #[inline(always)]
    fn at_rest(self) -> Resting {
        Resting { state: 1, ..self }
    }

    #[inline(always)]
    fn lone_key(self, key: u8, m: u64) -> Resting {
        Resting { state: 2, key, m, ..self }
    }

    #[inline(always)]
    fn lone_thumb(self, thumb: u8, o: u64) -> Resting {
        Resting { state: 3, thumb, o, ..self }
    }

    #[inline(always)]
    fn in_s1(self, kind: u8, k: u8, now: u64) -> Resting {
        match kind {
            1 => self.lone_key(k, now),
            3 => self.lone_thumb(k, now),
            _ => self.at_rest(),
        }
    }
}

#[inline(always)]
fn plain(key: u8) -> Words {
    Words(FACES[usize::from(key)][0], 0)
}

/// Two plain characters.
#[inline(always)]
fn two(key: u8, second: u8) -> Words {
    Words(FACES[usize::from(key)][0], FACES[usize::from(second)][0])
}

/// How many characters wait in a state.
#[inline(always)]
pub fn waiting(state: u8) -> u32 {
    match state {
        0 | 1 | 3 => 0,
        7 | 8 => 2,
        _ => 1,
    }
}

#[inline(always)]
fn chord(key: u8, thumb: u8) -> Words {
    Words(FACES[usize::from(key)][usize::from(thumb) + 1], 0)
}

#[inline(always)]
fn short_overlap(percent: u64, a: u64, b: u64) -> bool {
    100 * b < percent * (a + b) && b < SHORT_OVERLAP
}
