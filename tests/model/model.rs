//! The key-timing machine of document 01, as requests 1/12, 3/12, 4/12, 7/12 and 9/12 of
//! document 02 mend it, in plain Rust, section by section in 01's order. Written
//! from the papers alone and never from the proved code, so that a comparison of
//! the two says something. What ends in `_with` is lent a list of pairs (9/12,
//! pairs.rs); the same without is lent one of no pairs.

use crate::pairs::{Lent, NO_PAIRS};

// ---- Numbers ----

/// From this overlap (ms) on, a chord is never taken for two single keys.
pub const SHORT_OVERLAP: u64 = 400;
/// The smallest and the largest T (ms); the largest as request 4/12 has it.
pub const LEAST_T: u64 = 50;
pub const MOST_T: u64 = 1_000;
pub const KEYS: u8 = 31;
/// So many of them may be held at once (7/12).
pub const MOST_HELD: u32 = 6;
pub const LARGEST_STAMP: u64 = 1_000_000_000_000;

/// A wrong rule put in on purpose, to show that a comparison can fail.
#[derive(Clone, Copy, PartialEq, Eq, Debug)]
pub enum Slip {
    /// The event acts before the deadline that is due.
    LateAfterEvent,
    /// Waits are rounded down.
    RoundsDown,
    /// S4 falls back to S3 with a new stamp for the thumb.
    ThumbRestarts,
    /// S4's equal gaps go to the second character, as before 1/12.
    EqualGap,
    /// S5's wait grows with a held thumb.
    NoCap,
    /// The 400 ms rule is missing.
    NoShortOverlap,
    /// The 400 ms rule is missing in S5.
    NoShortOverlapInS5,
    /// An overlap of exactly 400 ms counts as short.
    ShortOverlapLate,
    /// T above 200 is refused, as before 4/12.
    TMost200,
    /// A down of a key that is held is a new press, as before 7/12.
    RepeatsAsPresses,
    /// A down of a key that is held changes nothing, not even the last stamp.
    RepeatIgnored,
    /// A down of a key that is held is refused 11 too, while 6 are held.
    RepeatRefused,
    /// An up leaves its key held.
    UpHolds,
    /// A function key clears the held set.
    FunctionClears,
    /// A seventh key may be held.
    SevenHeld,
    /// 11 comes before 3.
    ElevenBeforeThree,
    /// 11 comes before 4.
    ElevenBeforeFour,
    /// 11 comes before 5.
    ElevenBeforeFive,
    /// On a record 8 comes before 11. No single event shows it.
    EightBeforeEleven,
    /// An up of a key that is not held acts as an up. No sequence from a fresh state
    /// shows it, as there every key that waits is held.
    StrayUpActs,
    /// M counts as held while it waits. No sequence from a fresh state shows it.
    WaitingCountsAsHeld,
    /// Bit 31 of the held set may be 1. No sequence from a fresh state shows it.
    Bit31Allowed,
    /// Seven held keys are well formed. No sequence from a fresh state shows it.
    SevenFormed,
    /// A lone thumb's wait is counted from the clock's zero point.
    ThumbByTheClock,
    /// A lone character that was pressed before the stamp 2^32 is due there at the latest.
    /// No log shows it that is not moved (8/12).
    DueAt2To32,
    /// A key in no pair waits as long as one in a pair (9/12).
    AllWaitLonger,
    /// A key in some pair waits no longer than others.
    PairWaitsA,
    /// The order within a pair is regarded.
    PairOrderRegarded,
    /// Equal gaps go to the pair.
    EqualGapToPair,
    /// A second letter that is left over from a pair has the first one's stamp.
    SplitStamp,
    /// A third letter is never a pair with the second.
    ThirdNeverPairs,
    /// A third letter's gaps are not regarded after M's release: the pair is broken up.
    ThirdBreaksUp,
    /// K's release in S8 is judged by N.
    NForL,
    /// M's release in S7 ends the pair whatever its share.
    UpEndsPair,
    /// S8 waits as S6 does.
    S8WaitsAsS6,
    /// A function key in S8 gives both letters.
    FunctionBreaksUp,
    /// What is late in S8 gives the pair.
    LatePairs,
    /// Only one backspace is sent for two shown letters.
    OneBackspace,
    /// Both shown letters are taken back where the first stays.
    FirstTakenBack,
    /// Two letters wait, and one is counted.
    TwoWaitAsOne,
    /// A pair may stand in a list twice.
    PairTwice,
    /// A pair may stand in a list twice, once in either order.
    PairTurnedTwice,
    /// A key may be a pair with itself.
    PairWithItself,
    /// Key 31 may be in a pair.
    PairOfKey31,
    /// A pair's character may be a surrogate.
    Surrogates,
    /// A pair's character may be below U+0020.
    ControlCharacters,
    /// 65 pairs are accepted.
    SixtyFivePairs,
    /// T_s and N are not asked where there are no pairs.
    TimesUnaskedWithoutPairs,
    /// 12 comes after 2. No log shows it, as there the state is well formed.
    TwelveAfterTwo,
    /// Two waiting letters need not be a pair of the lent list. No log shows it.
    NoPairFormed,
    /// A list is accepted in a log also behind events. No single event shows it.
    ListLater,
    /// In a log a list of more than 64 pairs is refused 7. No single event shows it.
    SevenForTwelve,
    /// In a log a list whose length is not 3+4n is refused 12. No single event shows it.
    TwelveForSeven,
    /// In a log a pair's character has its low byte first. No single event shows it.
    LowByteFirst,
}

pub const SLIPS: [(&str, Slip); 54] = [
    ("late-after-event", Slip::LateAfterEvent),
    ("rounds-down", Slip::RoundsDown),
    ("thumb-restarts", Slip::ThumbRestarts),
    ("equal-gap", Slip::EqualGap),
    ("no-cap", Slip::NoCap),
    ("no-short-overlap", Slip::NoShortOverlap),
    ("no-short-overlap-in-s5", Slip::NoShortOverlapInS5),
    ("short-overlap-late", Slip::ShortOverlapLate),
    ("t-most-200", Slip::TMost200),
    ("repeats-as-presses", Slip::RepeatsAsPresses),
    ("repeat-ignored", Slip::RepeatIgnored),
    ("repeat-refused", Slip::RepeatRefused),
    ("up-holds", Slip::UpHolds),
    ("function-clears", Slip::FunctionClears),
    ("seven-held", Slip::SevenHeld),
    ("eleven-before-three", Slip::ElevenBeforeThree),
    ("eleven-before-four", Slip::ElevenBeforeFour),
    ("eleven-before-five", Slip::ElevenBeforeFive),
    ("eight-before-eleven", Slip::EightBeforeEleven),
    ("stray-up-acts", Slip::StrayUpActs),
    ("waiting-counts-as-held", Slip::WaitingCountsAsHeld),
    ("bit-31-allowed", Slip::Bit31Allowed),
    ("seven-formed", Slip::SevenFormed),
    ("thumb-by-the-clock", Slip::ThumbByTheClock),
    ("due-at-2-to-32", Slip::DueAt2To32),
    ("all-wait-longer", Slip::AllWaitLonger),
    ("pair-waits-a", Slip::PairWaitsA),
    ("pair-order-regarded", Slip::PairOrderRegarded),
    ("equal-gap-to-pair", Slip::EqualGapToPair),
    ("split-stamp", Slip::SplitStamp),
    ("third-never-pairs", Slip::ThirdNeverPairs),
    ("third-breaks-up", Slip::ThirdBreaksUp),
    ("n-for-l", Slip::NForL),
    ("up-ends-pair", Slip::UpEndsPair),
    ("s8-waits-as-s6", Slip::S8WaitsAsS6),
    ("function-breaks-up", Slip::FunctionBreaksUp),
    ("late-pairs", Slip::LatePairs),
    ("one-backspace", Slip::OneBackspace),
    ("first-taken-back", Slip::FirstTakenBack),
    ("two-wait-as-one", Slip::TwoWaitAsOne),
    ("pair-twice", Slip::PairTwice),
    ("pair-turned-twice", Slip::PairTurnedTwice),
    ("pair-with-itself", Slip::PairWithItself),
    ("pair-of-key-31", Slip::PairOfKey31),
    ("surrogates", Slip::Surrogates),
    ("control-characters", Slip::ControlCharacters),
    ("sixty-five-pairs", Slip::SixtyFivePairs),
    ("times-unasked-without-pairs", Slip::TimesUnaskedWithoutPairs),
    ("twelve-after-two", Slip::TwelveAfterTwo),
    ("no-pair-formed", Slip::NoPairFormed),
    ("list-later", Slip::ListLater),
    ("seven-for-twelve", Slip::SevenForTwelve),
    ("twelve-for-seven", Slip::TwelveForSeven),
    ("low-byte-first", Slip::LowByteFirst),
];

/// Settings in range: `new` is the only way to get one.
#[derive(Clone, Copy, PartialEq, Eq, Debug)]
pub struct Settings {
    t: u64,
    j: u64,
    l: u64,
    solo: bool,
    slip: Option<Slip>,
}

impl Settings {
    /// None if a number is out of range (refusal 1).
    pub fn new(t: u64, j: u64, l: u64, solo: u64) -> Option<Settings> {
        Settings::new_with(None, t, j, l, solo)
    }

    /// The same with a wrong rule put in.
    pub fn new_with(slip: Option<Slip>, t: u64, j: u64, l: u64, solo: u64) -> Option<Settings> {
        let most_t = if slip == Some(Slip::TMost200) { 200 } else { MOST_T };
        let percent = 1..=99;
        let in_range = (LEAST_T..=most_t).contains(&t)
            && percent.contains(&j)
            && percent.contains(&l)
            && solo <= 1;
        in_range.then_some(Settings { t, j, l, solo: solo == 1, slip })
    }

    /// T, J, L, solo: in range, so they fit.
    pub fn numbers(&self) -> (u16, u8, u8, u8) {
        (self.t as u16, self.j as u8, self.l as u8, u8::from(self.solo))
    }

    fn slips(&self, slip: Slip) -> bool {
        self.slip == Some(slip)
    }

    /// A quotient rounded up.
    fn quotient(&self, n: u64, d: u64) -> u64 {
        if self.slips(Slip::RoundsDown) {
            n / d
        } else {
            n.div_ceil(d)
        }
    }

    /// A: how long a lone character key waits.
    pub fn a(&self) -> u64 {
        self.quotient(self.t * (100 - self.j), self.j)
    }

    /// B: how long a lone thumb waits.
    pub fn b(&self) -> u64 {
        self.quotient(self.t * (100 - self.l), self.l)
    }

    /// FJ(x) for a lag x of at most the largest stamp; a longer one counts as that.
    pub fn fj(&self, x: u64) -> u64 {
        self.quotient(x.min(LARGEST_STAMP) * self.j, 100 - self.j)
    }

    /// FL(x), for x as in `fj`.
    pub fn fl(&self, x: u64) -> u64 {
        self.quotient(x.min(LARGEST_STAMP) * self.l, 100 - self.l)
    }

    /// W: no press waits this long.
    pub fn longest_wait(&self) -> u64 {
        self.longest_wait_with(&NO_PAIRS)
    }

    /// Where there are pairs (9/12): up to X a press waits for what comes next, and X is
    /// also the larger of A and P for a key in some pair. If that is a second letter, it
    /// waits up to T_s more, and after M's release, before T_s is over, up to P.
    pub fn longest_wait_with(&self, lent: &Lent) -> u64 {
        let d = self.fl(self.b());
        let x = self.a().max(d);
        if lent.pairs.is_empty() {
            return x + x.max(self.fj(x));
        }
        let x = x.max(self.p(lent));
        x + x.max(self.fj(x)).max(u64::from(lent.ts) + self.p(lent))
    }

    // The waits of 9/12.

    /// GN(x) = x(100-N)/N.
    fn gn(&self, lent: &Lent, x: u64) -> u64 {
        let n = u64::from(lent.n);
        self.quotient(x.min(LARGEST_STAMP) * (100 - n), n)
    }

    /// P = GN(T_s).
    pub fn p(&self, lent: &Lent) -> u64 {
        self.gn(lent, lent.ts.into())
    }

    /// How long a character waits alone: a key in some pair the larger of A and P.
    fn alone(&self, lent: &Lent, key: u8) -> u64 {
        let longer = lent.in_some_pair(self.slip, key) && !self.slips(Slip::PairWaitsA);
        if longer {
            self.a().max(self.p(lent))
        } else {
            self.a()
        }
    }
}

// ---- The layout ----

#[derive(Clone, Copy, PartialEq, Eq, Debug)]
pub enum Thumb {
    Left,
    Right,
}

#[derive(Clone, Copy, PartialEq, Eq, Debug)]
pub enum Face {
    Plain,
    Under(Thumb),
}

/// 01's table: plain, left thumb, right thumb; five keys a row, six in the last.
const LAYOUT: [[&str; 3]; 6] = [
    ["．ひすふへ", "ぅーろやぃ", "-びずぶべ"],
    ["めそねほ・", "ぷぞぺぼ-", "ぬゆむわぉ"],
    ["うしてけせ", "をあなゅも", "-じでげぜ"],
    ["はときいん", "ばどぎぽ-", "みおのょっ"],
    ["。かたこさ", "ぁえりゃれ", "-がだござ"],
    ["らちくつ，、", "ぱぢぐづぴ-", "よにるまぇ-"],
];

/// The character on a key's face; none for an empty face (or a key that isn't there).
pub fn character(key: u8, face: Face) -> Option<char> {
    let row = (key / 5).min(5);
    let column = match face {
        Face::Plain => 0,
        Face::Under(Thumb::Left) => 1,
        Face::Under(Thumb::Right) => 2,
    };
    let place = usize::from(key - 5 * row);
    LAYOUT[usize::from(row)][column].chars().nth(place).filter(|c| *c != '-')
}

// ---- Resting states ----

/// M is `key` pressed at `m`; O is `thumb` pressed at `o`, released at `r`; a second
/// letter K is `second` pressed at `k`, and then `r` is M's release.
#[derive(Clone, Copy, PartialEq, Eq, Debug)]
pub enum Resting {
    /// Nothing.
    S1,
    /// M.
    S2 { key: u8, m: u64 },
    /// O.
    S3 { thumb: Thumb, o: u64 },
    /// M then O.
    S4 { key: u8, m: u64, thumb: Thumb, o: u64 },
    /// O then M.
    S5 { thumb: Thumb, o: u64, key: u8, m: u64 },
    /// O then M, O released.
    S6 { thumb: Thumb, o: u64, key: u8, m: u64, r: u64 },
    /// M then K, a pair (9/12).
    S7 { key: u8, m: u64, second: u8, k: u64 },
    /// M then K, a pair, M released.
    S8 { key: u8, m: u64, second: u8, k: u64, r: u64 },
}

use Resting::{S1, S2, S3, S4, S5, S6, S7, S8};

/// Request 7/12: the set of held character keys, one bit a key, key 0 the lowest.
#[derive(Clone, Copy, PartialEq, Eq, Default, Debug)]
pub struct Held(pub u32);

impl Held {
    /// The set of these keys.
    pub fn of(keys: &[u8]) -> Held {
        keys.iter().fold(Held::default(), |held, key| held.with(*key))
    }

    pub fn has(self, key: u8) -> bool {
        key < KEYS && self.0 >> key & 1 == 1
    }

    /// The character keys in the set.
    pub fn keys(self) -> impl Iterator<Item = u8> {
        (0..KEYS).filter(move |key| self.has(*key))
    }

    /// The number of ones, bit 31 among them.
    pub fn count(self) -> u32 {
        self.0.count_ones()
    }

    pub fn with(self, key: u8) -> Held {
        Held(self.0 | 1 << key)
    }

    pub fn without(self, key: u8) -> Held {
        Held(self.0 & !(1 << key))
    }
}

#[derive(Clone, Copy, PartialEq, Eq, Debug)]
pub struct Machine {
    pub settings: Settings,
    pub resting: Resting,
    /// The last accepted stamp.
    pub last: u64,
    pub held: Held,
}

impl Machine {
    pub fn fresh(settings: Settings) -> Machine {
        Machine { settings, resting: S1, last: 0, held: Held::default() }
    }

    pub fn well_formed(&self) -> bool {
        self.well_formed_with(&NO_PAIRS)
    }

    pub fn well_formed_with(&self, lent: &Lent) -> bool {
        let last = self.last;
        let pair = |a, b| {
            let slip = self.settings.slip;
            lent.together(slip, a, b).is_some() || slip == Some(Slip::NoPairFormed)
        };
        let resting = match self.resting {
            S1 => true,
            S2 { key, m } => key < KEYS && m <= last,
            S3 { o, .. } => o <= last,
            S4 { key, m, o, .. } => key < KEYS && m <= o && o <= last,
            S5 { key, o, m, .. } => key < KEYS && o <= m && m <= last,
            S6 { key, o, m, r, .. } => key < KEYS && o <= m && m <= r && r <= last,
            S7 { key, m, second, k } => {
                key < KEYS && second < KEYS && m <= k && k <= last && pair(key, second)
            }
            S8 { key, m, second, k, r } => {
                let keys = key < KEYS && second < KEYS;
                keys && m <= k && k <= r && r <= last && pair(key, second)
            }
        };
        resting && last <= LARGEST_STAMP && self.held_well_formed()
    }

    /// Bits 31 and up are 0, and at most 6 are set. That the key which waits is held is
    /// not asked.
    fn held_well_formed(&self) -> bool {
        let s = &self.settings;
        let seven = s.slips(Slip::SevenFormed) || s.slips(Slip::SevenHeld);
        let top_is_0 = self.held.0 >> KEYS == 0 || s.slips(Slip::Bit31Allowed);
        top_is_0 && self.held.count() <= MOST_HELD + u32::from(seven)
    }

    /// Whether a down of this key is a repeat.
    pub fn holds(&self, key: u8) -> bool {
        let waits = self.settings.slips(Slip::WaitingCountsAsHeld);
        self.held.has(key) || waits && self.waits(key)
    }

    /// Request 3/12: the milliseconds from a keyboard stamp to the next deadline,
    /// positive still to wait, 0 due now, negative overdue; none if there is no
    /// deadline. Refusals 12 (9/12), 2, 4, 5 in this order.
    pub fn distance(&self, stamp: u64) -> Result<Option<i64>, u32> {
        self.distance_with(&NO_PAIRS, stamp)
    }

    pub fn distance_with(&self, lent: &Lent, stamp: u64) -> Result<Option<i64>, u32> {
        self.lent_and_formed(lent)?;
        if stamp > LARGEST_STAMP {
            return Err(4);
        }
        if stamp < self.last {
            return Err(5);
        }
        // Both are far below the largest i64: no wait is above 100 largest stamps.
        Ok(self.deadline(lent).map(|deadline| deadline as i64 - stamp as i64))
    }

    /// Refusal 12, then 2.
    fn lent_and_formed(&self, lent: &Lent) -> Result<(), u32> {
        let (good, formed) = (lent.good(self.settings.slip), self.well_formed_with(lent));
        match (good, formed) {
            (false, false) if self.settings.slips(Slip::TwelveAfterTwo) => Err(2),
            (false, _) => Err(12),
            (_, false) => Err(2),
            _ => Ok(()),
        }
    }

    /// The deadline of a well-formed state.
    fn deadline(&self, lent: &Lent) -> Option<u64> {
        let s = &self.settings;
        match self.resting {
            S1 => None,
            S2 { key, m } if s.slips(Slip::DueAt2To32) && m >> 32 == 0 => {
                Some((m + s.alone(lent, key)).min(1 << 32))
            }
            S2 { key, m } => Some(m + s.alone(lent, key)),
            S3 { .. } if s.slips(Slip::ThumbByTheClock) => s.solo.then(|| s.b()),
            S3 { o, .. } => s.solo.then(|| o + s.b()),
            S4 { m, o, .. } => Some(o + s.fj(o - m)),
            S5 { o, m, .. } if s.slips(Slip::NoCap) => Some(m + s.fl(m - o)),
            S5 { o, m, .. } => Some(m + s.fl((m - o).min(s.b()))),
            S6 { m, r, .. } => Some(r + (r - m)),
            S7 { k, .. } => Some(k + u64::from(lent.ts)),
            S8 { k, r, .. } if s.slips(Slip::S8WaitsAsS6) => Some(r + (r - k)),
            S8 { k, r, .. } => Some(r + s.gn(lent, r - k)),
        }
    }

    /// The overlap that an event ends and that 400 ms decide upon, since it is under
    /// its share of the whole: M's release in S4 or O's in S5, before the deadline.
    pub fn overlap_ended_by(&self, lent: &Lent, event: Event) -> Option<u64> {
        let now = event.stamp;
        let waits = matches!(self.distance_with(lent, now), Ok(Some(1..)));
        let input = parse(event.kind, event.key).filter(|_| waits)?;
        let (percent, a, b) = match (self.resting, acts_as(self, input)) {
            (S4 { key, m, o, .. }, Input::CharacterUp(up)) if up == key => {
                (self.settings.j, o - m, now - o)
            }
            (S5 { thumb, o, m, .. }, Input::ThumbUp(up)) if up == thumb => {
                (self.settings.l, m - o, now - m)
            }
            _ => return None,
        };
        under_share(percent, a, b).then_some(b)
    }

    /// The keys of the characters that wait, first pressed first.
    pub fn waiting(&self) -> impl Iterator<Item = u8> {
        let keys = match self.resting {
            S1 | S3 { .. } => [None, None],
            S2 { key, .. } | S4 { key, .. } | S5 { key, .. } | S6 { key, .. } => [Some(key), None],
            S7 { key, second, .. } | S8 { key, second, .. } => [Some(key), Some(second)],
        };
        keys.into_iter().flatten()
    }

    pub fn waits(&self, key: u8) -> bool {
        self.waiting().any(|waiting| waiting == key)
    }

    /// How many characters wait, as the reader answers it.
    pub fn waiting_count(&self) -> u32 {
        let count = self.waiting().count() as u32;
        if self.settings.slips(Slip::TwoWaitAsOne) {
            count.min(1)
        } else {
            count
        }
    }

    /// How many late lines follow one another at a stamp.
    pub fn late_lines(&self, lent: &Lent, now: u64) -> usize {
        let mut machine = *self;
        let mut lines = 0;
        while machine.deadline(lent).is_some_and(|deadline| deadline <= now) {
            machine.resting = late(lent, &machine).1;
            lines += 1;
        }
        lines
    }
}

// ---- One event ----

/// An event as it comes in, accepted or not.
#[derive(Clone, Copy, PartialEq, Eq, Debug)]
pub struct Event {
    pub kind: u8,
    pub key: u8,
    pub stamp: u64,
}

/// What an allowed kind and key mean.
#[derive(Clone, Copy, PartialEq, Eq, Debug)]
enum Input {
    CharacterDown(u8),
    CharacterUp(u8),
    ThumbDown(Thumb),
    ThumbUp(Thumb),
    Function,
    Tick,
}

/// A character (key and face), a mark, or the character of a pair, whose first key was
/// pressed first.
#[derive(Clone, Copy, PartialEq, Eq, Debug)]
pub enum Item {
    Character { key: u8, face: Face },
    Mark(Thumb),
    Together { first: u8, second: u8, character: u16 },
}

impl Item {
    /// The keys whose presses it answers.
    pub fn keys(self) -> impl Iterator<Item = u8> {
        let keys = match self {
            Item::Character { key, .. } => [Some(key), None],
            Item::Mark(_) => [None, None],
            Item::Together { first, second, .. } => [Some(first), Some(second)],
        };
        keys.into_iter().flatten()
    }
}

/// What a rule leaves: the committed items and the next resting state.
type Outcome = (Vec<Item>, Resting);

/// One accepted event, its late line included.
#[derive(Clone, PartialEq, Eq, Debug)]
pub struct Step {
    pub machine: Machine,
    pub items: Vec<Item>,
    pub sendings: Vec<Sending>,
}

/// Takes one event: a step, or the number it is refused with (then the
/// machine stays as it was given).
pub fn step(machine: &Machine, event: Event) -> Result<Step, u32> {
    step_with(&NO_PAIRS, machine, event)
}

pub fn step_with(lent: &Lent, machine: &Machine, event: Event) -> Result<Step, u32> {
    machine.lent_and_formed(lent)?;
    step_formed(lent, machine, event)
}

/// The same of a list that was accepted before and a state that is well formed.
pub(crate) fn step_formed(lent: &Lent, machine: &Machine, event: Event) -> Result<Step, u32> {
    let input = accept(machine, event)?;
    let (settings, now) = (machine.settings, event.stamp);
    let repeats = matches!(input, Input::CharacterDown(key) if machine.holds(key));
    if repeats && settings.slips(Slip::RepeatIgnored) {
        return Ok(Step { machine: *machine, items: vec![], sendings: vec![] });
    }
    let acting = acts_as(machine, input);
    let (items, resting) = if settings.slips(Slip::LateAfterEvent) {
        in_turn(machine, |m| act(lent, m, acting, now), |m| settle(lent, m, now))
    } else {
        in_turn(machine, |m| settle(lent, m, now), |m| act(lent, m, acting, now))
    };
    let after = Machine { settings, resting, last: now, held: held_after(machine, input) };
    let sendings = sendings(settings.slip, &shown(&machine.resting), &items, &shown(&resting));
    Ok(Step { machine: after, items, sendings })
}

/// Request 7/12: a down of a key that is held already, and an up of one that is not,
/// act as a tick.
fn acts_as(machine: &Machine, input: Input) -> Input {
    let wrong = |slip| machine.settings.slips(slip);
    match input {
        Input::CharacterDown(_) if wrong(Slip::RepeatsAsPresses) => input,
        Input::CharacterDown(key) if machine.holds(key) => Input::Tick,
        Input::CharacterUp(_) if wrong(Slip::StrayUpActs) => input,
        Input::CharacterUp(key) if !machine.held.has(key) => Input::Tick,
        _ => input,
    }
}

/// The keys that are held after an accepted event: a down holds its key, an up lets it
/// go, and nothing else changes the set, a function key neither.
fn held_after(machine: &Machine, input: Input) -> Held {
    let Machine { settings, held, .. } = *machine;
    match input {
        Input::CharacterDown(key) => held.with(key),
        Input::CharacterUp(_) if settings.slips(Slip::UpHolds) => held,
        Input::CharacterUp(key) => held.without(key),
        Input::Function if settings.slips(Slip::FunctionClears) => Held::default(),
        _ => held,
    }
}

/// Does one thing and then another, gathering their items.
fn in_turn(
    machine: &Machine,
    first: impl Fn(&Machine) -> Outcome,
    then: impl Fn(&Machine) -> Outcome,
) -> Outcome {
    let (mut items, resting) = first(machine);
    let (more, resting) = then(&Machine { resting, ..*machine });
    items.extend(more);
    (items, resting)
}

/// Refusals 3, 4, 5, 11 in this order.
fn accept(machine: &Machine, event: Event) -> Result<Input, u32> {
    let too_many = too_many(machine, event);
    let before = |slip| too_many && machine.settings.slips(slip);
    if before(Slip::ElevenBeforeThree) {
        return Err(11);
    }
    let input = parse(event.kind, event.key).ok_or(3u32)?;
    if before(Slip::ElevenBeforeFour) {
        return Err(11);
    }
    if event.stamp > LARGEST_STAMP {
        return Err(4);
    }
    if before(Slip::ElevenBeforeFive) {
        return Err(11);
    }
    if event.stamp < machine.last {
        return Err(5);
    }
    if too_many {
        return Err(11);
    }
    Ok(input)
}

/// A press of a new key while 6 are held (7/12). A key that is held is not new.
fn too_many(machine: &Machine, event: Event) -> bool {
    let settings = &machine.settings;
    let new = !machine.holds(event.key) || settings.slips(Slip::RepeatRefused);
    let most = MOST_HELD + u32::from(settings.slips(Slip::SevenHeld));
    event.kind == 1 && new && machine.held.count() == most
}

fn parse(kind: u8, key: u8) -> Option<Input> {
    match (kind, key) {
        (1, 0..=30) => Some(Input::CharacterDown(key)),
        (2, 0..=30) => Some(Input::CharacterUp(key)),
        (3, _) => thumb(key).map(Input::ThumbDown),
        (4, _) => thumb(key).map(Input::ThumbUp),
        (5, 0) => Some(Input::Function),
        (6, 0) => Some(Input::Tick),
        _ => None,
    }
}

/// 0 left, 1 right.
pub fn thumb(key: u8) -> Option<Thumb> {
    match key {
        0 => Some(Thumb::Left),
        1 => Some(Thumb::Right),
        _ => None,
    }
}

/// The line "late", if the deadline is at or before the event's stamp; and where it
/// leaves a state already due, that state's line too (9/12).
fn settle(lent: &Lent, machine: &Machine, now: u64) -> Outcome {
    match machine.deadline(lent) {
        Some(deadline) if deadline <= now => {
            in_turn(machine, |m| late(lent, m), |m| settle(lent, m, now))
        }
        _ => (vec![], machine.resting),
    }
}

fn late(lent: &Lent, machine: &Machine) -> Outcome {
    let items = match machine.resting {
        S1 => vec![],
        S2 { key, .. } => plain(key),
        S3 { thumb, .. } => mark(machine, thumb),
        S4 { key, thumb, .. } | S5 { key, thumb, .. } => chord(key, thumb),
        S6 { key, thumb, .. } => [mark(machine, thumb), plain(key)].concat(),
        S7 { key, second, .. } => together(lent, machine, key, second),
        S8 { key, second, .. } if machine.settings.slips(Slip::LatePairs) => {
            together(lent, machine, key, second)
        }
        S8 { key, second, .. } => [plain(key), plain(second)].concat(),
    };
    (items, S1)
}

/// Commit M.
fn plain(key: u8) -> Vec<Item> {
    vec![Item::Character { key, face: Face::Plain }]
}

/// Commit M+O.
fn chord(key: u8, thumb: Thumb) -> Vec<Item> {
    vec![Item::Character { key, face: Face::Under(thumb) }]
}

/// Mark O: only with solo 1.
fn mark(machine: &Machine, thumb: Thumb) -> Vec<Item> {
    if machine.settings.solo {
        vec![Item::Mark(thumb)]
    } else {
        vec![]
    }
}

/// Commit the pair's character.
fn together(lent: &Lent, machine: &Machine, first: u8, second: u8) -> Vec<Item> {
    let character = lent.together(machine.settings.slip, first, second).unwrap_or(0);
    vec![Item::Together { first, second, character }]
}

/// What the event does, the deadline being dealt with.
fn act(lent: &Lent, machine: &Machine, input: Input, now: u64) -> Outcome {
    match machine.resting {
        S1 => act_s1(input, now),
        S2 { key, m } => act_s2(lent, machine, (key, m), input, now),
        S3 { thumb, o } => act_s3(machine, thumb, o, input, now),
        S4 { key, m, thumb, o } => act_s4(machine, (key, m), (thumb, o), input, now),
        S5 { thumb, o, key, m } => act_s5(machine, (thumb, o), (key, m), input, now),
        S6 { thumb, key, .. } => act_s6(machine, thumb, key, input, now),
        S7 { key, m, second, k } => act_s7(lent, machine, (key, m), (second, k), input, now),
        S8 { key, m, second, k, r } => act_s8(lent, machine, (key, m), (second, k), r, input, now),
    }
}

fn act_s1(input: Input, now: u64) -> Outcome {
    match input {
        Input::CharacterDown(key) => (vec![], S2 { key, m: now }),
        Input::ThumbDown(thumb) => (vec![], S3 { thumb, o: now }),
        _ => (vec![], S1),
    }
}

fn act_s2(lent: &Lent, machine: &Machine, (key, m): (u8, u64), input: Input, now: u64) -> Outcome {
    match input {
        Input::CharacterDown(new) => second_letter(lent, machine, (key, m), (new, now)),
        Input::ThumbDown(thumb) => (vec![], S4 { key, m, thumb, o: now }),
        Input::CharacterUp(up) if up == key => (plain(key), S1),
        Input::Function => (plain(key), S1),
        _ => (vec![], S2 { key, m }),
    }
}

fn act_s3(machine: &Machine, thumb: Thumb, o: u64, input: Input, now: u64) -> Outcome {
    match input {
        Input::CharacterDown(key) => (vec![], S5 { thumb, o, key, m: now }),
        Input::ThumbDown(other) if other != thumb => {
            (mark(machine, thumb), S3 { thumb: other, o: now })
        }
        Input::ThumbUp(up) if up == thumb => (mark(machine, thumb), S1),
        Input::Function => (mark(machine, thumb), S1),
        _ => (vec![], S3 { thumb, o }),
    }
}

fn act_s4(
    machine: &Machine,
    (key, m): (u8, u64),
    (thumb, o): (Thumb, u64),
    input: Input,
    now: u64,
) -> Outcome {
    let settings = &machine.settings;
    let (a, b) = (o - m, now - o);
    match input {
        Input::CharacterDown(new) if keeps_plain(settings, a, b) => {
            (plain(key), S5 { thumb, o, key: new, m: now })
        }
        Input::CharacterDown(new) => (chord(key, thumb), S2 { key: new, m: now }),
        Input::ThumbDown(other) if other != thumb => {
            (chord(key, thumb), S3 { thumb: other, o: now })
        }
        Input::CharacterUp(up) if up == key => {
            if under_share(settings.j, a, b) && under_400(settings, false, b) {
                let o = if settings.slips(Slip::ThumbRestarts) { now } else { o };
                (plain(key), S3 { thumb, o })
            } else {
                (chord(key, thumb), S1)
            }
        }
        Input::ThumbUp(up) if up == thumb => (chord(key, thumb), S1),
        Input::Function => (chord(key, thumb), S1),
        _ => (vec![], S4 { key, m, thumb, o }),
    }
}

fn act_s5(
    machine: &Machine,
    (thumb, o): (Thumb, u64),
    (key, m): (u8, u64),
    input: Input,
    now: u64,
) -> Outcome {
    let settings = &machine.settings;
    let (a, b) = (m - o, now - m);
    match input {
        Input::CharacterDown(new) => (chord(key, thumb), S2 { key: new, m: now }),
        Input::ThumbDown(other) if other != thumb => {
            if a >= b {
                (mark(machine, thumb), S4 { key, m, thumb: other, o: now })
            } else {
                (chord(key, thumb), S3 { thumb: other, o: now })
            }
        }
        Input::ThumbUp(up) if up == thumb => {
            if under_share(settings.l, a, b) && under_400(settings, true, b) {
                (vec![], S6 { thumb, o, key, m, r: now })
            } else {
                (chord(key, thumb), S1)
            }
        }
        Input::CharacterUp(up) if up == key => (chord(key, thumb), S1),
        Input::Function => (chord(key, thumb), S1),
        _ => (vec![], S5 { thumb, o, key, m }),
    }
}

fn act_s6(machine: &Machine, thumb: Thumb, key: u8, input: Input, now: u64) -> Outcome {
    match input {
        Input::CharacterDown(new) => (chord(key, thumb), S2 { key: new, m: now }),
        Input::ThumbDown(either) => (chord(key, thumb), S3 { thumb: either, o: now }),
        Input::CharacterUp(up) if up == key => (chord(key, thumb), S1),
        Input::Function => ([mark(machine, thumb), plain(key)].concat(), S1),
        _ => (vec![], machine.resting),
    }
}

/// Two letters one after the other (document 000, rule 2.2): a pair waits, and else the
/// first is committed and the second waits alone.
fn second_letter(
    lent: &Lent,
    machine: &Machine,
    (key, m): (u8, u64),
    (second, k): (u8, u64),
) -> Outcome {
    if lent.together(machine.settings.slip, key, second).is_some() {
        (vec![], S7 { key, m, second, k })
    } else {
        (plain(key), S2 { key: second, m: k })
    }
}

/// Two letters wait (document 000, rule 7).
fn act_s7(
    lent: &Lent,
    machine: &Machine,
    (key, m): (u8, u64),
    (second, k): (u8, u64),
    input: Input,
    now: u64,
) -> Outcome {
    let (gap, overlap) = (k - m, now - k);
    let pair = || (together(lent, machine, key, second), S1);
    match input {
        Input::CharacterDown(_) | Input::ThumbDown(_) => {
            third_key(lent, machine, (key, m), (second, k), input, now)
        }
        Input::CharacterUp(up) if up == key => {
            let short = under_share(lent.n.into(), gap, overlap) && overlap < lent.ts.into();
            if short && !machine.settings.slips(Slip::UpEndsPair) {
                (vec![], S8 { key, m, second, k, r: now })
            } else {
                pair()
            }
        }
        Input::CharacterUp(up) if up == second => pair(),
        Input::Function => pair(),
        _ => (vec![], S7 { key, m, second, k }),
    }
}

/// Two letters wait, the first of them released (document 000, rule 8).
fn act_s8(
    lent: &Lent,
    machine: &Machine,
    (key, m): (u8, u64),
    (second, k): (u8, u64),
    r: u64,
    input: Input,
    now: u64,
) -> Outcome {
    let settings = &machine.settings;
    let pair = || (together(lent, machine, key, second), S1);
    let both = || ([plain(key), plain(second)].concat(), S1);
    match input {
        Input::CharacterDown(_) | Input::ThumbDown(_) => {
            third_key(lent, machine, (key, m), (second, k), input, now)
        }
        Input::CharacterUp(up) if up == second => {
            let percent = if settings.slips(Slip::NForL) { lent.n.into() } else { settings.l };
            // The overlap of both keys, by the whole time that K was down.
            if 100 * (r - k) < percent * (now - k) {
                both()
            } else {
                pair()
            }
        }
        Input::Function if settings.slips(Slip::FunctionBreaksUp) => both(),
        Input::Function => pair(),
        _ => (vec![], S8 { key, m, second, k, r }),
    }
}

/// A third key, letter or thumb, while two letters wait: the pair if its keys are nearer
/// to each other than the second is to the third. Else the first letter is committed, and
/// the second goes on with the third key.
fn third_key(
    lent: &Lent,
    machine: &Machine,
    (key, m): (u8, u64),
    (second, k): (u8, u64),
    input: Input,
    now: u64,
) -> Outcome {
    let slips = |slip| machine.settings.slips(slip);
    let released = matches!(machine.resting, S8 { .. });
    let nearer = k - m < now - k || slips(Slip::EqualGapToPair) && k - m == now - k;
    if nearer && !(released && slips(Slip::ThirdBreaksUp)) {
        let (_, resting) = act_s1(input, now);
        return (together(lent, machine, key, second), resting);
    }
    let k = if slips(Slip::SplitStamp) { m } else { k };
    let (more, resting) = match input {
        Input::CharacterDown(new) if slips(Slip::ThirdNeverPairs) => {
            (plain(second), S2 { key: new, m: now })
        }
        Input::CharacterDown(new) => second_letter(lent, machine, (second, k), (new, now)),
        Input::ThumbDown(thumb) => (vec![], S4 { key: second, m: k, thumb, o: now }),
        _ => (vec![], machine.resting),
    };
    ([plain(key), more].concat(), resting)
}

/// S4, second character: the thumb is nearer to it than to the first. Equal gaps
/// go to the first (1/12).
fn keeps_plain(settings: &Settings, a: u64, b: u64) -> bool {
    if settings.slips(Slip::EqualGap) {
        a >= b
    } else {
        a > b
    }
}

/// The overlap b is under its share of the whole.
fn under_share(percent: u64, a: u64, b: u64) -> bool {
    100 * b < percent * (a + b)
}

/// The overlap b is under 400 ms.
fn under_400(settings: &Settings, in_s5: bool, b: u64) -> bool {
    match settings.slip {
        Some(Slip::NoShortOverlap) => true,
        Some(Slip::NoShortOverlapInS5) if in_s5 => true,
        Some(Slip::ShortOverlapLate) => b <= SHORT_OVERLAP,
        _ => b < SHORT_OVERLAP,
    }
}

// ---- Zero delay ----

/// What a screen or a line holds.
#[derive(Clone, Copy, PartialEq, Eq, Debug)]
pub enum Sign {
    Character(char),
    Mark(Thumb),
}

#[derive(Clone, Copy, PartialEq, Eq, Debug)]
pub enum Sending {
    Backspace,
    Sign(Sign),
}

/// The characters shown while M waits, or M and K; none for an empty face.
pub fn shown(resting: &Resting) -> Vec<Sign> {
    let plain = |key| character(key, Face::Plain);
    let characters = match *resting {
        S1 | S3 { .. } => [None, None],
        S2 { key, .. } | S4 { key, .. } => [plain(key), None],
        S5 { key, thumb, .. } | S6 { key, thumb, .. } => [character(key, Face::Under(thumb)), None],
        S7 { key, second, .. } | S8 { key, second, .. } => [plain(key), plain(second)],
    };
    characters.into_iter().flatten().map(Sign::Character).collect()
}

/// The sign of an item; none for an empty face.
pub fn sign(item: &Item) -> Option<Sign> {
    match *item {
        Item::Character { key, face } => character(key, face).map(Sign::Character),
        Item::Mark(thumb) => Some(Sign::Mark(thumb)),
        // An accepted list gives no surrogate and never 0.
        Item::Together { character, .. } => {
            let character = char::from_u32(character.into()).filter(|c| *c != '\0');
            Some(Sign::Character(character.unwrap_or(char::REPLACEMENT_CHARACTER)))
        }
    }
}

/// p is what was shown before the step, `after` what is shown after it: the shown signs
/// that q begins with stay, counted from the front, each other one costs a backspace, and
/// the rest of q follows.
fn sendings(slip: Option<Slip>, p: &[Sign], items: &[Item], after: &[Sign]) -> Vec<Sending> {
    let q: Vec<Sign> = items.iter().filter_map(sign).chain(after.iter().copied()).collect();
    let same = p.iter().zip(&q).take_while(|(shown, sign)| shown == sign).count();
    let stay = match slip {
        Some(Slip::FirstTakenBack) if same < p.len() => 0,
        _ => same,
    };
    let backspaces = match slip {
        Some(Slip::OneBackspace) => (p.len() - stay).min(1),
        _ => p.len() - stay,
    };
    let signs = q[stay..].iter().map(|sign| Sending::Sign(*sign));
    std::iter::repeat_n(Sending::Backspace, backspaces).chain(signs).collect()
}
