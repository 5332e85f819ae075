//! Request 9/12: what a desk lends with every event, tick and asking: a list of pairs,
//! T_s and N. When it is accepted, what is read off it, and the waits that come with it.

use crate::model::{Slip, KEYS};

/// So many pairs may be lent.
pub const MOST_PAIRS: usize = 64;
/// The smallest and the largest T_s (ms).
pub const LEAST_TS: u64 = 50;
pub const MOST_TS: u64 = 1_000;

/// Two character keys, and the code point of the character that they give together; good
/// or not.
#[derive(Clone, Copy, PartialEq, Eq, Debug)]
pub struct Pair {
    pub first: u8,
    pub second: u8,
    pub character: u16,
}

pub const fn pair(first: u8, second: u8, character: u16) -> Pair {
    Pair { first, second, character }
}

impl Pair {
    /// The four bytes of a pair in a log: key, key, character, high byte first.
    pub fn bytes(self) -> [u8; 4] {
        let [high, low] = self.character.to_be_bytes();
        [self.first, self.second, high, low]
    }

    pub fn of_bytes([first, second, high, low]: [u8; 4]) -> Pair {
        pair(first, second, u16::from_be_bytes([high, low]))
    }

    /// The same as one number, the first byte on top.
    pub fn number(self) -> u32 {
        u32::from_be_bytes(self.bytes())
    }

    pub fn of_number(number: u32) -> Pair {
        Pair::of_bytes(number.to_be_bytes())
    }

    pub fn has(self, key: u8) -> bool {
        self.first == key || self.second == key
    }

    /// Order within a pair ignored.
    pub fn is_of(self, a: u8, b: u8) -> bool {
        (self.first, self.second) == (a, b) || (self.second, self.first) == (a, b)
    }

    /// No key with itself, keys below 31, U+0020 to U+FFFF without the surrogates.
    fn good(self, slip: Option<Slip>) -> bool {
        let wrong = |wrong| slip == Some(wrong);
        let most = KEYS + u8::from(wrong(Slip::PairOfKey31));
        let itself = self.first == self.second && !wrong(Slip::PairWithItself);
        let surrogate = (0xd800..=0xdfff).contains(&self.character) && !wrong(Slip::Surrogates);
        let control = self.character < 0x20 && !wrong(Slip::ControlCharacters);
        !itself && self.first < most && self.second < most && !surrogate && !control
    }
}

/// A list of pairs, T_s in milliseconds and N in percent; accepted or not.
#[derive(Clone, PartialEq, Eq, Debug)]
pub struct Lent {
    pub pairs: Vec<Pair>,
    pub ts: u16,
    pub n: u8,
}

/// No pairs. T_s and N are in range, and nothing hangs on them.
pub static NO_PAIRS: Lent = Lent { pairs: Vec::new(), ts: LEAST_TS as u16, n: 1 };

impl Lent {
    pub fn new(pairs: &[Pair], ts: u16, n: u8) -> Lent {
        Lent { pairs: pairs.to_vec(), ts, n }
    }

    /// What is not good is refused 12.
    pub fn good(&self, slip: Option<Slip>) -> bool {
        let wrong = |wrong| slip == Some(wrong);
        let most = MOST_PAIRS + usize::from(wrong(Slip::SixtyFivePairs));
        let unasked = self.pairs.is_empty() && wrong(Slip::TimesUnaskedWithoutPairs);
        let times = (LEAST_TS..=MOST_TS).contains(&self.ts.into()) && (1..=99).contains(&self.n);
        self.pairs.len() <= most
            && (times || unasked)
            && self.pairs.iter().all(|pair| pair.good(slip))
            && (self.none_twice(slip) || wrong(Slip::PairTwice))
    }

    /// No pair twice, in either order.
    fn none_twice(&self, slip: Option<Slip>) -> bool {
        let turned = slip != Some(Slip::PairTurnedTwice);
        let same = |p: &Pair, q: &Pair| {
            (p.first, p.second) == (q.first, q.second) || turned && p.is_of(q.first, q.second)
        };
        self.pairs.iter().enumerate().all(|(i, p)| !self.pairs[i + 1..].iter().any(|q| same(p, q)))
    }

    /// The character that the list gives two keys; none if they are no pair.
    pub fn together(&self, slip: Option<Slip>, a: u8, b: u8) -> Option<u16> {
        let in_order = slip == Some(Slip::PairOrderRegarded);
        let is_of = |pair: &&Pair| match in_order {
            true => (pair.first, pair.second) == (a, b),
            false => pair.is_of(a, b),
        };
        self.pairs.iter().find(is_of).map(|pair| pair.character)
    }

    /// A key that is in some pair waits longer.
    pub fn in_some_pair(&self, slip: Option<Slip>, key: u8) -> bool {
        let all = slip == Some(Slip::AllWaitLonger) && !self.pairs.is_empty();
        all || self.pairs.iter().any(|pair| pair.has(key))
    }
}
