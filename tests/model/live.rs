//! The C face for a live keyboard: opening, stepping and asking (request 3/12) a
//! machine that goes through the host's hands as numbers, its stamps in a type of
//! their own, and with each call a list of pairs is lent (9/12). On top of the model of
//! the machine; the numbers are those that the header names.

use crate::log::{word, RawSettings};
use crate::model::{
    sign, step_with, thumb, Event, Held, Machine, Resting, Sending, Settings, Slip, Thumb,
    LARGEST_STAMP,
};
use crate::pairs::{Lent, NO_PAIRS};

/// A wrong rule put into this face on purpose, to show that a comparison can fail.
#[derive(Clone, Copy, PartialEq, Eq, Debug)]
pub enum LiveSlip {
    /// Overdue is positive.
    SignTurned,
    /// The distance is one too many.
    OffByOne,
    /// Overdue counts as due now.
    OverdueAsZero,
    /// No deadline counts as due now.
    NoneAsZero,
    /// A distance from a stamp before the last accepted one is answered.
    EarlyAnswered,
    /// A distance refused 4 is refused 5, and the other way round.
    NumbersExchanged,
    /// The stamp of a distance is judged before the state.
    StampFirst,
    /// Numbers that the state doesn't use may be anything.
    LeftOverIgnored,
    /// Of the second key only the low byte is looked at.
    SecondCutShort,
    /// A refused step hands back no machine.
    RefusedCleared,
    /// An empty face is no item.
    EmptyFaceNoItem,
}

pub const LIVE_SLIPS: [(&str, LiveSlip); 11] = [
    ("sign-turned", LiveSlip::SignTurned),
    ("off-by-one", LiveSlip::OffByOne),
    ("overdue-as-zero", LiveSlip::OverdueAsZero),
    ("none-as-zero", LiveSlip::NoneAsZero),
    ("early-answered", LiveSlip::EarlyAnswered),
    ("numbers-exchanged", LiveSlip::NumbersExchanged),
    ("stamp-first", LiveSlip::StampFirst),
    ("left-over-ignored", LiveSlip::LeftOverIgnored),
    ("second-cut-short", LiveSlip::SecondCutShort),
    ("refused-cleared", LiveSlip::RefusedCleared),
    ("empty-face-no-item", LiveSlip::EmptyFaceNoItem),
];

/// A wrong rule of the machine or of this face, if any.
#[derive(Clone, Copy, Default)]
pub struct Wrong {
    pub machine: Option<Slip>,
    pub live: Option<LiveSlip>,
}

impl Wrong {
    fn live(&self, slip: LiveSlip) -> bool {
        self.live == Some(slip)
    }
}

// ---- A machine as numbers ----

/// A moment of the keyboard's own clock, in milliseconds.
#[repr(C)]
#[derive(Clone, Copy, PartialEq, Eq, Default, Debug)]
pub struct Stamp {
    pub ms: u64,
}

pub const fn at(ms: u64) -> Stamp {
    Stamp { ms }
}

/// The numbers of a machine, or of none. The fields are those of the C face.
#[repr(C)]
#[derive(Clone, Copy, PartialEq, Eq, Default, Debug)]
pub struct Flat {
    pub last: Stamp,
    pub m: Stamp,
    pub k: Stamp,
    pub o: Stamp,
    pub r: Stamp,
    /// One bit a key, key 0 the lowest.
    pub held: u32,
    /// K.
    pub second: u32,
    pub t: u16,
    pub j: u8,
    pub l: u8,
    pub solo: u8,
    pub state: u8,
    pub key: u8,
    pub thumb: u8,
}

impl Flat {
    /// The numbers of a machine that has these settings.
    pub fn of((t, j, l, solo): RawSettings, machine: &Machine) -> Flat {
        let (last, held) = (at(machine.last), machine.held.0);
        let flat = Flat { last, held, t, j, l, solo, ..Flat::default() };
        match machine.resting {
            Resting::S1 => Flat { state: 1, ..flat },
            Resting::S2 { key, m } => Flat { state: 2, key, m: at(m), ..flat },
            Resting::S3 { thumb, o } => Flat { state: 3, thumb: number(thumb), o: at(o), ..flat },
            Resting::S4 { key, m, thumb, o } => {
                Flat { state: 4, key, m: at(m), thumb: number(thumb), o: at(o), ..flat }
            }
            Resting::S5 { thumb, o, key, m } => {
                Flat { state: 5, thumb: number(thumb), o: at(o), key, m: at(m), ..flat }
            }
            Resting::S6 { thumb, o, key, m, r } => {
                Flat { state: 6, thumb: number(thumb), o: at(o), key, m: at(m), r: at(r), ..flat }
            }
            Resting::S7 { key, m, second, k } => {
                Flat { state: 7, key, m: at(m), second: second.into(), k: at(k), ..flat }
            }
            Resting::S8 { key, m, second, k, r } => {
                let second = second.into();
                Flat { state: 8, key, m: at(m), second, k: at(k), r: at(r), ..flat }
            }
        }
    }

    /// The machine that the numbers name; refusal 2 if they name none or one that
    /// is not well formed.
    pub fn machine(&self, wrong: Wrong) -> Result<Machine, u32> {
        self.machine_with(&NO_PAIRS, wrong)
    }

    /// The same with this list lent, which two waiting letters must be a pair of.
    pub fn machine_with(&self, lent: &Lent, wrong: Wrong) -> Result<Machine, u32> {
        let ignored = wrong.live(LiveSlip::LeftOverIgnored);
        let settings = settings(wrong, self.raw_settings()).ok_or(2u32)?;
        let resting = self.resting(wrong);
        let resting = resting.filter(|_| ignored || self.nothing_left_over()).ok_or(2u32)?;
        let machine = Machine { settings, resting, last: self.last.ms, held: Held(self.held) };
        if machine.well_formed_with(lent) {
            Ok(machine)
        } else {
            Err(2)
        }
    }

    pub fn raw_settings(&self) -> RawSettings {
        (self.t, self.j, self.l, self.solo)
    }

    /// The resting state, by the numbers that it uses.
    fn resting(&self, wrong: Wrong) -> Option<Resting> {
        let [m, k, o, r] = [self.m, self.k, self.o, self.r].map(|stamp| stamp.ms);
        let (key, thumb) = (self.key, thumb(self.thumb));
        let second = match wrong.live(LiveSlip::SecondCutShort) {
            true => Some(self.second as u8),
            false => u8::try_from(self.second).ok(),
        };
        match self.state {
            1 => Some(Resting::S1),
            2 => Some(Resting::S2 { key, m }),
            3 => Some(Resting::S3 { thumb: thumb?, o }),
            4 => Some(Resting::S4 { key, m, thumb: thumb?, o }),
            5 => Some(Resting::S5 { thumb: thumb?, o, key, m }),
            6 => Some(Resting::S6 { thumb: thumb?, o, key, m, r }),
            7 => Some(Resting::S7 { key, m, second: second?, k }),
            8 => Some(Resting::S8 { key, m, second: second?, k, r }),
            _ => None,
        }
    }

    /// Every number that the state doesn't use is 0.
    fn nothing_left_over(&self) -> bool {
        let [m, k, o, r] = [self.m, self.k, self.o, self.r].map(|stamp| stamp.ms);
        let (key, thumb) = (u64::from(self.key), u64::from(self.thumb));
        let second = k | u64::from(self.second);
        let left_over = match self.state {
            1 => m | o | r | key | thumb | second,
            2 => o | r | thumb | second,
            3 => m | r | key | second,
            4 | 5 => r | second,
            6 => second,
            7 => o | r | thumb,
            8 => o | thumb,
            _ => 0,
        };
        left_over == 0
    }
}

/// None if a number is out of range.
fn settings(wrong: Wrong, (t, j, l, solo): RawSettings) -> Option<Settings> {
    Settings::new_with(wrong.machine, t.into(), j.into(), l.into(), solo.into())
}

fn number(thumb: Thumb) -> u8 {
    match thumb {
        Thumb::Left => 0,
        Thumb::Right => 1,
    }
}

// ---- Opening, stepping, asking ----

#[repr(C)]
#[derive(Clone, Copy, PartialEq, Eq, Debug)]
pub struct Opened {
    pub machine: Flat,
    pub number: u64,
}

pub fn open(wrong: Wrong, raw: RawSettings) -> Opened {
    match settings(wrong, raw) {
        Some(settings) => Opened { machine: Flat::of(raw, &Machine::fresh(settings)), number: 0 },
        None => Opened { machine: Flat::default(), number: 1 },
    }
}

/// A step's answer; words and signs as in a log, 0 where there is none.
#[repr(C)]
#[derive(Clone, Copy, PartialEq, Eq, Default, Debug)]
pub struct Stepped {
    pub machine: Flat,
    pub number: u32,
    pub items: u32,
    pub first: u16,
    pub second: u16,
    /// 0 to 2.
    pub backspaces: u16,
    pub sent_first: u16,
    pub sent_second: u16,
    pub sent_third: u16,
}

/// The machine that the numbers name, with this list lent. Refusal 12, then 2.
fn named(wrong: Wrong, lent: &Lent, flat: &Flat) -> Result<Machine, u32> {
    let machine = flat.machine_with(lent, wrong);
    let two_first = wrong.machine == Some(Slip::TwelveAfterTwo) && machine.is_err();
    match lent.good(wrong.machine) || two_first {
        true => machine,
        false => Err(12),
    }
}

/// Takes one event with the machine that the numbers name; of no pairs.
pub fn step_numbers(wrong: Wrong, flat: &Flat, event: Event) -> Stepped {
    step_numbers_with(wrong, &NO_PAIRS, flat, event)
}

/// The same with a list lent.
pub fn step_numbers_with(wrong: Wrong, lent: &Lent, flat: &Flat, event: Event) -> Stepped {
    match named(wrong, lent, flat).and_then(|machine| step_with(lent, &machine, event)) {
        Err(number) => {
            let cleared = wrong.live(LiveSlip::RefusedCleared);
            let machine = if cleared { Flat::default() } else { *flat };
            Stepped { machine, number, ..Stepped::default() }
        }
        Ok(step) => {
            let words = step.items.iter().map(|item| sign(item).map_or(0, word));
            let words: Vec<u16> = match wrong.live {
                Some(LiveSlip::EmptyFaceNoItem) => words.filter(|word| *word != 0).collect(),
                _ => words.collect(),
            };
            let sent = step.sendings.iter().filter_map(|sending| match sending {
                Sending::Backspace => None,
                Sending::Sign(sign) => Some(word(*sign)),
            });
            let backspaces = step.sendings.iter().filter(|s| **s == Sending::Backspace);
            let [first, second] = in_places(words.iter().copied());
            let [sent_first, sent_second, sent_third] = in_places(sent);
            Stepped {
                machine: Flat::of(flat.raw_settings(), &step.machine),
                number: 0,
                items: words.len() as u32,
                first,
                second,
                backspaces: backspaces.count() as u16,
                sent_first,
                sent_second,
                sent_third,
            }
        }
    }
}

/// The words in their order, 0 behind the last.
fn in_places<const N: usize>(words: impl Iterator<Item = u16>) -> [u16; N] {
    let mut places = [0; N];
    places.iter_mut().zip(words).for_each(|(place, word)| *place = word);
    places
}

/// A distance's answer; `deadline` is 1 if there is one.
#[repr(C)]
#[derive(Clone, Copy, PartialEq, Eq, Default, Debug)]
pub struct Asked {
    pub number: u32,
    pub deadline: u32,
    pub milliseconds: i64,
}

/// Request 3/12 of the machine that the numbers name; of no pairs.
pub fn distance(wrong: Wrong, flat: &Flat, stamp: u64) -> Asked {
    distance_with(wrong, &NO_PAIRS, flat, stamp)
}

/// The same with a list lent.
pub fn distance_with(wrong: Wrong, lent: &Lent, flat: &Flat, stamp: u64) -> Asked {
    let machine = named(wrong, lent, flat);
    let answer = machine.and_then(|machine| machine.distance_with(lent, stamp));
    match slipped(wrong.live, lent, flat, stamp, answer) {
        Err(number) => Asked { number, ..Asked::default() },
        Ok(None) => Asked::default(),
        Ok(Some(milliseconds)) => Asked { number: 0, deadline: 1, milliseconds },
    }
}

type Distance = Result<Option<i64>, u32>;

/// The right answer, turned into the one that a wrong rule gives.
fn slipped(
    slip: Option<LiveSlip>,
    lent: &Lent,
    flat: &Flat,
    stamp: u64,
    answer: Distance,
) -> Distance {
    let last = flat.last.ms;
    // A deadline from the last accepted stamp, and from there to the stamp.
    let from_last = || -> Distance {
        let right = flat.machine_with(lent, Wrong::default())?.distance_with(lent, last)?;
        Ok(right.map(|right| right + (last - stamp) as i64))
    };
    match (slip, answer) {
        (Some(LiveSlip::SignTurned), Ok(Some(right))) => Ok(Some(-right)),
        (Some(LiveSlip::OffByOne), Ok(Some(right))) => Ok(Some(right + 1)),
        (Some(LiveSlip::OverdueAsZero), Ok(Some(right))) => Ok(Some(right.max(0))),
        (Some(LiveSlip::NoneAsZero), Ok(None)) => Ok(Some(0)),
        (Some(LiveSlip::EarlyAnswered), Err(5)) => from_last(),
        (Some(LiveSlip::NumbersExchanged), Err(number @ 4..=5)) => Err(9 - number),
        (Some(LiveSlip::StampFirst), Err(2)) if stamp > LARGEST_STAMP => Err(4),
        (Some(LiveSlip::StampFirst), Err(2)) if stamp < last => Err(5),
        _ => answer,
    }
}
