//! Request 10/12: up to 16 keyboards at one console, on top of the model of the machine.
//! Their states lie side by side in a row, each with its own settings and its own last
//! stamp; one list, T_s and N serve the row. An event names its keyboard, and does to that
//! state what it does to it alone. And the same for C, the states as numbers.

use crate::live::{distance_with, step_numbers_with, Asked, Flat, Stepped, Wrong};
use crate::model::{step_with, Event, Machine, Step};
use crate::pairs::Lent;

/// So many keyboards a row may have.
pub const MOST_KEYBOARDS: usize = 16;

/// A keyboard's number, as C hands it over.
pub type Board = u32;

/// A wrong rule put into a row on purpose, to show that a comparison can fail.
#[derive(Clone, Copy, PartialEq, Eq, Debug)]
pub enum RowSlip {
    /// The next keyboard's state is stepped and asked.
    NeighbourStepped,
    /// The neighbour's state is written too.
    NeighbourWritten,
    /// 12 comes before 13.
    TwelveBeforeThirteen,
    /// A refused event moves the last stamp.
    RefusedWritten,
    /// A row of 17 is accepted.
    SeventeenAccepted,
    /// A row of 16 is refused.
    SixteenRefused,
    /// Only a keyboard that is named must be among the first 16; the row may be longer.
    NumberAloneAsked,
    /// The first keyboard past the row is the first of the row.
    NumberWraps,
    /// Of the keyboard's number only the low byte is looked at.
    NumberCutShort,
    /// Stamps are compared with the latest of the whole row.
    SharedLastStamp,
    /// All keyboards have the first one's settings.
    SharedSettings,
    /// Asking past the row is answered that there is no deadline.
    AskingUnrefused,
    /// Asking moves the last stamp.
    AskingWrites,
}

pub const ROW_SLIPS: [(&str, RowSlip); 13] = [
    ("neighbour-stepped", RowSlip::NeighbourStepped),
    ("neighbour-written", RowSlip::NeighbourWritten),
    ("twelve-before-thirteen", RowSlip::TwelveBeforeThirteen),
    ("refused-written", RowSlip::RefusedWritten),
    ("seventeen-accepted", RowSlip::SeventeenAccepted),
    ("sixteen-refused", RowSlip::SixteenRefused),
    ("number-alone-asked", RowSlip::NumberAloneAsked),
    ("number-wraps", RowSlip::NumberWraps),
    ("number-cut-short", RowSlip::NumberCutShort),
    ("shared-last-stamp", RowSlip::SharedLastStamp),
    ("shared-settings", RowSlip::SharedSettings),
    ("asking-unrefused", RowSlip::AskingUnrefused),
    ("asking-writes", RowSlip::AskingWrites),
];

/// The place of a keyboard in a row of so many; a row above 16 and a number past the row
/// are refused 13.
pub fn keyboard(length: usize, board: Board) -> Result<usize, u32> {
    let place = board as usize;
    (length <= MOST_KEYBOARDS && place < length).then_some(place).ok_or(13)
}

// ---- A row of machines ----

/// The states of a row, of any length, and what is lent with every event.
#[derive(Clone, PartialEq, Eq, Debug)]
pub struct Row {
    pub states: Vec<Machine>,
    pub lent: Lent,
}

impl Row {
    /// An event of one keyboard. Refused, it changes nothing: 13, then 12, then the rest.
    pub fn step(&mut self, board: Board, event: Event) -> Result<Step, u32> {
        let place = keyboard(self.states.len(), board)?;
        let step = step_with(&self.lent, &self.states[place], event)?;
        self.states[place] = step.machine;
        Ok(step)
    }

    /// How far a keyboard's next deadline is (3/12).
    pub fn distance(&self, board: Board, stamp: u64) -> Result<Option<i64>, u32> {
        let place = keyboard(self.states.len(), board)?;
        self.states[place].distance_with(&self.lent, stamp)
    }
}

// ---- A row as numbers ----

/// What an event at a row answers: what a step alone does, but for the machine, which
/// stands in the row.
#[repr(C)]
#[derive(Clone, Copy, PartialEq, Eq, Default, Debug)]
pub struct Told {
    pub number: u32,
    pub items: u32,
    pub first: u16,
    pub second: u16,
    /// 0 to 2.
    pub backspaces: u16,
    pub sent_first: u16,
    pub sent_second: u16,
    pub sent_third: u16,
}

impl Told {
    pub fn of(stepped: &Stepped) -> Told {
        let Stepped { number, items, first, second, backspaces, .. } = *stepped;
        let Stepped { sent_first, sent_second, sent_third, .. } = *stepped;
        Told { number, items, first, second, backspaces, sent_first, sent_second, sent_third }
    }
}

/// An event of one keyboard of a row.
pub fn row_step(
    slip: Option<RowSlip>,
    lent: &Lent,
    row: &mut [Flat],
    board: Board,
    event: Event,
) -> Told {
    let place = match slipped_keyboard(slip, lent, row.len(), board) {
        Ok(place) => place,
        Err(number) => return Told { number, ..Told::default() },
    };
    let wrong = |wrong| slip == Some(wrong);
    let before = as_seen(slip, row, place);
    let mut stepped = step_numbers_with(Wrong::default(), lent, &before, event);
    if stepped.number != 0 {
        stepped.machine = row[place];
    }
    if wrong(RowSlip::SharedSettings) {
        let Flat { t, j, l, solo, .. } = row[place];
        stepped.machine = Flat { t, j, l, solo, ..stepped.machine };
    }
    if stepped.number != 0 && wrong(RowSlip::RefusedWritten) {
        stepped.machine.last.ms = event.stamp;
    }
    row[place] = stepped.machine;
    if wrong(RowSlip::NeighbourWritten) && place + 1 < row.len() {
        row[place + 1].last.ms = row[place + 1].last.ms.max(event.stamp);
    }
    Told::of(&stepped)
}

/// What asking a keyboard of a row answers; the row stays as it is.
pub fn row_distance(
    slip: Option<RowSlip>,
    lent: &Lent,
    row: &mut [Flat],
    board: Board,
    stamp: u64,
) -> Asked {
    let place = match slipped_keyboard(slip, lent, row.len(), board) {
        Ok(place) => place,
        Err(13) if slip == Some(RowSlip::AskingUnrefused) => return Asked::default(),
        Err(number) => return Asked { number, ..Asked::default() },
    };
    let asked = distance_with(Wrong::default(), lent, &as_seen(slip, row, place), stamp);
    if slip == Some(RowSlip::AskingWrites) && asked.number == 0 {
        row[place].last.ms = stamp;
    }
    asked
}

/// The place of the keyboard that is stepped or asked, or 13.
fn slipped_keyboard(
    slip: Option<RowSlip>,
    lent: &Lent,
    length: usize,
    board: Board,
) -> Result<usize, u32> {
    let right = keyboard(length, board);
    let inside = |board: Board| keyboard(MOST_KEYBOARDS.min(length), board);
    match slip {
        Some(RowSlip::NeighbourStepped) => right.map(|place| (place + 1) % length),
        Some(RowSlip::TwelveBeforeThirteen) if right.is_err() && !lent.good(None) => Err(12),
        Some(RowSlip::SeventeenAccepted) if length == MOST_KEYBOARDS + 1 => {
            Some(board as usize).filter(|place| *place < length).ok_or(13)
        }
        Some(RowSlip::SixteenRefused) if length == MOST_KEYBOARDS => Err(13),
        Some(RowSlip::NumberAloneAsked) => inside(board),
        Some(RowSlip::NumberWraps) if board as usize == length => keyboard(length, 0),
        Some(RowSlip::NumberCutShort) => keyboard(length, board % 256),
        _ => right,
    }
}

/// The state of a place, as a wrong rule sees it.
fn as_seen(slip: Option<RowSlip>, row: &[Flat], place: usize) -> Flat {
    let own = row[place];
    match slip {
        Some(RowSlip::SharedLastStamp) => {
            let latest = row.iter().map(|flat| flat.last.ms).max();
            let mut seen = own;
            seen.last.ms = latest.unwrap_or(own.last.ms);
            seen
        }
        Some(RowSlip::SharedSettings) => {
            let Flat { t, j, l, solo, .. } = row[0];
            Flat { t, j, l, solo, ..own }
        }
        _ => own,
    }
}
