//! Makes rows of keyboards for the tests (10/12): of 0 to 17 states, ill-formed ones among
//! them, keyboard numbers in the row and past it, and desks at which several type at once,
//! each by a clock and with settings of its own, one of them sending rubbish.

use crate::generate::{next_event, open, right_settings, Hands};
use crate::live::{at, Flat, Wrong};
use crate::model::{Event, LARGEST_STAMP};
use crate::pairs::Lent;
use crate::random::Random;
use crate::row::{Board, MOST_KEYBOARDS};
use crate::states::{broken_state, nameless_state, random_event, random_state, right_state};

/// The longest row that is made: one more than there may be.
pub const LONGEST_ROW: usize = MOST_KEYBOARDS + 1;

/// A row's length, often on and beside its bounds.
pub fn random_length(random: &mut Random) -> usize {
    match random.below(3) {
        0 => random.pick(&[0, 1, 1, 15, 16, 16, 17]),
        _ => random.place(LONGEST_ROW + 1),
    }
}

/// Any states side by side, most of them well formed.
pub fn random_row(random: &mut Random, lent: &Lent) -> Vec<Flat> {
    (0..random_length(random)).map(|_| random_state(random, lent)).collect()
}

/// A keyboard's number, mostly in the row.
pub fn random_board(random: &mut Random, length: usize) -> Board {
    if length > 0 && !random.once_in(5) {
        return random.place(length) as Board;
    }
    let beside = (length + random.place(3)) as Board;
    let inside = random.place(length) as Board;
    // The low bytes of the next ones name a keyboard of the row.
    let cut = inside + random.pick(&[1 << 8, 1 << 16, 1 << 31]);
    let past = random.pick(&[15, 16, 17, 31, 255, 256, Board::MAX]);
    random.pick(&[beside, beside, past, cut])
}

// ---- A desk ----

/// How one sits at a keyboard.
enum Typist {
    /// As hands type, near every deadline; now and then something that is refused.
    Types { hands: Hands, refusals: bool },
    /// Any event, most of them refused.
    Rubbish,
}

/// A row with one before each keyboard.
pub struct Desk {
    pub lent: Lent,
    pub row: Vec<Flat>,
    typists: Vec<Typist>,
}

impl Desk {
    /// A row of 1 to 16. Each keyboard was opened with settings of its own, or stopped in
    /// the middle of something, and has a clock of its own; some are ill formed. One may
    /// send rubbish.
    pub fn random(random: &mut Random, lent: Lent) -> Desk {
        let length = random.pick(&[1, 2, 2, 3, 5, 16, MOST_KEYBOARDS]);
        let row: Vec<Flat> = (0..length).map(|_| seat(random, &lent)).collect();
        let rubbish = random.once_in(2).then(|| random.place(length));
        let typists = (0..length).map(|place| match rubbish == Some(place) {
            true => Typist::Rubbish,
            false => {
                Typist::Types { hands: Hands::random(random, &lent), refusals: random.once_in(3) }
            }
        });
        let typists = typists.collect();
        Desk { lent, row, typists }
    }

    /// The next event of any keyboard, for the row as it stands now. Now and then one for a
    /// keyboard that is not there.
    pub fn next(&self, random: &mut Random, row: &[Flat]) -> (Board, Event) {
        let board = match random.once_in(20) {
            true => random_board(random, row.len()),
            false => random.place(row.len()) as Board,
        };
        let place = (board as usize).min(row.len() - 1);
        (board, self.event(random, place, &row[place]))
    }

    /// The next event of the typist at this place.
    pub fn event(&self, random: &mut Random, place: usize, flat: &Flat) -> Event {
        let machine = flat.machine_with(&self.lent, Wrong::default()).ok();
        match (&self.typists[place], machine) {
            (Typist::Types { hands, refusals }, Some(machine)) => {
                next_event(random, &self.lent, &machine, hands, *refusals)
            }
            (Typist::Types { .. }, None) => random_event(random, &self.lent, flat),
            (Typist::Rubbish, _) => rubbish(random, &self.lent, flat),
        }
    }
}

/// A state to sit down at.
fn seat(random: &mut Random, lent: &Lent) -> Flat {
    let fresh = right_settings(random);
    let opened = open(fresh).map_or(Flat::default(), |machine| Flat::of(fresh, &machine));
    match random.below(16) {
        0 => broken_state(random, lent),
        1 => nameless_state(random, lent),
        2..=4 => right_state(random, lent),
        5..=7 => opened,
        _ => Flat { last: at(clock(random)), ..opened },
    }
}

/// Where a keyboard's clock is.
fn clock(random: &mut Random) -> u64 {
    match random.below(4) {
        0 => random.below(1_000),
        1 => random.below(LARGEST_STAMP),
        2 => LARGEST_STAMP - random.below(100_000),
        _ => random.between(1_000_000, 1_000_500),
    }
}

/// Bytes for a kind, a key and a stamp; now and then an event that may be accepted.
fn rubbish(random: &mut Random, lent: &Lent, flat: &Flat) -> Event {
    let any = random.next();
    match random.below(6) {
        0 => random_event(random, lent, flat),
        1 => Event { stamp: any, ..random_event(random, lent, flat) },
        2 => Event { kind: random.byte(), key: random.byte(), stamp: any % (2 * LARGEST_STAMP) },
        3 => Event { kind: 1, key: random.byte(), stamp: flat.last.ms },
        _ => Event { kind: random.byte(), key: random.byte(), stamp: any },
    }
}
