//! Compares the proved library's row of keyboards with the model of the papers (10/12):
//! every number of every answer, every number of every state of the row afterwards, and
//! what lies beside the row.
//!
//!   compare_row [COUNT [SEED]] [--wrong-rule [NAME]]
//!
//! Single events and askings at COUNT random rows of 0 to 17 states, well formed or not,
//! with keyboard numbers in the row and past it and lists, good or not. And desks, for every
//! twenty rows one: several type at once, each by a clock of its own, one sends rubbish, and
//! some states are ill formed. There an event must answer and leave what it does with
//! that state alone, and a keyboard whose events come to another row, from the same state,
//! must be answered the same. Exit 0: all equal. Exit 1: a mismatch, printed. Exit 2: wrong
//! arguments.

mod face;

use std::fmt::Debug;
use std::process::ExitCode;

use trabeculon_model::arguments::{self, named};
use trabeculon_model::lists::{random_lent, right_lent};
use trabeculon_model::live::{Asked, Flat};
use trabeculon_model::model::Event;
use trabeculon_model::pairs::{Lent, NO_PAIRS};
use trabeculon_model::random::Random;
use trabeculon_model::row::{row_distance, row_step, Board, RowSlip, Told, ROW_SLIPS};
use trabeculon_model::rows::{random_board, random_row, Desk, LONGEST_ROW};
use trabeculon_model::states::{
    every_state, random_event, random_stamp, random_state, usual_lent, USUAL,
};
use trabeculon_model::tally::Tally;

const DEFAULT_COUNT: u64 = 50_000;
const DEFAULT_SEED: u64 = 20_010_401;
/// So many events and so many askings for each random row.
const TRIES: usize = 4;
/// For so many random rows one desk.
const ROWS_FOR_A_DESK: u64 = 20;
/// The numbers of an event at a row, and those of asking.
const STEP_NUMBERS: [u64; 8] = [0, 2, 3, 4, 5, 11, 12, 13];
const DISTANCE_NUMBERS: [u64; 6] = [0, 2, 4, 5, 12, 13];
/// The same at a desk: its list is good.
const DESK_STEP_NUMBERS: [u64; 7] = [0, 2, 3, 4, 5, 11, 13];
const DESK_DISTANCE_NUMBERS: [u64; 5] = [0, 2, 4, 5, 13];
/// States before and behind the row, to see a write outside it.
const GUARD: usize = 2;

type Arguments = arguments::Arguments<Option<RowSlip>>;

fn main() -> ExitCode {
    let words: Vec<String> = std::env::args().skip(1).collect();
    let Some(arguments) = read_arguments(&words) else {
        eprintln!("usage: compare_row [COUNT [SEED]] [--wrong-rule [NAME]]");
        eprintln!("names: {}", ROW_SLIPS.map(|(name, _)| name).join(", "));
        return ExitCode::from(2);
    };
    match compare_all(&arguments) {
        Ok(()) => ExitCode::SUCCESS,
        Err(message) => {
            println!("{message}");
            ExitCode::from(1)
        }
    }
}

fn read_arguments(words: &[String]) -> Option<Arguments> {
    let usual = Arguments { count: DEFAULT_COUNT, seed: DEFAULT_SEED, wrong: None };
    let slip = |name: &str| named(&ROW_SLIPS, name).map(Some);
    Arguments::read(words, usual, Some(ROW_SLIPS[0].1), slip)
}

fn compare_all(arguments: &Arguments) -> Result<(), String> {
    compare_fixed(arguments)?;
    compare_random(arguments)?;
    compare_desks(arguments)
}

// ---- One answer ----

/// A row with states before and behind it that no call may touch.
struct Guarded {
    all: Vec<Flat>,
}

impl Guarded {
    fn new(random: &mut Random, lent: &Lent, row: &[Flat]) -> Guarded {
        let mut beside =
            || -> Vec<Flat> { (0..GUARD).map(|_| random_state(random, lent)).collect() };
        Guarded { all: [&beside()[..], row, &beside()].concat() }
    }

    fn row(&self) -> &[Flat] {
        &self.all[GUARD..self.all.len() - GUARD]
    }

    fn row_mut(&mut self) -> &mut [Flat] {
        let end = self.all.len() - GUARD;
        &mut self.all[GUARD..end]
    }
}

/// All that was compared, and how often each answer came up.
#[derive(Default)]
struct Compared {
    steps: Tally,
    distances: Tally,
    /// How long the rows were.
    lengths: Tally,
}

impl Compared {
    /// An event at the row, which is afterwards as the library leaves it.
    fn step(
        &mut self,
        slip: Option<RowSlip>,
        lent: &Lent,
        guarded: &mut Guarded,
        board: Board,
        event: Event,
    ) -> Result<Told, String> {
        let mut right = Guarded { all: guarded.all.clone() };
        let model = row_step(slip, lent, right.row_mut(), board, event);
        let before = guarded.all.clone();
        let library = face::row_step(lent, guarded.row_mut(), board, event);
        let same = same(&library, &model).and_then(|()| as_right(&guarded.all, &right.all));
        same.map_err(|what| {
            format!("{what}\n{event:?} of keyboard {board} of {before:?} with {lent:?}")
        })?;
        self.steps.add(library.number.into());
        self.lengths.add(guarded.row().len() as u64);
        Ok(library)
    }

    fn distance(
        &mut self,
        slip: Option<RowSlip>,
        lent: &Lent,
        guarded: &mut Guarded,
        board: Board,
        stamp: u64,
    ) -> Result<Asked, String> {
        let mut right = Guarded { all: guarded.all.clone() };
        let model = row_distance(slip, lent, right.row_mut(), board, stamp);
        let library = face::row_distance(lent, guarded.row(), board, stamp);
        let same = same(&library, &model).and_then(|()| as_right(&guarded.all, &right.all));
        same.map_err(|what| {
            let row = guarded.row();
            format!("{what}\ndistance from {stamp} of keyboard {board} of {row:?} with {lent:?}")
        })?;
        self.distances.add(library.number.into());
        Ok(library)
    }

    fn print(&self, what: &str) {
        self.steps.print(&format!("events {what}"));
        self.distances.print(&format!("askings {what}"));
        println!("  lengths{}", self.lengths.times());
    }

    /// An error if a number never came up.
    fn complete(&self, steps: &[u64], distances: &[u64], count: u64) -> Result<(), String> {
        self.steps.complete(steps, count).map_err(|what| format!("of events, {what}"))?;
        self.distances.complete(distances, count).map_err(|what| format!("of askings, {what}"))
    }
}

fn same<T: Debug + PartialEq>(library: &T, model: &T) -> Result<(), String> {
    match library == model {
        true => Ok(()),
        false => Err(format!("the answers differ\nlibrary {library:?}\nmodel   {model:?}")),
    }
}

/// The states and what lies beside them.
fn as_right(library: &[Flat], model: &[Flat]) -> Result<(), String> {
    match library.iter().zip(model).position(|(left, right)| left != right) {
        None => Ok(()),
        Some(place) => Err(format!(
            "the state at {} differs\nlibrary {:?}\nmodel   {:?}",
            place as i64 - GUARD as i64,
            library[place],
            model[place],
        )),
    }
}

// ---- Single events and askings ----

/// Every length with every keyboard number up to past the longest, at a good list and a bad
/// one; and the fixed set of states, each in the middle of three and in a row of 17.
fn compare_fixed(arguments: &Arguments) -> Result<(), String> {
    let slip = arguments.wrong;
    let mut random = Random::new(arguments.seed);
    let mut compared = Compared::default();
    let (good, bad) = (usual_lent(), Lent::new(&[], 49, 50));
    let event = Event { kind: 1, key: 21, stamp: 1_000 };
    for length in 0..=LONGEST_ROW + 3 {
        for board in (0..=LONGEST_ROW as Board + 3).chain([255, 256, 1 << 31, Board::MAX]) {
            for lent in [&good, &bad] {
                let mut guarded = Guarded::new(&mut random, lent, &vec![USUAL; length]);
                compared.step(slip, lent, &mut guarded, board, event)?;
                compared.distance(slip, lent, &mut guarded, board, event.stamp)?;
            }
        }
    }
    let mut index = 0;
    every_state(|lent, flat, event| {
        index += 1;
        // The others are tried alone, by compare_step.
        if index % 64 != 0 {
            return Ok(());
        }
        let length = if index % 512 == 0 { LONGEST_ROW } else { 3 };
        let mut row = vec![USUAL; length];
        row[1] = *flat;
        let mut guarded = Guarded::new(&mut random, lent, &row);
        compared.distance(slip, lent, &mut guarded, 1, event.stamp)?;
        compared.step(slip, lent, &mut guarded, 1, event).map(drop)
    })?;
    compared.print("at every length and keyboard, and at the fixed set of states");
    Ok(())
}

fn compare_random(arguments: &Arguments) -> Result<(), String> {
    let (slip, seed) = (arguments.wrong, arguments.seed);
    let mut random = Random::new(seed);
    let mut compared = Compared::default();
    for index in 0..arguments.count {
        let lent = random_lent(&mut random);
        let row = random_row(&mut random, &lent);
        compare_row(&mut random, slip, &lent, &row, &mut compared)
            .map_err(|what| format!("row {index} of seed {seed}: {what}"))?;
    }
    compared.print(&format!("at random rows of seed {seed}"));
    compared.complete(&STEP_NUMBERS, &DISTANCE_NUMBERS, arguments.count)
}

/// A few events and askings at one row, each at the row as it was.
fn compare_row(
    random: &mut Random,
    slip: Option<RowSlip>,
    lent: &Lent,
    row: &[Flat],
    compared: &mut Compared,
) -> Result<(), String> {
    let mut guarded = Guarded::new(random, lent, row);
    let before = guarded.all.clone();
    for _ in 0..TRIES {
        let board = random_board(random, row.len());
        let flat = row.get(board as usize).copied().unwrap_or(USUAL);
        compared.distance(slip, lent, &mut guarded, board, random_stamp(random, lent, &flat))?;
        compared.step(slip, lent, &mut guarded, board, random_event(random, lent, &flat))?;
        guarded.all.copy_from_slice(&before);
    }
    Ok(())
}

// ---- Desks ----

/// What a keyboard's event was answered, and its state afterwards.
type Answered = (Event, Told, Flat);

fn compare_desks(arguments: &Arguments) -> Result<(), String> {
    let seed = arguments.seed;
    // Another run of numbers than that of the rows.
    let mut random = Random::new(!seed);
    let (mut compared, desks) = (Compared::default(), arguments.count / ROWS_FOR_A_DESK);
    for index in 0..desks {
        compare_desk(&mut random, arguments.wrong, &mut compared)
            .map_err(|what| format!("desk {index} of seed {seed}: {what}"))?;
    }
    compared.print(&format!("at {desks} desks of seed {seed}"));
    compared.complete(&DESK_STEP_NUMBERS, &DESK_DISTANCE_NUMBERS, arguments.count)
}

fn compare_desk(
    random: &mut Random,
    slip: Option<RowSlip>,
    compared: &mut Compared,
) -> Result<(), String> {
    let lent = if random.once_in(3) { NO_PAIRS.clone() } else { right_lent(random) };
    let desk = Desk::random(random, lent);
    let lent = &desk.lent;
    let mut guarded = Guarded::new(random, lent, &desk.row);
    let mut answered: Vec<Vec<Answered>> = vec![vec![]; desk.row.len()];
    for _ in 0..random.pick(&[10, 60, 200]) {
        let (board, event) = desk.next(random, guarded.row());
        let own = guarded.row().get(board as usize).copied();
        let alone = own.map(|flat| face::step(lent, &flat, event));
        let told = compared.step(slip, lent, &mut guarded, board, event)?;
        if let Some(alone) = alone {
            let place = board as usize;
            let state = guarded.row()[place];
            answered[place].push((event, told, state));
            if (told, state) != (Told::of(&alone), alone.machine) {
                return Err(format!("alone {alone:?}\nin the row {told:?}, {state:?}"));
            }
        }
        let board = random_board(random, desk.row.len());
        let flat = guarded.row().get(board as usize).copied().unwrap_or(USUAL);
        compared.distance(slip, lent, &mut guarded, board, random_stamp(random, lent, &flat))?;
    }
    compare_apart(random, &desk, &answered)
}

/// One keyboard's events once more, in a row of other states that get other events, at
/// another place.
fn compare_apart(
    random: &mut Random,
    desk: &Desk,
    answered: &[Vec<Answered>],
) -> Result<(), String> {
    let lent = &desk.lent;
    let from = random.place(answered.len());
    let mut row: Vec<Flat> = desk.row.iter().map(|_| random_state(random, lent)).collect();
    let place = random.place(row.len());
    row[place] = desk.row[from];
    for (event, told, state) in &answered[from] {
        let other = random.place(row.len());
        if other != place {
            let between = random_event(random, lent, &row[other]);
            face::row_step(lent, &mut row, other as Board, between);
        }
        let again = face::row_step(lent, &mut row, place as Board, *event);
        if (again, row[place]) != (*told, *state) {
            let now = row[place];
            return Err(format!("among others {again:?}, {now:?}\nbefore {told:?}, {state:?}"));
        }
    }
    Ok(())
}
