//! Compares the proved library's face for a live keyboard with the model of the
//! papers, every number of every answer: opening, single steps and distances from
//! any state that a host can hand over, and long walks from opened machines.
//!
//!   compare_step [COUNT [SEED]] [--wrong-rule [NAME]]
//!
//! Opening: every T, and settings on and beside every boundary. Steps and distances:
//! a fixed set that tries every place of a state's numbers, and lists on and beside every
//! bound, then COUNT random states, each with a list, good or bad, and a few events and
//! stamps. Walks: for every twenty states one, each with one list. And walks and states
//! with their stamps moved (compare_step_moved.rs). Exit 0: all equal. Exit 1: a mismatch,
//! printed. Exit 2: wrong arguments.

mod compare_step_moved;
mod face;

use std::fmt::{Debug, Formatter};
use std::process::ExitCode;

use trabeculon_model::arguments::{self, named};
use trabeculon_model::generate::{
    boundary_settings, next_event, right_settings, wrong_settings, Hands,
};
use trabeculon_model::holding::{Holding, HOLDING, UP_OF_M_ALONE};
use trabeculon_model::lists::{random_lent, right_lent};
use trabeculon_model::live::{
    distance_with, open, step_numbers_with, Asked, Flat, Opened, Stepped, Wrong, LIVE_SLIPS,
};
use trabeculon_model::log::{word, RawSettings};
use trabeculon_model::model::{shown, Event, LARGEST_STAMP, SLIPS};
use trabeculon_model::overlaps::Overlaps;
use trabeculon_model::pairings::Pairings;
use trabeculon_model::pairs::{Lent, NO_PAIRS};
use trabeculon_model::random::Random;
use trabeculon_model::states::{every_state, random_event, random_stamp, random_state};
use trabeculon_model::tally::Tally;

const DEFAULT_COUNT: u64 = 200_000;
const DEFAULT_SEED: u64 = 20_010_401;
/// So many events and so many distances for each random state.
const TRIES: usize = 8;
/// For so many random states one walk.
const STATES_FOR_A_WALK: u64 = 20;
/// The numbers of a step, and those of a distance.
const STEP_NUMBERS: [u64; 7] = [0, 2, 3, 4, 5, 11, 12];
const DISTANCE_NUMBERS: [u64; 5] = [0, 2, 4, 5, 12];
/// The same in a walk: not 2, since the machine is always one handed back, and not 12,
/// since the list is good.
const WALK_STEP_NUMBERS: [u64; 5] = [0, 3, 4, 5, 11];
const WALK_DISTANCE_NUMBERS: [u64; 3] = [0, 4, 5];

type Arguments = arguments::Arguments<Wrong>;

fn main() -> ExitCode {
    let words: Vec<String> = std::env::args().skip(1).collect();
    let Some(arguments) = read_arguments(&words) else {
        let machine = SLIPS.map(|(name, _)| name).join(", ");
        let live = LIVE_SLIPS.map(|(name, _)| name).join(", ");
        eprintln!("usage: compare_step [COUNT [SEED]] [--wrong-rule [NAME]]");
        eprintln!("names: {machine},\n{live}");
        return ExitCode::from(2);
    };
    match compare_all(&arguments) {
        Ok(()) => ExitCode::SUCCESS,
        Err(message) => {
            println!("{message}");
            ExitCode::from(1)
        }
    }
}

fn read_arguments(words: &[String]) -> Option<Arguments> {
    let usual = Arguments { count: DEFAULT_COUNT, seed: DEFAULT_SEED, wrong: Wrong::default() };
    let first = Wrong { machine: None, live: Some(LIVE_SLIPS[0].1) };
    Arguments::read(words, usual, first, wrong_named)
}

fn wrong_named(name: &str) -> Option<Wrong> {
    let wrong = Wrong { machine: named(&SLIPS, name), live: named(&LIVE_SLIPS, name) };
    (wrong.machine.is_some() || wrong.live.is_some()).then_some(wrong)
}

fn compare_all(arguments: &Arguments) -> Result<(), String> {
    compare_openings(arguments)?;
    compare_fixed(arguments)?;
    compare_random(arguments)?;
    compare_walks(arguments)?;
    compare_step_moved::compare_all(arguments)
}

// ---- One answer ----

/// What the two answered, where it is not the same.
fn differ<T: Debug>(what: &str, library: T, model: T) -> String {
    format!("the answers differ\n{what}\nlibrary {library:?}\nmodel   {model:?}")
}

fn compare_open(wrong: Wrong, raw: RawSettings) -> Result<Opened, String> {
    let (library, model) = (face::open(raw), open(wrong, raw));
    if library != model {
        return Err(differ(&format!("open, T J L solo {raw:?}"), library, model));
    }
    Ok(library)
}

/// The names of the states; 0 is any state that is refused 2, or with its list 12.
const STATES: [&str; 9] = ["refused-2-or-12", "S1", "S2", "S3", "S4", "S5", "S6", "S7", "S8"];
/// The kinds of an answered distance.
const WAITS: [&str; 4] = ["overdue", "due-now", "to-wait", "no-deadline"];

/// All that was compared, and how often each answer came up.
#[derive(Default)]
struct Compared {
    steps: Tally,
    before: Tally<&'static str>,
    /// After the accepted steps.
    after: Tally<&'static str>,
    overlaps: Overlaps,
    holding: Holding,
    pairings: Pairings,
    distances: Tally,
    waits: Tally<&'static str>,
}

impl Compared {
    fn step(
        &mut self,
        wrong: Wrong,
        lent: &Lent,
        flat: &Flat,
        event: Event,
    ) -> Result<Stepped, String> {
        let library = face::step(lent, flat, event);
        let model = step_numbers_with(wrong, lent, flat, event);
        if library != model {
            let what = format!("step {event:?} of {flat:?} with {lent:?}");
            return Err(differ(&what, library, model));
        }
        self.steps.add(model.number.into());
        let none = [2, 12].contains(&model.number);
        self.before.add(STATES[if none { 0 } else { usize::from(flat.state) }]);
        if model.number == 0 {
            self.after.add(STATES[usize::from(model.machine.state)]);
        }
        if let (Ok(machine), true) = (flat.machine_with(lent, Wrong::default()), !none) {
            self.overlaps.add(lent, &machine, event);
            self.holding.add(lent, &machine, event);
            self.pairings.add(lent, &machine, event);
        }
        Ok(library)
    }

    fn distance(
        &mut self,
        wrong: Wrong,
        lent: &Lent,
        flat: &Flat,
        stamp: u64,
    ) -> Result<Asked, String> {
        let library = face::distance(lent, flat, stamp);
        let model = distance_with(wrong, lent, flat, stamp);
        if library != model {
            let what = format!("distance from {stamp} of {flat:?} with {lent:?}");
            return Err(differ(&what, library, model));
        }
        self.distances.add(model.number.into());
        if model.number == 0 {
            let sign = (model.milliseconds.signum() + 1) as usize;
            self.waits.add(WAITS[if model.deadline == 0 { 3 } else { sign }]);
        }
        Ok(library)
    }

    fn print(&self, what: &str) {
        self.steps.print(&format!("steps {what}"));
        println!("  states before{}", self.before.times());
        println!("  states after the accepted ones{}", self.after.times());
        self.overlaps.print();
        self.holding.print();
        self.pairings.print();
        self.distances.print(&format!("distances {what}"));
        println!("  answered{}", self.waits.times());
    }

    /// An error if a number, a state or a kind of distance never came up.
    fn complete(&self, steps: &[u64], distances: &[u64], count: u64) -> Result<(), String> {
        let complete = || {
            self.steps.complete(steps, count)?;
            self.distances.complete(distances, count)?;
            self.before.complete(&STATES[1..], count)?;
            self.after.complete(&STATES[1..], count)?;
            self.waits.complete(&WAITS, count)
        };
        complete().map_err(|what: String| format!("of steps and distances, {what}"))
    }
}

// ---- Opening ----

fn compare_openings(arguments: &Arguments) -> Result<(), String> {
    let mut random = Random::new(arguments.seed);
    let mut tally = Tally::default();
    let every_t = (0..=u16::MAX).map(|t| (t, 50, 50, 1));
    let every_byte = (0..=255).flat_map(|byte| {
        [(100, byte, 50, 0), (100, 50, byte, 0), (100, 50, 50, byte), (byte.into(), byte, byte, 1)]
    });
    let random_ones = (0..10_000).map(|index| match index % 2 {
        0 => right_settings(&mut random),
        _ => wrong_settings(&mut random),
    });
    for raw in every_t.chain(every_byte).chain(boundary_settings()).chain(random_ones) {
        tally.add(compare_open(arguments.wrong, raw)?.number);
    }
    tally.print("openings");
    Ok(())
}

// ---- Single steps and distances ----

fn compare_fixed(arguments: &Arguments) -> Result<(), String> {
    let wrong = arguments.wrong;
    let mut compared = Compared::default();
    every_state(|lent, flat, event| {
        compared.step(wrong, lent, flat, event)?;
        compared.distance(wrong, lent, flat, event.stamp).map(drop)
    })?;
    compared.print("with every place of a state tried");
    Ok(())
}

fn compare_random(arguments: &Arguments) -> Result<(), String> {
    let mut random = Random::new(arguments.seed);
    let mut compared = Compared::default();
    for index in 0..arguments.count {
        let lent = random_lent(&mut random);
        let flat = random_state(&mut random, &lent);
        compare_state(&mut random, arguments.wrong, &lent, &flat, &mut compared)
            .map_err(|what| format!("state {index} of seed {}: {what}", arguments.seed))?;
    }
    compared.print(&format!("from random states of seed {}", arguments.seed));
    compared.overlaps.complete(arguments.count)?;
    compared.holding.complete(&HOLDING, arguments.count)?;
    compared.holding.complete(&[UP_OF_M_ALONE], arguments.count)?;
    compared.pairings.complete(arguments.count)?;
    compared.complete(&STEP_NUMBERS, &DISTANCE_NUMBERS, arguments.count)
}

/// A few events and a few stamps for one state.
fn compare_state(
    random: &mut Random,
    wrong: Wrong,
    lent: &Lent,
    flat: &Flat,
    compared: &mut Compared,
) -> Result<(), String> {
    for _ in 0..TRIES {
        compared.step(wrong, lent, flat, random_event(random, lent, flat))?;
        compared.distance(wrong, lent, flat, random_stamp(random, lent, flat))?;
    }
    Ok(())
}

// ---- Walks ----

fn compare_walks(arguments: &Arguments) -> Result<(), String> {
    let mut compared = Compared::default();
    let walks = every_walk(arguments, &mut compared, |_| Ok(()))?;
    compared.print(&format!("in {walks} walks of seed {}", arguments.seed));
    compared.overlaps.complete(walks)?;
    compared.holding.complete(&HOLDING, arguments.count)?;
    compared.pairings.complete(walks)?;
    compared.complete(&WALK_STEP_NUMBERS, &WALK_DISTANCE_NUMBERS, arguments.count)
}

/// Goes all walks, always the same ones, and hands each over; stops at the first error.
/// How many there were.
fn every_walk(
    arguments: &Arguments,
    compared: &mut Compared,
    mut visit: impl FnMut(Walk) -> Result<(), String>,
) -> Result<u64, String> {
    // Another run of numbers than that of the states.
    let mut random = Random::new(!arguments.seed);
    let walks = arguments.count / STATES_FOR_A_WALK;
    for index in 0..walks {
        compare_walk(&mut random, arguments.wrong, compared)
            .and_then(&mut visit)
            .map_err(|what| format!("walk {index} of seed {}: {what}", arguments.seed))?;
    }
    Ok(walks)
}

/// The calls of a walk from opening on, and what they were answered; the same list is
/// lent with each.
struct Walk {
    settings: RawSettings,
    lent: Lent,
    calls: Vec<Call>,
}

/// An event, and then distances from stamps.
struct Call {
    event: Event,
    stepped: Stepped,
    asked: Vec<(u64, Asked)>,
}

/// What a host has in hand: the machine, the committed line and the screen.
struct Host<'a> {
    lent: &'a Lent,
    machine: Flat,
    line: Vec<u16>,
    screen: Vec<u16>,
}

fn compare_walk(
    random: &mut Random,
    wrong: Wrong,
    compared: &mut Compared,
) -> Result<Walk, String> {
    let raw = right_settings(random);
    let opened = compare_open(wrong, raw)?;
    let lent = if random.once_in(3) { NO_PAIRS.clone() } else { right_lent(random) };
    let mut host = Host { lent: &lent, machine: opened.machine, line: vec![], screen: vec![] };
    let hands = Hands::random(random, &lent);
    let count = random.pick(&[10, 30, 30, 60, 200]);
    let (mut events, mut calls) = (vec![], vec![]);
    for _ in 0..random.place(count) {
        let machine = host.machine.machine_with(&lent, Wrong::default());
        let machine = machine.map_err(|_| format!("no machine was handed back: {host:?}"))?;
        let event = match thumb_release(random, &host.machine) {
            Some(event) => event,
            None => next_event(random, &lent, &machine, &hands, true),
        };
        events.push((event.kind, event.key, event.stamp));
        let call = walk_on(random, wrong, &mut host, event, compared).map_err(|what| {
            format!("{what}\nT J L solo {raw:?}, {lent:?}, kinds, keys and stamps {events:?}")
        })?;
        calls.push(call);
    }
    Ok(Walk { settings: raw, lent, calls })
}

/// Now and then in S5 its thumb goes up soon, which is what leads to S6.
fn thumb_release(random: &mut Random, flat: &Flat) -> Option<Event> {
    let stamp = flat.last.ms + random.below(20);
    let soon = flat.state == 5 && stamp <= LARGEST_STAMP && random.once_in(4);
    soon.then_some(Event { kind: 4, key: flat.thumb, stamp })
}

/// One event of a walk: the step, the screen, and a few distances after it.
fn walk_on(
    random: &mut Random,
    wrong: Wrong,
    host: &mut Host,
    event: Event,
    compared: &mut Compared,
) -> Result<Call, String> {
    let lent = host.lent;
    let stepped = compared.step(wrong, lent, &host.machine, event)?;
    host.take(&stepped)?;
    let last = host.machine.last.ms;
    let now = compared.distance(wrong, lent, &host.machine, last)?;
    let due = last.saturating_add_signed(now.milliseconds);
    let far = last.saturating_add(random.below(150_000));
    let out = random.pick(&[last.wrapping_sub(1), LARGEST_STAMP, LARGEST_STAMP + 1, u64::MAX]);
    let mut asked = vec![(last, now)];
    for stamp in [due.saturating_sub(1), due, due.saturating_add(1), far, out] {
        asked.push((stamp, compared.distance(wrong, lent, &host.machine, stamp)?));
    }
    Ok(Call { event, stepped, asked })
}

impl Host<'_> {
    /// Does what a step asks for; the screen is then the committed line and the
    /// characters that wait.
    fn take(&mut self, stepped: &Stepped) -> Result<(), String> {
        for _ in 0..stepped.backspaces {
            self.screen.pop();
            if !self.screen.starts_with(&self.line) {
                return Err(format!("a backspace takes a committed sign: {stepped:?}"));
            }
        }
        let sent = [stepped.sent_first, stepped.sent_second, stepped.sent_third];
        self.screen.extend(sent.iter().filter(|sign| **sign != 0));
        self.line.extend([stepped.first, stepped.second].iter().filter(|word| **word != 0));
        self.machine = stepped.machine;
        let machine = self.machine.machine_with(self.lent, Wrong::default());
        let waiting = machine.map_or(vec![], |machine| shown(&machine.resting));
        let waiting: Vec<u16> = waiting.into_iter().map(word).collect();
        if self.screen == [&self.line[..], &waiting].concat() {
            Ok(())
        } else {
            Err(format!("the screen is not the line and what waits: {stepped:?}\n{self:?}"))
        }
    }
}

impl Debug for Host<'_> {
    fn fmt(&self, f: &mut Formatter) -> std::fmt::Result {
        let Host { machine, line, screen, .. } = self;
        write!(f, "line {line:x?}\nscreen {screen:x?}\n{machine:?}")
    }
}
