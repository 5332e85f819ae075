//! Compares the program that explains logs with the model, and what it says of other stamps
//! with the library:
//!
//!   compare_explain EXPLAIN [COUNT [SEED]] [--wrong-rule [NAME]]
//!
//! Gives EXPLAIN logs of every event in every state, at and beside every stamp where a
//! decision turns, with a list of pairs and without, and then COUNT random logs, accepted,
//! refused and damaged, and long ones. All that it prints must be what model/explain.rs makes
//! of the log, which finds by trying what an event would have decided sooner or later; and
//! with `--margins`, what model/margins.rs makes of it; and with `--why`, the sentence of that
//! character. Where
//! that is something else, trabeculon_step must give those words there, and a millisecond
//! nearer still the event's own. Exit 0: all equal. Exit 1: a mismatch, printed. Exit 2: wrong
//! arguments.

mod face;

use std::mem::discriminant;
use std::process::ExitCode;

use trabeculon_model::arguments::{self, named};
use trabeculon_model::damage::random_damaged;
use trabeculon_model::explain::{explain, Explained, Slips, EXPLAIN_SLIPS, KINDS};
use trabeculon_model::generate::{open, random_case, right_settings, typed_log};
use trabeculon_model::log::{log_with, RawSettings};
use trabeculon_model::margins::{self, MarginsSlip, MARGINS_SLIPS};
use trabeculon_model::model::{step_with, Event, Machine, SLIPS};
use trabeculon_model::notation;
use trabeculon_model::pairs::{pair, Lent, NO_PAIRS};
use trabeculon_model::program::{cut_hex, run};
use trabeculon_model::random::Random;
use trabeculon_model::tally::Tally;

const DEFAULT_COUNT: u64 = 1_000;
const DEFAULT_SEED: u64 = 20_010_401;
const NUMBERS: [u32; 9] = [0, 1, 3, 4, 5, 6, 7, 11, 12];

type Arguments = arguments::Arguments<Wrong>;

fn main() -> ExitCode {
    let words: Vec<String> = std::env::args().skip(1).collect();
    let read = match &words[..] {
        [program, rest @ ..] => read_arguments(rest).map(|read| (program, read)),
        _ => None,
    };
    let Some((program, arguments)) = read else {
        eprintln!("usage: compare_explain EXPLAIN [COUNT [SEED]] [--wrong-rule [NAME]]");
        let own = EXPLAIN_SLIPS.map(|(name, _)| name).join(", ");
        let own = own + ", " + &MARGINS_SLIPS.map(|(name, _)| name).join(", ");
        eprintln!("names: {own},\n{}", SLIPS.map(|(name, _)| name).join(", "));
        return ExitCode::from(2);
    };
    let mut compared = Compared { program: program.clone(), wrong: arguments.wrong, ..Compared::default() };
    match compared.all(&arguments) {
        Ok(()) => ExitCode::SUCCESS,
        Err(message) => {
            println!("{message}");
            ExitCode::from(1)
        }
    }
}

fn read_arguments(words: &[String]) -> Option<Arguments> {
    let usual = Arguments { count: DEFAULT_COUNT, seed: DEFAULT_SEED, wrong: Wrong::default() };
    let first = Slips { machine: None, own: Some(EXPLAIN_SLIPS[0].1) };
    Arguments::read(words, usual, Wrong { slips: first, margins: None }, |name| {
        let slips = Slips { machine: named(&SLIPS, name), own: named(&EXPLAIN_SLIPS, name) };
        let margins = named(&MARGINS_SLIPS, name);
        let any = slips.machine.is_some() || slips.own.is_some() || margins.is_some();
        any.then_some(Wrong { slips, margins })
    })
}

/// What was compared, and how often each answer and kind of row came up.
#[derive(Default)]
struct Compared {
    program: String,
    wrong: Wrong,
    numbers: Tally<u32>,
    kinds: Tally<&'static str>,
    rows: u64,
    tried: u64,
}

impl Compared {
    fn all(&mut self, arguments: &Arguments) -> Result<(), String> {
        let fixed = every_turn();
        for log in &fixed {
            self.log(log)?;
        }
        self.print(&format!("{} logs of every event in every state", fixed.len()));
        self.kinds.complete(&KINDS, self.rows)?;
        let seed = arguments.seed;
        let mut random = Random::new(seed);
        for index in 0..arguments.count {
            let log = match index % 8 {
                0 => random_damaged(&mut random),
                _ => random_case(&mut random).log,
            };
            self.log(&log).map_err(|what| format!("log {index} of seed {seed}: {what}"))?;
        }
        for bytes in [70_000, 200_000] {
            let raw = right_settings(&mut random);
            self.log(&typed_log(&mut random, raw, bytes))?;
        }
        self.print(&format!("and {} random logs of seed {seed} and two long ones", arguments.count));
        self.numbers.complete(&NUMBERS, 20 * arguments.count)
    }

    fn print(&self, what: &str) {
        println!("compared {what}: {} rows; numbers{}", self.rows, self.numbers.times());
        println!("  rows{}", self.kinds.times());
        println!("  {} other stamps, in the library too", self.tried);
    }

    /// All that the program prints with some arguments.
    fn prints(&self, arguments: &[&str], log: &[u8]) -> Result<(String, String), String> {
        let program = &self.program;
        let arguments: Vec<String> = arguments.iter().map(|word| word.to_string()).collect();
        let ran = run(program, &arguments, log).map_err(|error| format!("{program}: {error}"))?;
        let text = |bytes: &[u8]| String::from_utf8_lossy(bytes).into_owned();
        Ok((text(&ran.stdout), text(&ran.stderr)))
    }

    /// What `--margins` prints of a log.
    fn margins(&self, log: &[u8], right: &Explained) -> Result<(), String> {
        let (printed, _) = self.prints(&["--margins"], log)?;
        let text = margins::text(self.wrong.margins, &right.lent, right.settings, &right.seen);
        match printed == text {
            true => Ok(()),
            false => Err(differ(log, &printed, &text)),
        }
    }

    /// What `--why` prints of the first, a middle and the last committed character, and of one
    /// that is not there.
    fn why(&self, log: &[u8], right: &Explained) -> Result<(), String> {
        let count = right.reasons.len();
        for number in [1, count / 2 + 1, count.max(1), count + 1] {
            let reason = right.reasons.get(number - 1);
            let text = reason.map_or("", |reason| reason);
            let (printed, said) = self.prints(&["--why", &number.to_string()], log)?;
            if printed != text {
                return Err(differ(log, &printed, text));
            }
            let name = if count == 1 { "character" } else { "characters" };
            let missing = format!("explain: the log commits {count} {name} and no more\n");
            if reason.is_none() != said.starts_with(&missing) {
                return Err(differ(log, &said, &missing));
            }
        }
        Ok(())
    }

    /// One log through the program, the model and the library.
    fn log(&mut self, log: &[u8]) -> Result<(), String> {
        let (printed, said) = self.prints(&[], log)?;
        let right = explain(self.wrong.slips, log, &printed);
        if printed != right.text {
            return Err(differ(log, &printed, &right.text));
        }
        let names = match right.number {
            0 => said.is_empty(),
            _ => said.starts_with(&format!("explain: record at byte {}: ", right.offset)),
        };
        if !names || said.lines().count() > 1 {
            let refused = format!("refused {} at {}", right.number, right.offset);
            return Err(differ(log, &said, &refused));
        }
        self.margins(log, &right)?;
        self.why(log, &right)?;
        in_library(&right).map_err(|what| format!("{what}\nlog      {}", cut_hex(log)))?;
        self.numbers.add(right.number);
        self.rows += right.rows;
        right.kinds.iter().for_each(|kind| self.kinds.add(kind));
        self.tried += right.tried.len() as u64;
        Ok(())
    }
}

/// What the arguments put wrong: the model, or what `--margins` prints.
#[derive(Clone, Copy, Default)]
struct Wrong {
    slips: Slips,
    margins: Option<MarginsSlip>,
}

/// The library commits at the other stamps what was said.
fn in_library(right: &Explained) -> Result<(), String> {
    for tried in &right.tried {
        let stepped = face::step(&right.lent, &tried.flat, tried.event);
        let words = [stepped.first, stepped.second];
        let items = stepped.items as usize;
        let same = stepped.number == 0 && items == tried.words.len() && words[..items] == tried.words;
        if !same {
            let (event, flat) = (tried.event, tried.flat);
            return Err(format!(
                "the library differs: {event:?} of {flat:?}\nlibrary  {stepped:?}\nmodel    {:?}",
                tried.words
            ));
        }
    }
    Ok(())
}

// ---- Every event in every state, where decisions turn ----

/// Keystrokes that lead to a state; from the last one on an event comes. Without a list the
/// last four lead elsewhere.
const STATES: [&str; 12] = [
    "",
    "21@0",
    "R@0",
    "21@0 R@30",
    "R@0 21@30",
    "R@0 21@40 Rup@60",
    "R@0 0@20",
    "21@0 R@30 tick@65",
    "21@0 24@30",
    "24@0 21@0",
    "21@0 24@30 21up@50",
    "21@0 24@60 21up@61",
];

/// Of the waiting keys, of others in a pair and in none, of one that is held since long, of
/// one that is not held, of both thumbs, the function key and a tick.
const EVENTS: [&str; 16] = [
    "21@0", "24@0", "18@0", "19@0", "5@0", "21up@0", "24up@0", "18up@0", "5up@0", "L@0", "R@0",
    "Lup@0", "Rup@0", "F@0", "tick@0", "0up@0",
];

const SETTINGS: [RawSettings; 6] = [
    (100, 60, 40, 1),
    (100, 50, 50, 0),
    (100, 50, 50, 1),
    (1_000, 50, 50, 1),
    (200, 99, 99, 0),
    (50, 33, 70, 1),
];

/// So far apart are two tries in a log, and so many shifts are looked through for turns.
const APART: u64 = 100_000;
const FAR: u64 = 1_500;

/// One log for each of the settings and lists, of all the tries.
fn every_turn() -> Vec<Vec<u8>> {
    let pairs = [pair(21, 24, 0x30f4), pair(24, 18, 0x30f7), pair(0, 19, 0x41)];
    let lists = [None, Some(Lent::new(&pairs, 100, 50)), Some(Lent::new(&pairs, 60, 30))];
    let logs = SETTINGS.iter().flat_map(|raw| {
        lists.iter().map(|list| {
            let lent = list.as_ref().unwrap_or(&NO_PAIRS);
            log_with(*raw, list.as_ref(), &tries(*raw, lent))
        })
    });
    logs.collect()
}

/// The events of a log: key 5 is held, then each state, each event in it, at and beside
/// each stamp where it turns, and then the other keys are let go.
fn tries(raw: RawSettings, lent: &Lent) -> Vec<Event> {
    let Some(fresh) = open(raw) else { return vec![] };
    let begin = Machine { held: fresh.held.with(5), ..fresh };
    let mut events = keystrokes("5@0");
    let mut start = APART;
    for front in STATES.map(keystrokes) {
        let machine = after(lent, begin, &front);
        for event in EVENTS.map(keystrokes).concat() {
            for shift in turns(lent, &machine, event) {
                let at = Event { stamp: machine.last + shift, ..event };
                let end = after(lent, machine, &[at]);
                let stamp = at.stamp + 2 * FAR;
                let ups = end.held.keys().filter(|key| *key != 5);
                let ups = ups.map(|key| Event { kind: 2, key, stamp });
                let again = (!end.held.has(5)).then_some(Event { kind: 1, key: 5, stamp });
                let function = [Event { kind: 5, key: 0, stamp }];
                let behind = function.into_iter().chain(ups).chain(again);
                let one = front.iter().copied().chain([at]).chain(behind);
                events.extend(one.map(|event| Event { stamp: start + event.stamp, ..event }));
                start += APART;
            }
        }
    }
    events
}

/// The machine after these events.
fn after(lent: &Lent, machine: Machine, events: &[Event]) -> Machine {
    let step = |machine: Machine, event: &Event| {
        step_with(lent, &machine, *event).map_or(machine, |step| step.machine)
    };
    events.iter().fold(machine, step)
}

fn keystrokes(text: &str) -> Vec<Event> {
    notation::events(text).unwrap_or_default()
}

/// How far behind the keystrokes an event decides otherwise than a millisecond before: there,
/// just before and just behind; and at once.
fn turns(lent: &Lent, machine: &Machine, event: Event) -> Vec<u64> {
    let decided = |shift: u64| {
        let event = Event { stamp: machine.last + shift, ..event };
        let step = step_with(lent, machine, event).ok()?;
        Some((step.items, discriminant(&step.machine.resting)))
    };
    let mut shifts = vec![0, 7];
    for shift in 1..FAR {
        if decided(shift) != decided(shift - 1) {
            shifts.extend([shift - 1, shift, shift + 1]);
        }
    }
    shifts.sort();
    shifts.dedup();
    shifts
}

// ---- What differs ----

/// The first lines that differ.
fn differ(log: &[u8], found: &str, right: &str) -> String {
    let mut pairs = found.lines().zip(right.lines());
    let place = pairs.position(|(a, b)| a != b);
    let place = place.unwrap_or(found.lines().count().min(right.lines().count()));
    let line = |text: &str| text.lines().nth(place).unwrap_or("(no more)").to_string();
    let above = found.lines().take(place).skip(place.saturating_sub(6)).collect::<Vec<_>>();
    format!(
        "line {} differs\n{}\nexplain  {}\nmodel    {}\nlog      {}",
        place + 1,
        above.join("\n"),
        line(found),
        line(right),
        cut_hex(log)
    )
}
