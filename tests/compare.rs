//! Compares the proved library, through its C face, with the model of the papers:
//! the answer, the words or the log, and every byte that must stay untouched.
//!
//!   compare [COUNT [SEED]] [--wrong-rule [NAME]]
//!
//! The reader: the fixed set of logs damaged at every place, then COUNT random ones;
//! and then all of them with their stamps moved (compare_moved.rs). The writer
//! (compare_writer.rs): its fixed set of drills, then a quarter of COUNT random ones.
//! Exit 0: all equal. Exit 1: a mismatch, printed. Exit 2: wrong arguments.

mod compare_moved;
mod compare_writer;
mod face;

use std::process::ExitCode;

use trabeculon_model::arguments::{self, named};
use trabeculon_model::drill::{WriterSlip, WRITER_SLIPS};
use trabeculon_model::generate::{every_place, random_case, Case};
use trabeculon_model::holding::{Holding, HOLDING};
use trabeculon_model::log::{read_log_bytes_with, Answer};
use trabeculon_model::model::{Slip, SLIPS};
use trabeculon_model::overlaps::Overlaps;
use trabeculon_model::pairings::Pairings;
use trabeculon_model::program::hex;
use trabeculon_model::random::Random;
use trabeculon_model::tally::Tally;

const DEFAULT_COUNT: u64 = 200_000;
const DEFAULT_SEED: u64 = 20_010_401;
/// The numbers of a log: not 2, since a reader opens its own state.
const READER_NUMBERS: [u64; 10] = [0, 1, 3, 4, 5, 6, 7, 8, 11, 12];
/// Bytes before and after the run, to see a write outside it.
const GUARD: usize = 32;

type Arguments = arguments::Arguments<Wrong>;

/// A wrong rule for the model, if any.
#[derive(Clone, Copy, Default)]
struct Wrong {
    reader: Option<Slip>,
    writer: Option<WriterSlip>,
}

fn main() -> ExitCode {
    let words: Vec<String> = std::env::args().skip(1).collect();
    let Some(arguments) = read_arguments(&words) else {
        let reader = SLIPS.map(|(name, _)| name).join(", ");
        let writer = WRITER_SLIPS.map(|(name, _)| name).join(", ");
        eprintln!("usage: compare [COUNT [SEED]] [--wrong-rule [NAME]]");
        eprintln!("names: {reader},\n{writer}");
        return ExitCode::from(2);
    };
    match compare_all(&arguments) {
        Ok(()) => ExitCode::SUCCESS,
        Err(message) => {
            println!("{message}");
            ExitCode::from(1)
        }
    }
}

fn read_arguments(words: &[String]) -> Option<Arguments> {
    let usual = Arguments { count: DEFAULT_COUNT, seed: DEFAULT_SEED, wrong: Wrong::default() };
    let first = Wrong { reader: Some(SLIPS[0].1), writer: None };
    Arguments::read(words, usual, first, wrong_named)
}

fn wrong_named(name: &str) -> Option<Wrong> {
    let wrong = Wrong { reader: named(&SLIPS, name), writer: named(&WRITER_SLIPS, name) };
    (wrong.reader.is_some() || wrong.writer.is_some()).then_some(wrong)
}

fn compare_all(arguments: &Arguments) -> Result<(), String> {
    // No log shows a wrong rule of the writer.
    if arguments.wrong.writer.is_none() {
        compare_reader(arguments)?;
        compare_moved::compare_all(arguments)?;
    }
    compare_writer::compare_all(arguments)
}

fn compare_reader(arguments: &Arguments) -> Result<(), String> {
    // Of the logs and of the runs: the logs are made once more to be moved.
    let (mut random, mut runs) = (Random::new(arguments.seed), Random::new(!arguments.seed));
    let slip = arguments.wrong.reader;

    let mut fixed: Tally = Tally::default();
    every_place(|case| {
        compare(&mut runs, slip, &case).map(|answer| fixed.add(answer.number.into()))
    })?;
    fixed.print("logs damaged at every place");

    let mut tally = Tally::default();
    let (mut overlaps, mut holding) = (Overlaps::default(), Holding::default());
    let (mut pairings, mut waiting) = (Pairings::default(), Tally::default());
    for index in 0..arguments.count {
        let case = random_case(&mut random);
        let answer = compare(&mut runs, slip, &case)
            .map_err(|what| format!("log {index} of seed {}: {what}", arguments.seed))?;
        tally.add(answer.number.into());
        overlaps.add_log(&case.log[..answer.offset as usize]);
        holding.add_log(&case.log);
        pairings.add_log(&case.log);
        waiting.add(u64::from(answer.waiting));
    }
    tally.print(&format!("random logs of seed {}", arguments.seed));
    overlaps.print();
    holding.print();
    pairings.print();
    println!("  waiting{}", waiting.times());
    tally.complete(&READER_NUMBERS, arguments.count)?;
    holding.complete(&HOLDING, arguments.count)?;
    pairings.complete(arguments.count)?;
    waiting.complete(&[0, 1, 2], arguments.count)?;
    overlaps.complete(arguments.count)
}

/// Reads one log both ways into runs that hold the same bytes before.
fn compare(random: &mut Random, slip: Option<Slip>, case: &Case) -> Result<Answer, String> {
    let start = GUARD + random.place(8);
    let end = start + case.room;
    let before = random.bytes(end + GUARD);
    let log = case.log.clone();

    let mut left = before.clone();
    let library = face::read_log(&log, &mut left[start..end]);
    let mut right = before.clone();
    let model = read_log_bytes_with(slip, &case.log, &mut right[start..end]);

    let fault = if library != model {
        "the answers differ"
    } else if left[start..end] != right[start..end] {
        "the runs differ"
    } else if left != right {
        "a byte outside the run was written"
    } else if log != case.log {
        "the log was written"
    } else {
        return Ok(model);
    };
    Err(format!(
        "{fault}\nlog     {}\nrun     {} bytes, before {}\nlibrary {library:?}\n        {}\n\
         model   {model:?}\n        {}",
        hex(&case.log),
        case.room,
        hex(&before[start..end]),
        hex(&left[start..end]),
        hex(&right[start..end]),
    ))
}
