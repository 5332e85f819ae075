//! Compares what the program `console` prints with what the model prints (10/12):
//!
//!   compare_console PROGRAM [COUNT [SEED]] [--wrong-rule [NAME]]
//!
//! Gives it on standard input, in pieces of any size: console's logs of the fixed set that is
//! damaged at every place (of those one in sixteen; the model is tried on all of them), COUNT
//! random ones, whole and damaged, and logs around the end of its buffer. Exit 0: all equal.
//! Exit 1: a mismatch, printed. Exit 2: wrong arguments.

use std::process::ExitCode;

use trabeculon_model::arguments::{self, named};
use trabeculon_model::console::{console_with, read_console, ConsoleSlip, CONSOLE_SLIPS};
use trabeculon_model::consoles::{every_console, long_consoles, random_console};
use trabeculon_model::program::{cut_hex, feed};
use trabeculon_model::random::Random;
use trabeculon_model::readers::{any_cut, random_cut};
use trabeculon_model::tally::Tally;

const DEFAULT_COUNT: u64 = 600;
const DEFAULT_SEED: u64 = 20_010_401;
/// Of the fixed set one log in so many.
const ONE_IN: u64 = 16;
/// The numbers of a keyboard's line, and those of a whole log. 8 and 9 are no log's of
/// ordinary length.
const LINE_NUMBERS: [u64; 7] = [0, 1, 3, 4, 5, 7, 11];
const LOG_NUMBERS: [u64; 5] = [0, 6, 7, 12, 13];

type Arguments = arguments::Arguments<Option<ConsoleSlip>>;

fn main() -> ExitCode {
    let words: Vec<String> = std::env::args().skip(1).collect();
    let read = words.split_first().and_then(|(program, rest)| Some((program, arguments(rest)?)));
    let Some((program, arguments)) = read else {
        eprintln!("usage: compare_console PROGRAM [COUNT [SEED]] [--wrong-rule [NAME]]");
        eprintln!("names: {}", CONSOLE_SLIPS.map(|(name, _)| name).join(", "));
        return ExitCode::from(2);
    };
    match compare_all(program, &arguments) {
        Ok(()) => ExitCode::SUCCESS,
        Err(message) => {
            println!("{message}");
            ExitCode::from(1)
        }
    }
}

fn arguments(words: &[String]) -> Option<Arguments> {
    let usual = Arguments { count: DEFAULT_COUNT, seed: DEFAULT_SEED, wrong: None };
    let slip = |name: &str| named(&CONSOLE_SLIPS, name).map(Some);
    Arguments::read(words, usual, Some(CONSOLE_SLIPS[0].1), slip)
}

fn compare_all(program: &str, arguments: &Arguments) -> Result<(), String> {
    let (slip, seed) = (arguments.wrong, arguments.seed);
    let mut random = Random::new(seed);
    let mut compared = Compared::new(program, slip);
    for index in 0..arguments.count {
        let log = random_console(&mut random);
        let pieces = random_cut(&mut random, log.len());
        compared
            .compare(&log, &pieces)
            .map_err(|what| format!("log {index} of seed {seed}: {what}"))?;
    }
    compared.print(&format!("random logs of seed {seed}"));
    compared.complete(arguments.count)?;

    let mut compared = Compared::new(program, slip);
    let mut index = 0;
    every_console(|log| {
        index += 1;
        match index % ONE_IN {
            0 => compared.compare(log, &[log.len()]),
            _ => Ok(()),
        }
    })?;
    compared.print("logs damaged at every place");

    let long = long_consoles(&mut random);
    for log in &long {
        let pieces = any_cut(&mut random, log.len());
        compared.compare(log, &pieces)?;
    }
    println!("compared the program's output on {} long logs", long.len());
    Ok(())
}

/// What was compared, and how often each number came up.
struct Compared<'a> {
    program: &'a str,
    slip: Option<ConsoleSlip>,
    lines: Tally,
    logs: Tally,
}

impl<'a> Compared<'a> {
    fn new(program: &'a str, slip: Option<ConsoleSlip>) -> Compared<'a> {
        Compared { program, slip, lines: Tally::default(), logs: Tally::default() }
    }

    fn compare(&mut self, log: &[u8], pieces: &[usize]) -> Result<(), String> {
        let program = self.program;
        let fed = feed(program, &[], log, pieces).map_err(|error| format!("{program}: {error}"))?;
        let right = console_with(self.slip, log);
        let printed = &fed.output.stdout;
        if printed != right.as_bytes() {
            return Err(format!(
                "the outputs differ\nlog     {}\nprogram {:?}\nmodel   {:?}",
                cut_hex(log),
                shown(&String::from_utf8_lossy(printed)),
                shown(&right),
            ));
        }
        let console = read_console(log);
        self.logs.add(console.refused.map_or(0, |refused| refused.number.into()));
        for line in console.lines.iter().filter(|line| line.named()) {
            self.lines.add(line.refused.map_or(0, |refused| refused.number.into()));
        }
        Ok(())
    }

    fn print(&self, what: &str) {
        self.logs.print(what);
        println!("  numbers of lines{}", self.lines.times());
    }

    fn complete(&self, count: u64) -> Result<(), String> {
        // Each of these comes up in a few hundred logs.
        self.lines.complete(&LINE_NUMBERS, 17 * count)?;
        self.logs.complete(&LOG_NUMBERS, 17 * count)
    }
}

/// No more of a text than its beginning.
fn shown(text: &str) -> String {
    text.chars().take(1_000).collect()
}
