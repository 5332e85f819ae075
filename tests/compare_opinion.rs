//! Compares a second opinion with the step machine, and both with the model (11/12):
//!
//!   compare_opinion OPINION PLAY [COUNT [SEED]] [--wrong-rule [NAME]]
//!
//! Gives both programs the same logs on standard input: shifts, which are long logs with every
//! kind of stroke, accepted to their end; COUNT short ones, with lists and damaged; and some
//! of a fixed set that is damaged at every place. `play` must print what the model's reader
//! says, `opinion` what the model says of a second opinion: the same, but for 14 at a list
//! with pairs. Exit 0: all equal. Exit 1: a mismatch, printed. Exit 2: wrong arguments.

use std::process::ExitCode;

use trabeculon_model::arguments::{self, named};
use trabeculon_model::generate::every_place;
use trabeculon_model::log::play;
use trabeculon_model::opinion::{opined_with, OpinionSlip, OPINION_SLIPS};
use trabeculon_model::program::{cut_hex, run};
use trabeculon_model::random::Random;
use trabeculon_model::shifts::{random_opined, random_shift};
use trabeculon_model::tally::Tally;

const DEFAULT_COUNT: u64 = 600;
const DEFAULT_SEED: u64 = 20_010_401;
/// How many events the shifts have; of each length some.
const LENGTHS: [usize; 5] = [30, 300, 1_000, 2_000, 4_000];
const SHIFTS: usize = 8;
/// Of the fixed set one log in so many.
const ONE_IN: u64 = 1_500;
/// The numbers of a log; its room always suffices.
const NUMBERS: [u64; 10] = [0, 1, 3, 4, 5, 6, 7, 11, 12, 14];

type Arguments = arguments::Arguments<Option<OpinionSlip>>;

fn main() -> ExitCode {
    let words: Vec<String> = std::env::args().skip(1).collect();
    let read = match &words[..] {
        [opinion, play, rest @ ..] => arguments(rest).map(|read| ((opinion, play), read)),
        _ => None,
    };
    let Some(((opinion, play), arguments)) = read else {
        eprintln!("usage: compare_opinion OPINION PLAY [COUNT [SEED]] [--wrong-rule [NAME]]");
        eprintln!("names: {}", OPINION_SLIPS.map(|(name, _)| name).join(", "));
        return ExitCode::from(2);
    };
    match compare_all(&Programs { opinion, play, slip: arguments.wrong }, &arguments) {
        Ok(()) => ExitCode::SUCCESS,
        Err(message) => {
            println!("{message}");
            ExitCode::from(1)
        }
    }
}

fn arguments(words: &[String]) -> Option<Arguments> {
    let usual = Arguments { count: DEFAULT_COUNT, seed: DEFAULT_SEED, wrong: None };
    let slip = |name: &str| named(&OPINION_SLIPS, name).map(Some);
    Arguments::read(words, usual, Some(OPINION_SLIPS[0].1), slip)
}

fn compare_all(programs: &Programs, arguments: &Arguments) -> Result<(), String> {
    let seed = arguments.seed;
    let mut random = Random::new(seed);
    let mut bytes = 0;
    for length in LENGTHS.into_iter().flat_map(|length| [length; SHIFTS]) {
        let log = random_shift(&mut random, length);
        programs.compare(&log).map_err(|what| format!("a shift of seed {seed}: {what}"))?;
        bytes += log.len();
    }
    println!("compared {} shifts of {bytes} bytes in all", SHIFTS * LENGTHS.len());

    let mut tally = Tally::default();
    for index in 0..arguments.count {
        let log = random_opined(&mut random);
        tally.add(
            programs.compare(&log).map_err(|what| format!("log {index} of seed {seed}: {what}"))?,
        );
    }
    tally.print(&format!("random logs of seed {seed}"));
    tally.complete(&NUMBERS, 17 * arguments.count)?;

    let (mut index, mut compared) = (0, 0);
    every_place(|case| {
        index += 1;
        if index % ONE_IN != 0 {
            return Ok(());
        }
        compared += 1;
        programs.compare(&case.log).map(drop)
    })?;
    println!("compared {compared} of {index} logs damaged at every place");
    Ok(())
}

struct Programs<'a> {
    opinion: &'a str,
    play: &'a str,
    slip: Option<OpinionSlip>,
}

impl Programs<'_> {
    /// Both programs on one log; the number of the second opinion.
    fn compare(&self, log: &[u8]) -> Result<u64, String> {
        let printed = |program: &str| {
            let ran = run(program, &[], log).map_err(|error| format!("{program}: {error}"))?;
            Ok::<_, String>(String::from_utf8_lossy(&ran.stdout).into_owned())
        };
        let (opinion, step) = (printed(self.opinion)?, printed(self.play)?);
        let (right, model) = (opined_with(self.slip, log), play(log));
        if (&opinion, &step) == (&right, &model) {
            return Ok(number(&right));
        }
        let [opinion, right, step, model] = [&opinion, &right, &step, &model].map(|t| shown(t));
        Err(format!(
            "the outputs differ\nlog     {}\nopinion {opinion:?}\nmodel   {right:?}\n\
             play    {step:?}\nmodel   {model:?}",
            cut_hex(log),
        ))
    }
}

/// The number that an output ends with: `refused N at OFFSET`, else 0.
fn number(printed: &str) -> u64 {
    let end = printed.lines().last().and_then(|line| line.strip_prefix("refused "));
    end.and_then(|end| end.split(' ').next()?.parse().ok()).unwrap_or(0)
}

/// No more of a text than its end.
fn shown(text: &str) -> String {
    let from = text.chars().count().saturating_sub(1_000);
    text.chars().skip(from).collect()
}
