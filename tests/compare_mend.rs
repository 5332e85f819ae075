//! Compares the mender with the model (12/12), through its C face and as a program:
//!
//!   compare_mend MEND PLAY [COUNT [SEED]] [--wrong-rule [NAME]]
//!
//! Mends with trabeculon_mend COUNT random damaged logs, and those of a fixed set that is
//! damaged at every place, into rooms on and beside what is needed, with lists of every short
//! length: the answers, what both runs hold and what they held before must agree. Then gives
//! the program MEND some of them, and long ones, and compares what it writes and lists; what
//! PLAY prints of that must be the model's line. Exit 0: all equal. Exit 1: a mismatch,
//! printed. Exit 2: wrong arguments.

use std::process::ExitCode;

use trabeculon_model::arguments::{self, named};
use trabeculon_model::damage::{every_damage, random_damaged, random_mend, Mend};
use trabeculon_model::log::play;
use trabeculon_model::mend::{
    mend_into_with, mend_with, Dropped, MendSlip, MEND_SLIPS, MOST_LISTED,
};
use trabeculon_model::program::{cut_hex, run};
use trabeculon_model::random::Random;
use trabeculon_model::tally::Tally;

const DEFAULT_COUNT: u64 = 40_000;
const DEFAULT_SEED: u64 = 20_010_401;
/// How many random logs the program is given; of the fixed set one in so many.
const PROGRAM_COUNT: u64 = 400;
const ONE_IN: u64 = 4_000;
/// The longest log that the program mends.
const LONGEST: usize = 1_048_576;
const NUMBERS: [u64; 6] = [0, 1, 6, 7, 8, 12];
/// What the runs hold before.
const BYTE: u8 = 0xEE;
const NUMBER: u64 = 0xEEEE_EEEE_EEEE_EEEE;

type Arguments = arguments::Arguments<Option<MendSlip>>;

#[repr(C)]
#[derive(Clone, Copy, PartialEq, Eq, Debug)]
struct Answer {
    number: u64,
    bytes: u64,
    listed: u64,
    dropped: u64,
}

extern "C" {
    fn trabeculon_mend(
        log: *const u8,
        log_len: usize,
        out: *mut u8,
        out_len: usize,
        list: *mut u64,
        list_len: usize,
    ) -> Answer;
}

fn main() -> ExitCode {
    let words: Vec<String> = std::env::args().skip(1).collect();
    let read = match &words[..] {
        [mend, play, rest @ ..] => arguments(rest).map(|read| (mend, play, read)),
        _ => None,
    };
    let Some((mend, play, arguments)) = read else {
        eprintln!("usage: compare_mend MEND PLAY [COUNT [SEED]] [--wrong-rule [NAME]]");
        eprintln!("names: {}", MEND_SLIPS.map(|(name, _)| name).join(", "));
        return ExitCode::from(2);
    };
    let library = compare_library(&arguments);
    match library.and_then(|()| compare_programs(mend, play, &arguments)) {
        Ok(()) => ExitCode::SUCCESS,
        Err(message) => {
            println!("{message}");
            ExitCode::from(1)
        }
    }
}

fn arguments(words: &[String]) -> Option<Arguments> {
    let usual = Arguments { count: DEFAULT_COUNT, seed: DEFAULT_SEED, wrong: None };
    let slip = |name: &str| named(&MEND_SLIPS, name).map(Some);
    Arguments::read(words, usual, Some(MEND_SLIPS[0].1), slip)
}

// ---- The library ----

fn compare_library(arguments: &Arguments) -> Result<(), String> {
    let (slip, seed) = (arguments.wrong, arguments.seed);
    let mut random = Random::new(seed);
    let mut tally = Tally::default();
    for index in 0..arguments.count {
        let case = random_mend(&mut random);
        let size = random.pick(&[0, 1, 2, 3, 4, 7, 40, 1_999, 2_000, 2_001, 3_000]);
        let number = compare(slip, &case, size)
            .map_err(|what| format!("log {index} of seed {seed}: {what}"))?;
        tally.add(number);
    }
    tally.print(&format!("random damaged logs of seed {seed}"));
    tally.complete(&NUMBERS, 17 * arguments.count)?;

    let mut tally = Tally::default();
    let mut index = 0;
    every_damage(|case| {
        index += 1;
        tally.add(compare(slip, &case, if index % 3 == 0 { index % 9 } else { 2_000 })?);
        Ok::<(), String>(())
    })?;
    tally.print("logs damaged at every place");
    Ok(())
}

/// One log through the library and the model; its number.
fn compare(slip: Option<MendSlip>, case: &Mend, size: usize) -> Result<u64, String> {
    let log = &case.log;
    let (mut out, mut list) = (vec![BYTE; case.room], vec![NUMBER; size]);
    // The runs are a Vec's own, and the log is only read.
    let answer = unsafe {
        trabeculon_mend(
            log.as_ptr(),
            log.len(),
            out.as_mut_ptr(),
            out.len(),
            list.as_mut_ptr(),
            list.len(),
        )
    };
    let (mut right_out, mut right_list) = (vec![BYTE; case.room], vec![NUMBER; size]);
    let (told, dropped) = mend_into_with(slip, log, &mut right_out);
    let listed = dropped.len().min(size / 2);
    for (place, one) in right_list.chunks_exact_mut(2).zip(&dropped) {
        place.copy_from_slice(&[one.offset as u64, one.number.into()]);
    }
    let right = Answer {
        number: told.number.into(),
        bytes: told.bytes,
        listed: listed as u64,
        dropped: told.dropped,
    };
    if answer != right {
        return Err(differ(log, &format!("{answer:?}"), &format!("{right:?}")));
    }
    if out != right_out {
        return Err(differ(log, &cut_hex(&out), &cut_hex(&right_out)));
    }
    if list != right_list {
        return Err(differ(log, &format!("{list:?}"), &format!("{right_list:?}")));
    }
    Ok(answer.number)
}

// ---- The program ----

fn compare_programs(mend: &str, player: &str, arguments: &Arguments) -> Result<(), String> {
    let slip = arguments.wrong;
    let mut random = Random::new(arguments.seed);
    for _ in 0..PROGRAM_COUNT {
        compare_program(mend, player, slip, &random_damaged(&mut random))?;
    }
    let (mut index, mut compared) = (0, 0);
    every_damage(|case| {
        index += 1;
        if index % ONE_IN != 0 {
            return Ok(());
        }
        compared += 1;
        compare_program(mend, player, slip, &case.log)
    })?;
    let long = long_logs(&mut random);
    for log in &long {
        compare_program(mend, player, slip, log)?;
    }
    println!("compared the program on {} logs, {} of them long", PROGRAM_COUNT + compared, long.len());
    Ok(())
}

/// Logs up to the longest, one that is just as long, and one that is too long.
fn long_logs(random: &mut Random) -> Vec<Vec<u8>> {
    let mut logs = vec![];
    for length in [200_000, LONGEST - 1, LONGEST, LONGEST + 1, 3 * LONGEST] {
        let mut log = vec![1, 0, 5, 0, 100, 50, 50, 0];
        let mut stamp = 0u64;
        while log.len() < length {
            if random.once_in(3_000) {
                log.extend([9, random.byte() % 2, random.byte()]);
            }
            log.extend([2, 0, 10, 6, 0]);
            log.extend(stamp.to_be_bytes());
            stamp += random.below(50);
        }
        log.truncate(length);
        logs.push(log);
    }
    logs
}

fn compare_program(
    mend: &str,
    player: &str,
    slip: Option<MendSlip>,
    log: &[u8],
) -> Result<(), String> {
    let ran = run(mend, &[], log).map_err(|error| format!("{mend}: {error}"))?;
    let said = String::from_utf8_lossy(&ran.stderr).into_owned();
    let (right, lines) = expected(slip, log);
    if ran.stdout != right {
        return Err(differ(log, &cut_hex(&ran.stdout), &cut_hex(&right)));
    }
    let said: Vec<String> = said.lines().map(short).collect();
    if said != lines {
        return Err(differ(log, &said.join("\n"), &lines.join("\n")));
    }
    if right.is_empty() {
        return Ok(());
    }
    let played = run(player, &[], &ran.stdout).map_err(|error| format!("{player}: {error}"))?;
    let (printed, line) = (String::from_utf8_lossy(&played.stdout).into_owned(), play(&right));
    match printed == line {
        true => Ok(()),
        false => Err(differ(log, &printed, &line)),
    }
}

/// What the program writes, and the beginnings of the lines that it says.
fn expected(slip: Option<MendSlip>, log: &[u8]) -> (Vec<u8>, Vec<String>) {
    if log.len() > LONGEST {
        return (vec![], vec!["mend: refused 9".into()]);
    }
    match mend_with(slip, log) {
        Err(Dropped { number, .. }) => (vec![], vec![format!("mend: refused {number}")]),
        Ok(mended) => {
            let all = mended.dropped.len();
            let one = |d: &Dropped| format!("mend: dropped {} at {}", d.number, d.offset);
            let listed = mended.dropped.iter().take(MOST_LISTED).map(one);
            let lines = listed.chain([format!("mend: {all} dropped in all")]).collect();
            (mended.log, lines)
        }
    }
}

/// A line of the program up to what the number means.
fn short(line: &str) -> String {
    let end = line.find(": ").map_or(0, |place| place + 2);
    let stop = line[end..].find([',', ':']).map_or(line.len(), |place| end + place);
    line[..stop].to_string()
}

fn differ(log: &[u8], found: &str, right: &str) -> String {
    let cut = |text: &str| text.chars().take(1_000).collect::<String>();
    format!(
        "the answers differ\nlog     {}\nmender  {}\nmodel   {}",
        cut_hex(log),
        cut(found),
        cut(right)
    )
}
