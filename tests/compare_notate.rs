//! Compares the program that notates logs with the model, and with `transcribe`:
//!
//!   compare_notate NOTATE TRANSCRIBE [COUNT [SEED]] [--wrong-rule [NAME]]
//!
//! Gives NOTATE COUNT random logs, accepted, refused and damaged, and long ones. What it
//! writes must be the lines that are made here of the records before the one that the model
//! refuses, and the line of that one; standard error must name it. TRANSCRIBE must make
//! those records' bytes of it again. Exit 0: all equal. Exit 1: a mismatch, printed. Exit 2:
//! wrong arguments.

use std::process::ExitCode;

use trabeculon_model::arguments::{self, named};
use trabeculon_model::damage::random_damaged;
use trabeculon_model::generate::{random_case, right_settings, typed_log};
use trabeculon_model::log::read_log;
use trabeculon_model::program::{cut_hex, run};
use trabeculon_model::random::Random;
use trabeculon_model::tally::Tally;

const DEFAULT_COUNT: u64 = 2_000;
const DEFAULT_SEED: u64 = 20_010_401;
/// The longest log that is notated; its text can be transcribed.
const LONGEST: usize = 1_048_576;
const NUMBERS: [u32; 9] = [0, 1, 3, 4, 5, 6, 7, 11, 12];

/// A wrong rule for the lines made here, so that the comparison must find something.
#[derive(Clone, Copy, PartialEq, Eq)]
enum Slip {
    UpAsDown,
    ThumbsExchanged,
    SmallLetters,
    ShortCodePoint,
    RefusedWritten,
    OffsetBehind,
    Meanings,
}

const SLIPS: [(&str, Slip); 7] = [
    ("up-as-down", Slip::UpAsDown),
    ("thumbs-exchanged", Slip::ThumbsExchanged),
    ("small-letters", Slip::SmallLetters),
    ("short-code-point", Slip::ShortCodePoint),
    ("refused-written", Slip::RefusedWritten),
    ("offset-behind", Slip::OffsetBehind),
    ("meanings-exchanged", Slip::Meanings),
];

type Arguments = arguments::Arguments<Option<Slip>>;

fn main() -> ExitCode {
    let words: Vec<String> = std::env::args().skip(1).collect();
    let read = match &words[..] {
        [notate, transcribe, rest @ ..] => arguments(rest).map(|read| (notate, transcribe, read)),
        _ => None,
    };
    let Some((notate, transcribe, arguments)) = read else {
        eprintln!("usage: compare_notate NOTATE TRANSCRIBE [COUNT [SEED]] [--wrong-rule [NAME]]");
        eprintln!("names: {}", SLIPS.map(|(name, _)| name).join(", "));
        return ExitCode::from(2);
    };
    match compare_all(notate, transcribe, &arguments) {
        Ok(()) => ExitCode::SUCCESS,
        Err(message) => {
            println!("{message}");
            ExitCode::from(1)
        }
    }
}

fn arguments(words: &[String]) -> Option<Arguments> {
    let usual = Arguments { count: DEFAULT_COUNT, seed: DEFAULT_SEED, wrong: None };
    let slip = |name: &str| named(&SLIPS, name).map(Some);
    Arguments::read(words, usual, Some(SLIPS[0].1), slip)
}

fn compare_all(notate: &str, transcribe: &str, arguments: &Arguments) -> Result<(), String> {
    let (slip, seed) = (arguments.wrong, arguments.seed);
    let mut random = Random::new(seed);
    let mut tally = Tally::default();
    for index in 0..arguments.count {
        let log = match index % 4 {
            0 => random_damaged(&mut random),
            _ => random_case(&mut random).log,
        };
        let number = compare(notate, transcribe, slip, &log)
            .map_err(|what| format!("log {index} of seed {seed}: {what}"))?;
        tally.add(number);
    }
    tally.print(&format!("random logs of seed {seed}"));
    tally.complete(&NUMBERS, 10 * arguments.count)?;
    let long = long_logs(&mut random);
    for log in &long {
        compare(notate, transcribe, slip, log)?;
    }
    println!("and {} long ones", long.len());
    Ok(())
}

/// Logs up to the longest, whole and cut, one that is just as long, and one that is too long.
fn long_logs(random: &mut Random) -> Vec<Vec<u8>> {
    let lengths = [100_000, 150_000, LONGEST - 1, LONGEST, LONGEST + 1];
    lengths
        .map(|length| {
            let raw = right_settings(random);
            let mut log = typed_log(random, raw, length + 13);
            log.truncate(length);
            log
        })
        .to_vec()
}

/// One log through the programs; its number.
fn compare(
    notate: &str,
    transcribe: &str,
    slip: Option<Slip>,
    log: &[u8],
) -> Result<u32, String> {
    let ran = run(notate, &[], log).map_err(|error| format!("{notate}: {error}"))?;
    let said = String::from_utf8_lossy(&ran.stderr).into_owned();
    if log.len() > LONGEST {
        let begins = said.starts_with("notate: the log is longer than 1048576 bytes");
        return match ran.stdout.is_empty() && begins {
            true => Ok(9),
            false => Err(format!("a log of {} bytes: {said}", log.len())),
        };
    }
    // A step gives at most two words and takes more than ten bytes.
    let answer = read_log(log, &mut vec![0; log.len() / 5]);
    let offset = answer.offset as usize;
    let right = text(slip, log, answer.number, offset);
    let written = String::from_utf8_lossy(&ran.stdout).into_owned();
    if written != right {
        return Err(differ(log, &written, &right));
    }
    let names = match answer.number {
        0 => said.is_empty(),
        _ => said.starts_with(&format!("notate: record at byte {offset}: ")),
    };
    if !names || said.lines().count() > 1 {
        return Err(differ(log, &said, &format!("refused {} at {offset}", answer.number)));
    }
    let back = run(transcribe, &[], &ran.stdout).map_err(|e| format!("{transcribe}: {e}"))?;
    if back.stdout != log[..offset] {
        return Err(differ(log, &cut_hex(&back.stdout), &cut_hex(&log[..offset])));
    }
    Ok(answer.number)
}

// ---- The lines ----

/// What is written of a log.
fn text(slip: Option<Slip>, log: &[u8], number: u32, offset: usize) -> String {
    let mut rest = &log[..offset];
    let mut lines = String::new();
    while !rest.is_empty() {
        let (record, behind) = rest.split_at(stated(rest));
        lines += &line(slip, record);
        rest = behind;
    }
    let refused = &log[offset..];
    if slip == Some(Slip::RefusedWritten) && refused.len() == 13 && number != 0 {
        lines += &line(slip, refused);
    }
    if number != 0 {
        let offset = offset + usize::from(slip == Some(Slip::OffsetBehind));
        lines += &format!("# refused {number} at {offset}: {}\n", meaning(slip, number));
    }
    lines
}

/// The length of the record at the front, which is whole.
fn stated(bytes: &[u8]) -> usize {
    3 + usize::from(u16::from_be_bytes([bytes[1], bytes[2]]))
}

fn line(slip: Option<Slip>, record: &[u8]) -> String {
    let two = |at: usize| u16::from_be_bytes([record[at], record[at + 1]]);
    match record[0] {
        1 => format!("T={} J={} L={} solo={}\n", two(3), record[5], record[6], record[7]),
        3 => {
            let pairs = record[6..].chunks_exact(4).map(|pair| pair_text(slip, pair));
            format!("T_s={} N={}{}\n", two(3), record[5], pairs.collect::<String>())
        }
        _ => {
            let mut stamp = [0; 8];
            stamp.copy_from_slice(&record[5..13]);
            let stamp = u64::from_be_bytes(stamp);
            format!("{}{stamp}\n", stroke(slip, record[3], record[4]))
        }
    }
}

fn pair_text(slip: Option<Slip>, pair: &[u8]) -> String {
    let character = u16::from_be_bytes([pair[2], pair[3]]);
    let character = match slip {
        Some(Slip::SmallLetters) => format!("{character:04x}"),
        Some(Slip::ShortCodePoint) => format!("{character:X}"),
        _ => format!("{character:04X}"),
    };
    format!(" {}+{}=U+{character}", pair[0], pair[1])
}

/// What stands before a stamp.
fn stroke(slip: Option<Slip>, kind: u8, key: u8) -> String {
    let left = (key == 0) != (slip == Some(Slip::ThumbsExchanged));
    let thumb = if left { "L" } else { "R" };
    let up = if slip == Some(Slip::UpAsDown) { "" } else { " up" };
    match kind {
        1 => format!("{key}@"),
        2 => format!("{key}{up}@"),
        3 => format!("{thumb}@"),
        4 => format!("{thumb}{up}@"),
        5 => "fn@".to_string(),
        _ => "tick ".to_string(),
    }
}

fn meaning(slip: Option<Slip>, number: u32) -> &'static str {
    let number = match (slip, number) {
        (Some(Slip::Meanings), 4) => 5,
        (Some(Slip::Meanings), 5) => 4,
        _ => number,
    };
    match number {
        1 => "settings out of range",
        3 => "kind or key not allowed",
        4 => "stamp above the largest",
        5 => "stamp before the last accepted",
        6 => "log empty, or header or body cut",
        7 => "tag unknown, length wrong, or record out of place",
        11 => "more than six keys held",
        12 => "list of pairs not allowed",
        _ => "?",
    }
}

fn differ(log: &[u8], found: &str, right: &str) -> String {
    let cut = |text: &str| text.chars().take(1_000).collect::<String>();
    format!("log     {}\nfound   {}\nright   {}", cut_hex(log), cut(found), cut(right))
}
