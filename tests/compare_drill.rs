//! Compares what the program `drill` writes with what the model writes, and gives
//! its logs to `play`:
//!
//!   compare_drill DRILL PLAY [COUNT [SEED]]
//!
//! Tries its arguments, lines that it must refuse, and COUNT random lines. Exit 0:
//! all equal. Exit 1: a mismatch, printed. Exit 2: wrong arguments.

use std::process::{ExitCode, Output};

use trabeculon_model::drill::{drill, USUAL_SETTINGS};
use trabeculon_model::lines::{doubled, random_line, random_settings};
use trabeculon_model::log::RawSettings;
use trabeculon_model::program::{hex, run};
use trabeculon_model::random::Random;

const DEFAULT_COUNT: u64 = 200;
const DEFAULT_SEED: u64 = 20_010_401;

/// The two programs.
struct Programs<'a> {
    drill: &'a str,
    play: &'a str,
}

fn main() -> ExitCode {
    let words: Vec<String> = std::env::args().skip(1).collect();
    let number = |place: usize, usual| words.get(place).map_or(Ok(usual), |word| word.parse());
    let (Some(drill), Some(play), Ok(count), Ok(seed)) =
        (words.first(), words.get(1), number(2, DEFAULT_COUNT), number(3, DEFAULT_SEED))
    else {
        eprintln!("usage: compare_drill DRILL PLAY [COUNT [SEED]]");
        return ExitCode::from(2);
    };
    match compare_all(&Programs { drill, play }, count, seed) {
        Ok(()) => {
            println!("compared the program's output on {count} random lines of seed {seed}");
            ExitCode::SUCCESS
        }
        Err(message) => {
            println!("{message}");
            ExitCode::from(1)
        }
    }
}

fn compare_all(programs: &Programs, count: u64, seed: u64) -> Result<(), String> {
    check_usage(programs)?;
    check_fixed(programs)?;
    check_damaged(programs)?;
    let mut random = Random::new(seed);
    for _ in 0..count {
        let settings = random_settings(&mut random);
        let text = text(&random_line(&mut random));
        // A line end of the line's own needs one behind it.
        let end = if text.ends_with('\n') || random.once_in(2) { "\n" } else { "" };
        compare(programs, Some(settings), &format!("{text}{end}"))?;
    }
    Ok(())
}

/// A line as text. Surrogates have no UTF-8 and carriage returns may be taken for a
/// part of a line end, so an `x` stands for these.
fn text(line: &[u16]) -> String {
    let text = String::from_utf16_lossy(line).replace('\r', "x");
    text.chars().map(|c| if u32::from(c) < 0x10000 { c } else { 'x' }).collect()
}

/// Lines and settings on the boundaries of what is accepted.
fn check_fixed(programs: &Programs) -> Result<(), String> {
    let all = text(&doubled());
    for line in ["", "\n", "さいがい", "さいがい\n", &all, "x\n", "さいがいx\n", "\u{3000}"]
    {
        compare(programs, None, line)?;
    }
    let right = [(50, 1, 99, 1), (1_000, 99, 1, 0), (1_000, 1, 99, 1), (100, 50, 50, 1)];
    let slower = [(200, 50, 50, 0), (201, 50, 50, 0), (256, 50, 50, 1), (999, 50, 50, 1)];
    let wrong = [(49, 50, 50, 0), (1_001, 50, 50, 0), (100, 0, 50, 0), (100, 100, 50, 0)];
    let more = [(100, 50, 0, 0), (100, 50, 100, 0), (100, 50, 50, 2), (0, 0, 0, 255)];
    let far = [(1_074, 50, 50, 0), (65_535, 50, 50, 0)];
    let accepted = right.into_iter().chain(slower);
    for settings in accepted.chain(wrong).chain(more).chain(far) {
        compare(programs, Some(settings), &all)?;
        compare(programs, Some(settings), "さx\n")?;
    }
    Ok(())
}

fn arguments(settings: Option<RawSettings>) -> Vec<String> {
    let words = settings.map(|(t, j, l, solo)| format!("{t} {j} {l} {solo}")).unwrap_or_default();
    words.split_whitespace().map(String::from).collect()
}

fn started(program: &str, arguments: &[String], input: &[u8]) -> Result<Output, String> {
    run(program, arguments, input).map_err(|error| format!("{program}: {error}"))
}

/// One line: the log, or the refusal and no log; `play` gives the line back.
fn compare(programs: &Programs, settings: Option<RawSettings>, input: &str) -> Result<(), String> {
    let got = started(programs.drill, &arguments(settings), input.as_bytes())?;
    let model = drill(settings.unwrap_or(USUAL_SETTINGS), input.as_bytes());
    let (log, refusal) = match model.ok_or("the model leaves this line open")? {
        Ok(log) => (log, String::new()),
        Err(refusal) => (vec![], refusal),
    };
    if got.stdout != log || !says(&got.stderr, &refusal) {
        return Err(format!(
            "drill {settings:?} of {input:?}\nprogram {} {:?}\nmodel   {} {refusal:?}",
            hex(&got.stdout),
            String::from_utf8_lossy(&got.stderr),
            hex(&log),
        ));
    }
    if refusal.is_empty() {
        play_back(programs, &log, input.strip_suffix('\n').unwrap_or(input))?;
    }
    Ok(())
}

/// The refusal as a line of its own, and one line more that says it in words, which is
/// looked at by tests/messages. Nothing where there is no refusal.
fn says(error: &[u8], refusal: &str) -> bool {
    let error = String::from_utf8_lossy(error);
    let words = error.strip_prefix(refusal).map(|rest| rest.lines().collect::<Vec<_>>());
    match (refusal, words.as_deref()) {
        ("", Some([])) => true,
        (_, Some([words])) => !refusal.is_empty() && words.starts_with("drill: "),
        _ => false,
    }
}

fn play_back(programs: &Programs, log: &[u8], line: &str) -> Result<(), String> {
    let played = started(programs.play, &[], log)?.stdout;
    if played == format!("{line}\nwaiting 0\n").as_bytes() {
        return Ok(());
    }
    Err(format!("drill and play of {line:?} print {:?}", String::from_utf8_lossy(&played)))
}

/// Input that the model leaves open: damaged UTF-8, at the damaged byte and before
/// the settings are looked at, and a code point that is no word, which is on no face.
fn check_damaged(programs: &Programs) -> Result<(), String> {
    let refused: [(&[u8], &str); 9] = [
        (b"\xff", "not UTF-8 at 0"),
        (b"\x81", "not UTF-8 at 0"),
        (b"\xe3\x81", "not UTF-8 at 0"),
        (b"\xe3\x81\n", "not UTF-8 at 0"),
        (b"\xc1\x81", "not UTF-8 at 0"),
        (b"\xed\xa0\x80", "not UTF-8 at 0"),
        (b"x\xe3\x81\x95\xe3\x81\n", "not UTF-8 at 4"),
        ("さ\u{1f600}".as_bytes(), "refused 10 at 1"),
        ("\u{1f600}x".as_bytes(), "refused 10 at 0"),
    ];
    for (input, right) in refused {
        let got = started(programs.drill, &[], input)?;
        let error = String::from_utf8_lossy(&got.stderr).into_owned();
        let line = format!("{right}\n");
        let right = error == line || line.starts_with("refused") && says(&got.stderr, &line);
        if !got.stdout.is_empty() || !right {
            return Err(format!("drill of {}: {} {error:?}", hex(input), hex(&got.stdout)));
        }
    }
    Ok(())
}

/// How to use it: printed for `--help` and for arguments that are not four numbers, a file's
/// name or both. What it says, and where, is looked at by tests/messages.
fn check_usage(programs: &Programs) -> Result<(), String> {
    for words in [
        "--help",
        "-100",
        "100 50",
        "100 50 50",
        "100 50 50 x",
        "a b c d",
        "-1 50 50 0",
        "100 50 50 0 -0",
        "100 50 50 x line",
        "100 50 50 0 0 0",
    ] {
        let words: Vec<String> = words.split_whitespace().map(String::from).collect();
        let got = started(programs.drill, &words, "さ\n".as_bytes())?;
        let printed = [got.stdout, got.stderr].concat();
        if !String::from_utf8_lossy(&printed).contains("T J L SOLO") {
            return Err(format!("drill {words:?} doesn't say how to use it: {}", hex(&printed)));
        }
    }
    Ok(())
}
