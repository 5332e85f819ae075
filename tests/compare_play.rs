//! Compares what the program prints with what the model prints:
//!
//!   compare_play PROGRAM [COUNT [SEED]]
//!
//! Gives it on standard input, in pieces of any size: logs around its buffer's length
//! and of some MiB, whole, cut and refused; COUNT random ones; and one of 64 MiB, in
//! which the program must need little memory. Exit 0: all equal. Exit 1: a mismatch,
//! printed. Exit 2: wrong arguments.

use std::process::ExitCode;

use trabeculon_model::generate::{long_log, random_case, right_settings, typed_log};
use trabeculon_model::log::{event_record, log_of, play, settings_record, RawSettings, BUFFER};
use trabeculon_model::model::{Event, LARGEST_STAMP};
use trabeculon_model::program::{cut_hex, feed, in_turns, read_fails, Fed};
use trabeculon_model::random::Random;
use trabeculon_model::readers::{any_cut, random_cut};

const DEFAULT_COUNT: u64 = 500;
const DEFAULT_SEED: u64 = 20_010_401;
const MIB: usize = 1 << 20;
/// The log in which memory is watched, and how much of it the program may need.
const LONGEST: usize = 64 * MIB;
const MOST_KIB: u64 = 4 * 1_024;
/// So many bytes behind a refused record are not all taken.
const LEFT_OVER: usize = 8 * MIB;
const SOLO: RawSettings = (100, 50, 50, 1);

fn main() -> ExitCode {
    let words: Vec<String> = std::env::args().skip(1).collect();
    let number = |place: usize, usual| words.get(place).map_or(Ok(usual), |word| word.parse());
    let (Some(program), Ok(count), Ok(seed)) =
        (words.first(), number(1, DEFAULT_COUNT), number(2, DEFAULT_SEED))
    else {
        eprintln!("usage: compare_play PROGRAM [COUNT [SEED]]");
        return ExitCode::from(2);
    };
    match compare_all(program, count, seed) {
        Ok(()) => ExitCode::SUCCESS,
        Err(message) => {
            println!("{message}");
            ExitCode::from(1)
        }
    }
}

fn compare_all(program: &str, count: u64, seed: u64) -> Result<(), String> {
    let mut random = Random::new(seed);
    let mut logs = logs_around_the_buffer(&mut random);
    logs.extend(long_logs(&mut random));
    logs.extend(far_refusals(&mut random));
    for log in &logs {
        let pieces = any_cut(&mut random, log.len());
        compare(program, log, &pieces)?;
        compare(program, log, &[log.len()])?;
    }
    for _ in 0..count {
        let log = random_case(&mut random).log;
        let pieces = random_cut(&mut random, log.len());
        compare(program, &log, &pieces)?;
    }
    println!("compared the program's output on {} long logs", logs.len());
    println!("compared the program's output on {count} random logs of seed {seed}");
    stops_at_a_refusal(program, &mut random)?;
    prints_as_it_comes(program, &mut random)?;
    says_that_a_read_failed(program, &mut random)?;
    needs_little_memory(program, &mut random)
}

// ---- Logs ----

/// Lengths around the end of the program's buffer, and of several of them filled one
/// after the other. The seventh ends where a record does.
fn lengths() -> impl Iterator<Item = usize> {
    let beside = |buffers: usize| [BUFFER * buffers - 1, BUFFER * buffers, BUFFER * buffers + 1];
    [1, 2, 3, 7].into_iter().flat_map(beside).chain([3 * BUFFER + 5])
}

/// Of each length a log of events to its end, the last one mostly cut, and one with
/// zeros behind its last event, where a record is refused. And an empty one.
fn logs_around_the_buffer(random: &mut Random) -> Vec<Vec<u8>> {
    let typed = typed_log(random, SOLO, 8 * BUFFER);
    let mut logs = vec![vec![]];
    for length in lengths() {
        logs.push(typed[..length].to_vec());
        let mut ended = typed_log(random, SOLO, length.min(BUFFER));
        ended.resize(length, 0);
        logs.push(ended);
    }
    logs
}

/// Typed logs of some MiB; and one of which every event gives a mark, and then every
/// second one a character, so that its line is as long as a line can be. (A key goes up
/// before it is pressed again, and gives nothing, since the next one is down by then.)
fn long_logs(random: &mut Random) -> Vec<Vec<u8>> {
    let mut logs: Vec<_> = [MIB, 2 * MIB, 3 * MIB + 5]
        .map(|length| {
            let settings = right_settings(random);
            typed_log(random, settings, length)
        })
        .into();
    let mark = |stamp: u64| Event { kind: 3, key: stamp as u8 % 2, stamp };
    let character = |stamp: u64| {
        let [down, up] = [stamp, stamp + 30].map(|turn| (turn % 31) as u8);
        [Event { kind: 1, key: down, stamp }, Event { kind: 2, key: up, stamp }]
    };
    let dense = (0..20_000).map(mark).chain((20_000..40_000).flat_map(character));
    logs.push(log_of(SOLO, &dense.collect::<Vec<_>>()));
    logs
}

/// Each refusal of a record, far behind in a log, with events and zeros after it.
fn far_refusals(random: &mut Random) -> Vec<Vec<u8>> {
    let typed = typed_log(random, SOLO, MIB);
    let event = |kind, key, stamp| event_record(Event { kind, key, stamp });
    // Of so many keys one is a seventh, whatever the typist still holds.
    let many = (0..8).flat_map(|key| event(1, key, LARGEST_STAMP)).collect();
    // The body of the last one but one ends in the next fill of the buffer.
    let longest = [vec![9, 255, 255], vec![2; 65_535]].concat();
    let refused = [
        many,
        event(1, 31, LARGEST_STAMP),
        event(1, 21, LARGEST_STAMP + 1),
        event(1, 21, 0),
        settings_record(100, 50, 50, 0),
        longest.clone(),
        longest[..60_000].to_vec(),
        vec![2, 0, 10],
    ];
    let rest = [&typed[8..], &[0; 100]].concat();
    let followed = refused.iter().map(|record| [&typed[..], record, &rest].concat());
    let last = refused.iter().map(|record| [&typed[..], record].concat());
    followed.chain(last).collect()
}

// ---- Comparing ----

fn compare(program: &str, log: &[u8], pieces: &[usize]) -> Result<Fed, String> {
    let fed = ran(program, feed(program, &[], log, pieces))?;
    let right = play(log);
    let (printed, said) = (&fed.output.stdout, lossy(&fed.output.stderr));
    if printed == right.as_bytes() && in_words(&right, &said) {
        return Ok(fed);
    }
    let same = printed.iter().zip(right.as_bytes()).take_while(|(a, b)| a == b).count();
    Err(format!(
        "the first {same} bytes printed are the same\nlog     {}\npieces  {}\n\
         program {:?} {said:?}\nmodel   {:?}",
        cut_hex(log),
        shown(&format!("{pieces:?}")),
        shown(&lossy(&printed[same..])),
        shown(&lossy(&right.as_bytes()[same..])),
    ))
}

fn ran<T>(program: &str, result: std::io::Result<T>) -> Result<T, String> {
    result.map_err(|error| format!("{program}: {error}"))
}

/// One line on standard error for a refusal, and none for a log that plays. What it
/// says is looked at by tests/messages.
fn in_words(printed: &str, said: &str) -> bool {
    let refused = printed.lines().last().is_some_and(|line| line.starts_with("refused "));
    said.lines().count() == usize::from(refused) && said.lines().all(|l| l.starts_with("play: "))
}

fn lossy(bytes: &[u8]) -> String {
    String::from_utf8_lossy(bytes).into_owned()
}

/// No more of a text than its beginning.
fn shown(text: &str) -> String {
    text.chars().take(1_000).collect()
}

// ---- A log that is much longer than the buffer ----

/// What comes behind a refused record is not read to its end.
fn stops_at_a_refusal(program: &str, random: &mut Random) -> Result<(), String> {
    let typed = typed_log(random, SOLO, LEFT_OVER);
    for (place, value) in [(5, 0), (8, 9), (11, 7)] {
        let mut log = typed.clone();
        log[place] = value;
        let pieces = any_cut(random, log.len());
        if compare(program, &log, &pieces)?.took_all {
            return Err(format!("all of {LEFT_OVER} bytes were read after a refusal"));
        }
    }
    println!("a refusal ends the program before the rest of {LEFT_OVER} bytes is read");
    Ok(())
}

/// The line of a log that has not ended.
fn line_of(log: &[u8]) -> String {
    play(log).lines().next().unwrap_or_default().to_string()
}

/// What a part of a log brings is printed before the next part comes.
fn prints_as_it_comes(program: &str, random: &mut Random) -> Result<(), String> {
    let log = typed_log(random, SOLO, 3 * BUFFER);
    let parts: Vec<_> = log.chunks(BUFFER / 2 + 1).collect();
    let lines: Vec<_> = (0..=parts.len()).map(|count| line_of(&parts[..count].concat())).collect();
    let more: Vec<_> = lines.windows(2).map(|two| two[1].len() - two[0].len()).collect();
    let printed = ran(program, in_turns(program, &parts, &more))?;
    if lossy(&printed) != lines[parts.len()] {
        return Err(format!("printed as it comes: {}", shown(&lossy(&printed))));
    }
    println!("the line is printed as a log of {} parts comes", parts.len());
    Ok(())
}

/// Standard input that has no more bytes and no end. What was printed stays, and nothing
/// comes below it.
fn says_that_a_read_failed(program: &str, random: &mut Random) -> Result<(), String> {
    let log = typed_log(random, SOLO, BUFFER / 2);
    let output = ran(program, read_fails(program, &log))?;
    let (printed, said) = (lossy(&output.stdout), lossy(&output.stderr));
    let reason = said.strip_prefix("play: standard input: ").unwrap_or_default();
    if printed != line_of(&log) || reason.lines().count() != 1 {
        return Err(format!("a read that fails: {} {said:?}", shown(&printed)));
    }
    print!("a read that fails is said: {said}");
    Ok(())
}

/// The program has a part of a log at a time.
fn needs_little_memory(program: &str, random: &mut Random) -> Result<(), String> {
    let log: Vec<u8> = long_log(LONGEST).flatten().collect();
    let pieces = any_cut(random, log.len());
    let peak = compare(program, &log, &pieces)?.peak.ok_or("no peak of memory is known")?;
    println!("compared the program's output on {} bytes; it needed {peak} KiB", log.len());
    match peak <= MOST_KIB {
        true => Ok(()),
        false => Err(format!("{peak} KiB are more than {MOST_KIB}")),
    }
}
