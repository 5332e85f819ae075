//! `model check` tries the model against every worked example of the papers, and
//! demand 3, the moved clock, lists of pairs, rows of keyboards, mended logs, the round trip
//! of drills and the distance on random sequences, lines and states. `model play`, `model console` and
//! `model drill` print what the program of that name prints for its standard input, by the
//! model. `model long` writes a typed log of so many MiB and keeps little of it in memory.

mod check_drill;
mod check_held;
mod check_live;
mod check_mend;
mod check_moved;
mod check_opinion;
mod check_pairs;
mod check_pieces;
mod check_row;
mod worked;

use std::collections::BTreeSet;
use std::io::{BufWriter, Read, Write};
use std::process::ExitCode;

use trabeculon_model::console::console;
use trabeculon_model::demand3;
use trabeculon_model::drill::{drill, USUAL_SETTINGS};
use trabeculon_model::generate;
use trabeculon_model::lists::right_lent;
use trabeculon_model::log::{
    log_of, play, read_log, read_log_bytes, settings_record, Answer, RawSettings, BUFFER,
};
use trabeculon_model::model::{
    character, sign, step, step_with, Event, Face, Item, Machine, Resting, Settings, Thumb, KEYS,
    LARGEST_STAMP, LEAST_T, MOST_T,
};
use trabeculon_model::notation::{events, sendings_text, sign_text};
use trabeculon_model::opinion::opined;
use trabeculon_model::pairs::{Lent, NO_PAIRS};
use trabeculon_model::random::Random;
use worked::{Example, EXAMPLES};

fn main() -> ExitCode {
    let arguments: Vec<String> = std::env::args().skip(1).collect();
    let arguments: Vec<&str> = arguments.iter().map(String::as_str).collect();
    let done = match arguments[..] {
        ["check"] => check_all(),
        ["play"] => play_input(),
        ["console"] => console_input(),
        ["opinion"] => opinion_input(),
        ["drill"] => drill_input(USUAL_SETTINGS),
        ["drill", t, j, l, solo] => {
            raw_settings([t, j, l, solo]).ok_or(usage()).and_then(drill_input)
        }
        ["long", mib] => mib.parse().map_err(|_| usage()).and_then(write_long),
        _ => Err(usage()),
    };
    match done {
        Ok(()) => ExitCode::SUCCESS,
        Err(message) => {
            eprintln!("{message}");
            ExitCode::FAILURE
        }
    }
}

fn usage() -> String {
    "usage: model check | model play < LOG | model drill [T J L SOLO] < LINE | model long MIB > LOG\n\
     model console < LOG | model opinion < LOG"
        .to_string()
}

fn raw_settings([t, j, l, solo]: [&str; 4]) -> Option<RawSettings> {
    Some((t.parse().ok()?, j.parse().ok()?, l.parse().ok()?, solo.parse().ok()?))
}

fn play_input() -> Result<(), String> {
    write_output(play(&read_input()?).as_bytes())
}

fn opinion_input() -> Result<(), String> {
    write_output(opined(&read_input()?).as_bytes())
}

fn console_input() -> Result<(), String> {
    write_output(console(&read_input()?).as_bytes())
}

fn drill_input(settings: RawSettings) -> Result<(), String> {
    match drill(settings, &read_input()?) {
        Some(Ok(log)) => write_output(&log),
        Some(Err(refusal)) => Err(refusal.trim_end().to_string()),
        None => Err("damaged UTF-8 or a code point above 65,535".to_string()),
    }
}

/// No stamp of so much typing is above the largest.
const MOST_MIB: u64 = 100_000;

/// A valid log of at most so many MiB.
fn write_long(mib: u64) -> Result<(), String> {
    if !(1..=MOST_MIB).contains(&mib) {
        return Err(format!("a log has 1 to {MOST_MIB} MiB"));
    }
    let mut output = BufWriter::with_capacity(BUFFER, std::io::stdout().lock());
    let mut records = generate::long_log((mib << 20) as usize);
    let written = records.try_for_each(|record| output.write_all(&record));
    written.and_then(|()| output.flush()).map_err(|e| e.to_string())
}

fn read_input() -> Result<Vec<u8>, String> {
    let mut input = vec![];
    std::io::stdin().read_to_end(&mut input).map_err(|e| e.to_string())?;
    Ok(input)
}

fn write_output(bytes: &[u8]) -> Result<(), String> {
    std::io::stdout().write_all(bytes).map_err(|e| e.to_string())
}

fn check_all() -> Result<(), String> {
    check_numbers()?;
    check_layout()?;
    check_examples()?;
    check_refusals()?;
    check_logs()?;
    check_program()?;
    check_drill::check_all()?;
    check_live::check_all()?;
    check_held::check_all()?;
    check_moved::check_all()?;
    check_pairs::check_all()?;
    check_pieces::check_all()?;
    check_row::check_all()?;
    check_opinion::check_all()?;
    check_mend::check_all()?;
    check_demand3()?;
    check_rules_reached()
}

fn expect<T: PartialEq + std::fmt::Debug>(what: &str, got: T, right: T) -> Result<(), String> {
    if got == right {
        Ok(())
    } else {
        Err(format!("{what}: got {got:?}, right is {right:?}"))
    }
}

fn settings(t: u64, j: u64, l: u64, solo: u64) -> Result<Settings, String> {
    Settings::new(t, j, l, solo).ok_or(format!("settings {t} {j} {l} {solo} refused"))
}

fn keystrokes(text: &str) -> Result<Vec<Event>, String> {
    events(text).ok_or(format!("can't read {text}"))
}

// ---- Numbers and layout ----

fn check_numbers() -> Result<(), String> {
    let s = settings(100, 60, 50, 0)?;
    expect("A at T=100, J=60", s.a(), 67)?;
    expect("FJ(30) at J=60", s.fj(30), 45)?;
    expect("FJ(10) at J=70", settings(100, 70, 50, 0)?.fj(10), 24)?;
    expect("W at T=100, J=L=50", settings(100, 50, 50, 0)?.longest_wait(), 200)?;
    let s = settings(200, 99, 99, 0)?;
    expect("A and B at T=200, J=L=99", (s.a(), s.b()), (3, 3))?;
    expect("D at T=200, J=L=99", s.fl(s.b()), 297)?;
    expect("W at T=200, J=L=99", s.longest_wait(), 29_700)?;
    expect("W at T=1000, J=L=50", settings(1_000, 50, 50, 0)?.longest_wait(), 2_000)?;
    expect("A at T=1000, J=1", settings(1_000, 1, 50, 0)?.a(), 99_000)?;
    let (longest, at) = longest_wait_of_all()?;
    println!("numbers: A, B, FJ, FL, W as the papers give them; the longest W {longest} at {at}");
    Ok(())
}

/// The longest W over all settings, and where it is first reached.
fn longest_wait_of_all() -> Result<(u64, String), String> {
    let mut longest = (0, String::new());
    for t in LEAST_T..=MOST_T {
        for (j, l) in (1..=99).flat_map(|j| (1..=99).map(move |l| (j, l))) {
            let w = settings(t, j, l, 0)?.longest_wait();
            if w > longest.0 {
                longest = (w, format!("T={t}, J={j}, L={l}"));
            }
        }
    }
    // At J=1 X is A, 99,000, and FJ(X) is no more than 1,000.
    expect("the longest W", longest.0, 198_000)?;
    Ok(longest)
}

fn check_layout() -> Result<(), String> {
    let faces = [Face::Plain, Face::Under(Thumb::Left), Face::Under(Thumb::Right)];
    let all = (0..KEYS).flat_map(|key| faces.map(|face| character(key, face)));
    let characters: Vec<char> = all.clone().flatten().collect();
    let different: BTreeSet<char> = characters.iter().copied().collect();
    expect("characters", characters.len(), 86)?;
    expect("different characters", different.len(), 86)?;
    expect("empty faces", all.filter(Option::is_none).count(), 7)?;
    expect("beyond the last key", character(KEYS, Face::Plain), None)?;
    let of = |key| faces.map(|face| character(key, face));
    expect("key 21", of(21), [Some('か'), Some('え'), Some('が')])?;
    expect("key 24", of(24), [Some('さ'), Some('れ'), Some('ざ')])?;
    expect("key 0", of(0), [Some('\u{ff0e}'), Some('ぅ'), None])?;
    expect("key 15", of(15), [Some('は'), Some('ば'), Some('み')])?;
    expect("key 16", of(16), [Some('と'), Some('ど'), Some('お')])?;
    expect("key 29", of(29), [Some('\u{ff0c}'), Some('ぴ'), Some('ぇ')])?;
    expect("key 30", of(30), [Some('、'), None, None])?;
    println!("layout: 86 characters, none twice, 7 empty faces");
    Ok(())
}

// ---- Keystrokes to try ----

fn check_examples() -> Result<(), String> {
    for example in &EXAMPLES {
        check_example(example).map_err(|what| format!("{}: {what}", example.name))?;
    }
    println!("examples: {} runs, P1 to P11, 4/12's, 7/12's and 9/12's among them", EXAMPLES.len());
    Ok(())
}

fn check_example(example: &Example) -> Result<(), String> {
    let (t, j, l, solo) = example.settings;
    let mut machine = Machine::fresh(settings(t, j, l, solo)?);
    let lent = example.lent();
    for (keystroke, committed, sent, state) in example.lines {
        for event in keystrokes(keystroke)? {
            let step = step_with(&lent, &machine, event);
            let step = step.map_err(|n| format!("{keystroke}: refused {n}"))?;
            let line: String = step.items.iter().filter_map(sign).map(|s| sign_text(&s)).collect();
            let got = (line.as_str(), sendings_text(&step.sendings), name(&step.machine.resting));
            expect(keystroke, got, (committed, sent.to_string(), state))?;
            machine = step.machine;
        }
    }
    Ok(())
}

fn name(resting: &Resting) -> &'static str {
    match resting {
        Resting::S1 => "S1",
        Resting::S2 { .. } => "S2",
        Resting::S3 { .. } => "S3",
        Resting::S4 { .. } => "S4",
        Resting::S5 { .. } => "S5",
        Resting::S6 { .. } => "S6",
        Resting::S7 { .. } => "S7",
        Resting::S8 { .. } => "S8",
    }
}

// ---- Refusals ----

fn check_refusals() -> Result<(), String> {
    let right = [(50, 1, 1, 0), (1_000, 99, 99, 1), (50, 99, 1, 1), (1_000, 1, 99, 0)];
    let slower = [(200, 50, 50, 0), (201, 50, 50, 0), (999, 50, 50, 1)];
    for (t, j, l, solo) in right.into_iter().chain(slower) {
        expect("settings in range", Settings::new(t, j, l, solo).is_some(), true)?;
    }
    let out = [(49, 50, 50, 0), (1_001, 50, 50, 0), (100, 0, 50, 0), (100, 100, 50, 0)];
    let more = [(100, 50, 0, 0), (100, 50, 100, 0), (100, 50, 50, 2), (0, 0, 0, 0)];
    let far = [(65_535, 50, 50, 0), (u64::MAX, 50, 50, 0)];
    for (t, j, l, solo) in out.into_iter().chain(more).chain(far) {
        expect("settings out of range", Settings::new(t, j, l, solo), None)?;
    }
    check_event_refusals()?;
    check_ill_formed()?;
    println!("refusals: settings, kinds, keys, stamps, states");
    Ok(())
}

/// What an event at stamp 50 or later is answered by a machine with last stamp 50.
fn check_event_refusals() -> Result<(), String> {
    let machine = Machine { last: 50, ..Machine::fresh(settings(100, 50, 50, 0)?) };
    let answers = [
        (1, 30, 50, 0),
        (1, 31, 50, 3),
        (2, 30, 50, 0),
        (2, 31, 50, 3),
        (3, 1, 50, 0),
        (3, 2, 50, 3),
        (4, 1, 50, 0),
        (4, 2, 50, 3),
        (5, 0, 50, 0),
        (5, 1, 50, 3),
        (6, 0, 50, 0),
        (6, 1, 50, 3),
        (0, 0, 50, 3),
        (7, 0, 50, 3),
        (1, 21, LARGEST_STAMP, 0),
        (1, 21, LARGEST_STAMP + 1, 4),
        (1, 21, 49, 5),
        (1, 31, 49, 3),
        (1, 31, LARGEST_STAMP + 1, 3),
    ];
    for (kind, key, stamp, number) in answers {
        let got = step(&machine, Event { kind, key, stamp }).map_or_else(|n| n, |_| 0);
        expect(&format!("kind {kind}, key {key}, stamp {stamp}"), got, number)?;
    }
    Ok(())
}

/// States that are not well formed are refused 2, before anything else.
fn check_ill_formed() -> Result<(), String> {
    let fresh = Machine::fresh(settings(100, 50, 50, 1)?);
    let right = Thumb::Right;
    let resting = [
        Resting::S2 { key: 31, m: 0 },
        Resting::S2 { key: 0, m: 11 },
        Resting::S3 { thumb: right, o: 11 },
        Resting::S4 { key: 0, m: 6, thumb: right, o: 5 },
        Resting::S5 { thumb: right, o: 6, key: 0, m: 5 },
        Resting::S6 { thumb: right, o: 6, key: 0, m: 5, r: 7 },
        Resting::S6 { thumb: right, o: 5, key: 0, m: 7, r: 6 },
        Resting::S6 { thumb: right, o: 5, key: 0, m: 7, r: u64::MAX },
    ];
    let machines = resting.map(|resting| Machine { resting, last: 10, ..fresh });
    let beyond = Machine { last: LARGEST_STAMP + 1, ..fresh };
    for machine in machines.into_iter().chain([beyond]) {
        let event = Event { kind: 9, key: 99, stamp: u64::MAX };
        expect("ill formed, an event", step(&machine, event).err(), Some(2))?;
        expect("ill formed, the distance", machine.distance(u64::MAX), Err(2))?;
    }
    Ok(())
}

// ---- Logs ----

const SAIGAI: &str = "24@0 24up@60 18@100 18up@150 21@200 R@230 21up@270 Rup@280 18@300 tick@400";
const SAIKAI: &str = "24@0 24up@60 18@100 18up@150 21@200 R@230 21up@250 Rup@280 18@300 tick@400";

fn check_logs() -> Result<(), String> {
    let log = log_of((100, 50, 50, 0), &keystrokes(SAIGAI)?);
    expect("length of 01's log", log.len(), 138)?;
    expect("01's log", play(&log), "さいがい\nwaiting 0\n".to_string())?;
    let variant = log_of((100, 50, 50, 0), &keystrokes(SAIKAI)?);
    expect("its variant", play(&variant), "さいかい\nwaiting 0\n".to_string())?;
    check_answers(&log)?;
    check_bytes(&log)?;
    check_slower(&log)?;
    println!("logs: 01's log of 138 bytes, its variant, refusals on a record, the C face, T=1000");
    Ok(())
}

/// Request 4/12 in a log: its keystrokes, and T on both sides of its bound.
fn check_slower(log: &[u8]) -> Result<(), String> {
    let slow = |up: &str| {
        let log = log_of((1_000, 50, 50, 0), &keystrokes(&format!("21@0 R@500 21up@{up}"))?);
        Ok::<_, String>(play(&log))
    };
    expect("up at 899", slow("899")?, "か\nwaiting 0\n".to_string())?;
    expect("up at 900", slow("900")?, "が\nwaiting 0\n".to_string())?;
    let read = |t: u16| {
        let log = [&settings_record(t, 50, 50, 0), &log[8..]].concat();
        read_log(&log, &mut [9; 4])
    };
    expect("T 49", read(49), answer(1, 0, 0, 0))?;
    // With a longer T the last character still waits at the tick.
    for t in [200, 201, 999, 1_000] {
        expect(&format!("T {t}"), read(t), answer(0, 3, 138, 1))?;
    }
    expect("T 1001", read(1_001), answer(1, 0, 0, 0))?;
    expect("T 65535", read(65_535), answer(1, 0, 0, 0))
}

fn answer(number: u32, words: u64, offset: u64, waiting: u32) -> Answer {
    Answer { number, waiting, words, offset }
}

/// Answers on 01's log, whole, cut, damaged and with too little room.
fn check_answers(log: &[u8]) -> Result<(), String> {
    let read = |log: &[u8], room| read_log(log, &mut vec![9; room]);
    let with = |place: usize, value: u8| {
        let mut log = log.to_vec();
        log[place] = value;
        log
    };
    expect("whole", read(log, 4), answer(0, 4, 138, 0))?;
    expect("empty", read(&[], 4), answer(6, 0, 0, 0))?;
    expect("settings only", read(&log[..8], 0), answer(0, 0, 8, 0))?;
    expect("header cut", read(&log[..10], 0), answer(6, 0, 8, 0))?;
    expect("body cut", read(&log[..72], 4), answer(6, 2, 60, 0))?;
    expect("tag unknown", read(&with(73, 3), 4), answer(7, 2, 73, 1))?;
    expect("settings again", read(&with(73, 1), 4), answer(7, 2, 73, 1))?;
    expect("settings missing", read(&log[8..], 4), answer(7, 0, 0, 0))?;
    expect("length too long", read(&with(75, 11), 4), answer(7, 2, 73, 1))?;
    expect("length too short", read(&with(75, 9), 4), answer(7, 2, 73, 1))?;
    expect("length past the end", read(&with(74, 1), 4), answer(6, 2, 73, 1))?;
    expect("cut and tag unknown", read(&with(74, 1)[..75], 4), answer(6, 2, 73, 1))?;
    expect("settings out of range", read(&with(5, 0), 4), answer(1, 0, 0, 0))?;
    expect("kind", read(&with(76, 0), 4), answer(3, 2, 73, 1))?;
    expect("key", read(&with(77, 2), 4), answer(3, 2, 73, 1))?;
    expect("stamp too large", read(&with(78, 1), 4), answer(4, 2, 73, 1))?;
    expect("stamp too early", read(&with(85, 199), 4), answer(5, 2, 73, 1))?;
    expect("no room", read(log, 0), answer(8, 0, 21, 1))?;
    expect("room for two", read(log, 2), answer(8, 2, 86, 1))
}

/// Two words of one record either both fit or neither is written.
fn check_bytes(log: &[u8]) -> Result<(), String> {
    let both = log_of((100, 50, 50, 1), &keystrokes("R@0 21@40 Rup@60 tick@80")?);
    let mut out = [0xee; 5];
    expect("one of two fits", read_log_bytes(&both, &mut out[..3]), answer(8, 0, 47, 1))?;
    expect("none is written", out, [0xee; 5])?;
    expect("both fit", read_log_bytes(&both, &mut out), answer(0, 2, 60, 0))?;
    expect("high byte first, odd byte kept", out, [0x00, 0x02, 0x30, 0x4b, 0xee])?;
    let mut out = [0xee; 9];
    expect("01's log", read_log_bytes(log, &mut out), answer(0, 4, 138, 0))?;
    expect("its bytes", out, [0x30, 0x55, 0x30, 0x44, 0x30, 0x4c, 0x30, 0x44, 0xee])
}

/// The program's output: marks, refusals, logs that are longer than its buffer.
fn check_program() -> Result<(), String> {
    let marks = log_of((100, 50, 50, 1), &keystrokes("L@0 R@10 Rup@20 21@30")?);
    expect("marks", play(&marks), "<L><R>\nwaiting 1\n".to_string())?;
    expect("empty", play(&[]), "\nrefused 6 at 0\n".to_string())?;
    let mut log = log_of((100, 50, 50, 0), &keystrokes("21@0 tick@100")?);
    for length in [BUFFER, BUFFER + 1] {
        log.resize(length, 0);
        expect("zeros behind", play(&log), "か\nrefused 7 at 34\n".to_string())?;
    }
    let pressed = |stamp: u64| [1, 2].map(|kind| Event { kind, key: 21, stamp });
    let long = log_of((100, 50, 50, 0), &(0..6_000).flat_map(pressed).collect::<Vec<_>>());
    let line = "か".repeat(6_000);
    expect("a long line", play(&long), format!("{line}\nwaiting 0\n"))?;
    let cut = &long[..long.len() - 1];
    expect("cut far behind", play(cut), format!("{}\nrefused 6 at 155995\n", &line[3..]))?;
    println!("program: marks, an empty log, logs of more than {BUFFER} bytes");
    Ok(())
}

// ---- Demand 3 ----

const SEQUENCES: u64 = 100_000;

fn check_demand3() -> Result<(), String> {
    let mut random = Random::new(3);
    for index in 0..SEQUENCES {
        let raw = generate::right_settings(&mut random);
        let machine = generate::open(raw).ok_or("settings refused")?;
        let lent = if index % 2 == 0 { NO_PAIRS.clone() } else { right_lent(&mut random) };
        demand3::check_random(&mut random, &lent, machine.settings)
            .map_err(|what| format!("{raw:?}, {lent:?}: {what}"))?;
    }
    println!("demand 3: holds on {SEQUENCES} random sequences, half of them with a list");
    Ok(())
}

// ---- The generator reaches every rule ----

/// State before, kind, state after, items committed, for steps with no late line.
type Reached = (&'static str, u8, &'static str, usize);

/// The rules of 01's section "One event", some that change only the last stamp
/// among them, as repeats do (7/12), and those of two letters (9/12).
const RULES: [Reached; 71] = [
    ("S1", 1, "S1", 0),
    ("S1", 1, "S2", 0),
    ("S1", 2, "S1", 0),
    ("S1", 3, "S3", 0),
    ("S2", 1, "S2", 0),
    ("S2", 1, "S2", 1),
    ("S2", 2, "S2", 0),
    ("S2", 3, "S4", 0),
    ("S2", 2, "S1", 1),
    ("S2", 5, "S1", 1),
    ("S2", 6, "S2", 0),
    ("S3", 1, "S3", 0),
    ("S3", 1, "S5", 0),
    ("S3", 3, "S3", 0),
    ("S3", 3, "S3", 1),
    ("S3", 4, "S1", 0),
    ("S3", 4, "S1", 1),
    ("S3", 5, "S1", 0),
    ("S3", 5, "S1", 1),
    ("S4", 1, "S4", 0),
    ("S4", 1, "S5", 1),
    ("S4", 1, "S2", 1),
    ("S4", 3, "S3", 1),
    ("S4", 3, "S4", 0),
    ("S4", 2, "S3", 1),
    ("S4", 2, "S1", 1),
    ("S4", 4, "S1", 1),
    ("S4", 5, "S1", 1),
    ("S5", 1, "S5", 0),
    ("S5", 1, "S2", 1),
    ("S5", 3, "S4", 0),
    ("S5", 3, "S4", 1),
    ("S5", 3, "S3", 1),
    ("S5", 3, "S5", 0),
    ("S5", 4, "S6", 0),
    ("S5", 4, "S1", 1),
    ("S5", 4, "S5", 0),
    ("S5", 2, "S1", 1),
    ("S5", 2, "S5", 0),
    ("S5", 5, "S1", 1),
    ("S6", 1, "S6", 0),
    ("S6", 1, "S2", 1),
    ("S6", 3, "S3", 1),
    ("S6", 2, "S1", 1),
    ("S6", 2, "S6", 0),
    ("S6", 4, "S6", 0),
    ("S6", 5, "S1", 1),
    ("S6", 5, "S1", 2),
    ("S6", 6, "S6", 0),
    ("S2", 1, "S7", 0),
    ("S7", 1, "S7", 0),
    ("S7", 1, "S7", 1),
    ("S7", 1, "S2", 1),
    ("S7", 1, "S2", 2),
    ("S7", 2, "S8", 0),
    ("S7", 2, "S7", 0),
    ("S7", 2, "S1", 1),
    ("S7", 3, "S3", 1),
    ("S7", 3, "S4", 1),
    ("S7", 4, "S7", 0),
    ("S7", 5, "S1", 1),
    ("S7", 6, "S7", 0),
    ("S8", 1, "S8", 0),
    ("S8", 1, "S7", 1),
    ("S8", 1, "S2", 1),
    ("S8", 1, "S2", 2),
    ("S8", 2, "S8", 0),
    ("S8", 2, "S1", 1),
    ("S8", 2, "S1", 2),
    ("S8", 3, "S3", 1),
    ("S8", 3, "S4", 1),
];

/// Every late line, with what it commits.
const LATE: [(&str, usize); 8] =
    [("S2", 1), ("S3", 1), ("S4", 1), ("S5", 1), ("S6", 1), ("S6", 2), ("S7", 1), ("S8", 2)];

fn check_rules_reached() -> Result<(), String> {
    let mut random = Random::new(4);
    let mut reached = BTreeSet::new();
    let mut late = BTreeSet::new();
    for _ in 0..20_000 {
        let machine = generate::open(generate::right_settings(&mut random)).ok_or("settings")?;
        let lent = right_lent(&mut random);
        let events = generate::random_events(&mut random, &lent, machine, 30, false);
        note_rules(&lent, machine, &events, &mut reached, &mut late);
    }
    for rule in RULES {
        expect(&format!("rule {rule:?} reached"), reached.contains(&rule), true)?;
    }
    for line in LATE {
        expect(&format!("late {line:?} reached"), late.contains(&line), true)?;
    }
    println!("generator: reaches {} rules and {} late lines", RULES.len(), LATE.len());
    Ok(())
}

fn note_rules(
    lent: &Lent,
    mut machine: Machine,
    events: &[Event],
    reached: &mut BTreeSet<Reached>,
    late: &mut BTreeSet<(&'static str, usize)>,
) {
    for event in events {
        let wait = machine.distance_with(lent, event.stamp);
        let due = matches!(wait, Ok(Some(wait)) if wait <= 0);
        let before = name(&machine.resting);
        let Ok(step) = step_with(lent, &machine, *event) else { return };
        if due {
            late.insert((before, step.items.len()));
        } else {
            let items: &[Item] = &step.items;
            reached.insert((before, event.kind, name(&step.machine.resting), items.len()));
        }
        machine = step.machine;
    }
}
