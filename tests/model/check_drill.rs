//! Request 2/12 tried on the model: the lookup, a drill worked out by hand, the
//! refusals with their positions, and the round trip.

use std::collections::BTreeSet;

use trabeculon_model::drill::{
    characters, drill, place, strokes, write_drill, write_drill_bytes, Drill, USUAL_SETTINGS,
};
use trabeculon_model::generate::{boundary_settings, open, right_settings};
use trabeculon_model::lines::{doubled, random_line, STRANGERS};
use trabeculon_model::log::{play, read_log, RawSettings};
use trabeculon_model::model::{character, Event, LARGEST_STAMP};
use trabeculon_model::random::Random;

use crate::{answer, expect};

pub fn check_all() -> Result<(), String> {
    check_lookup()?;
    check_log()?;
    check_refusals()?;
    check_largest_stamp()?;
    check_untouched()?;
    check_program()?;
    check_round_trips()
}

/// Every code point: found exactly where the layout has it.
fn check_lookup() -> Result<(), String> {
    let mut found = BTreeSet::new();
    for word in 0..=u16::MAX {
        if let Some((key, face)) = place(word) {
            found.insert(word);
            expect("the face found", character(key, face).map(u32::from), Some(word.into()))?;
        }
    }
    expect("characters found", found.len(), 86)?;
    let beyond: Vec<u16> = found.into_iter().filter(|w| !(0x3000..=0x30ff).contains(w)).collect();
    expect("outside the table of 256", beyond, vec![0xff0c, 0xff0e])?;
    expect("strangers, 0, 1 and 2 among them", STRANGERS.map(place), [None; 40])
}

fn answered(number: u64, bytes: u64, position: u64) -> Drill {
    Drill { number, bytes, position }
}

fn words(text: &str) -> Vec<u16> {
    text.encode_utf16().collect()
}

/// The drill of さが at T=1000, J=1, L=99, solo 1, every byte by hand.
#[rustfmt::skip]
const SAGA: [u8; 99] = [
    1, 0, 5,  3, 232, 1, 99, 1,
    2, 0, 10, 1, 24, 0, 0, 0, 0, 0, 0, 0, 0,
    2, 0, 10, 2, 24, 0, 0, 0, 0, 0, 0, 0, 0,
    2, 0, 10, 1, 21, 0, 0, 0, 0, 0, 0, 0, 250,
    2, 0, 10, 3, 1, 0, 0, 0, 0, 0, 0, 0, 250,
    2, 0, 10, 6, 0, 0, 0, 0, 0, 0, 0, 0, 250,
    2, 0, 10, 4, 1, 0, 0, 0, 0, 0, 0, 0, 250,
    2, 0, 10, 2, 21, 0, 0, 0, 0, 0, 0, 0, 250,
];

fn check_log() -> Result<(), String> {
    let got = write_drill((1_000, 1, 99, 1), &words("さが"), 99);
    expect("さが", got, (answered(0, 99, 2), SAGA.to_vec()))?;
    let got = write_drill(USUAL_SETTINGS, &[], 8);
    expect("no character", got, (answered(0, 8, 0), vec![1, 0, 5, 0, 100, 50, 50, 0]))?;
    println!("drill: 86 characters found and nothing else; さが byte for byte");
    Ok(())
}

fn check_refusals() -> Result<(), String> {
    let tries = [
        ((49, 50, 50, 0), "さx", 0, answered(1, 0, 0)),
        ((1_001, 50, 50, 0), "さ", 500, answered(1, 0, 0)),
        ((65_535, 50, 50, 0), "さ", 500, answered(1, 0, 0)),
        ((100, 50, 50, 2), "", 0, answered(1, 0, 0)),
        (USUAL_SETTINGS, "x", 0, answered(10, 0, 0)),
        (USUAL_SETTINGS, "さがx", 0, answered(10, 0, 2)),
        (USUAL_SETTINGS, "さアがx", 500, answered(10, 0, 1)),
        (USUAL_SETTINGS, "さが", 98, answered(8, 0, 2)),
        (USUAL_SETTINGS, "", 7, answered(8, 0, 0)),
    ];
    for (settings, text, room, right) in tries {
        let got = write_drill(settings, &words(text), room);
        expect(&format!("drill of {text:?}"), got, (right, vec![]))?;
    }
    Ok(())
}

/// The last position whose stamp is allowed, and the one after it: no line of the
/// tests is that long, so the rule is tried by itself.
fn check_largest_stamp() -> Result<(), String> {
    let last = LARGEST_STAMP / 250;
    let [ka, stranger] = [0x304b, 0x30ab];
    let event = |kind| Event { kind, key: 21, stamp: LARGEST_STAMP };
    expect("the largest stamp", strokes(None, last, ka), Ok(vec![event(1), event(2)]))?;
    expect("one more", strokes(None, last + 1, ka), Err(4))?;
    expect("far beyond", strokes(None, u64::MAX, ka), Err(4))?;
    expect("10 before 4", strokes(None, last + 1, stranger), Err(10))
}

/// A refusal writes no byte; a drill none behind it.
fn check_untouched() -> Result<(), String> {
    let mut out = [0xee; 101];
    let got = write_drill_bytes((1_000, 1, 99, 1), &words("さが"), &mut out[..98]);
    expect("one byte short", (got, out), (answered(8, 0, 2), [0xee; 101]))?;
    let got = write_drill_bytes((1_000, 1, 99, 1), &words("さが"), &mut out);
    expect("written", got, answered(0, 99, 2))?;
    expect("its bytes", &out[..], &[&SAGA[..], &[0xee, 0xee]].concat())
}

fn check_program() -> Result<(), String> {
    let log = |text: &str| drill(USUAL_SETTINGS, text.as_bytes()).and_then(Result::ok);
    let played = log("さいがい\n").map(|log| play(&log));
    expect("drill and play", played, Some("さいがい\nwaiting 0\n".to_string()))?;
    expect("the line end is no part", log("さ\n"), log("さ"))?;
    let refused = drill(USUAL_SETTINGS, "さx\n".as_bytes());
    expect("a stranger", refused, Some(Err("refused 10 at 1\n".to_string())))?;
    expect("damaged", drill(USUAL_SETTINGS, &[0xe3, 0x81]), None)
}

// ---- The round trip ----

const LINES: u64 = 20_000;

fn check_round_trips() -> Result<(), String> {
    let in_range: Vec<RawSettings> = boundary_settings().filter(|s| open(*s).is_some()).collect();
    for settings in &in_range {
        check_round_trip(*settings, &doubled())?;
    }
    let mut random = Random::new(12);
    for _ in 0..LINES {
        let line = random_line(&mut random);
        check_round_trip(right_settings(&mut random), &line)?;
    }
    println!(
        "drill: read back, all {} characters doubled at {} settings, {LINES} random lines",
        characters().len(),
        in_range.len()
    );
    Ok(())
}

/// A line that the writer accepts is read back, with just enough room.
fn check_round_trip(settings: RawSettings, line: &[u16]) -> Result<(), String> {
    let (written, log) = write_drill(settings, line, usize::MAX);
    if written.number != 0 {
        let stranger = line.get(written.position as usize).is_some_and(|w| place(*w).is_none());
        return expect("refused 10 at a stranger", (written.number, stranger), (10, true));
    }
    let mut run = vec![0; line.len()];
    let read = read_log(&log, &mut run);
    let what = format!("reading back {line:x?} at {settings:?}");
    expect(&what, read, answer(0, line.len() as u64, log.len() as u64, 0))?;
    expect(&what, &run[..], line)
}
