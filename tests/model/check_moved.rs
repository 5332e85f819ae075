//! Request 8/12 tried on the model: the same number added to every stamp of the worked
//! examples, of 01's log and of random sequences, refused events among them; and how the
//! move treats a fresh state.

use trabeculon_model::generate::{due, open, random_events, right_settings};
use trabeculon_model::lists::right_lent;
use trabeculon_model::log::{log_of, play};
use trabeculon_model::model::{step_with, Event, Item, Machine, Sending, Settings, LARGEST_STAMP};
use trabeculon_model::moved::{
    log_stamps, moved_event, moved_log, moved_machine, moved_stamp, moves, stays,
};
use trabeculon_model::pairs::{Lent, NO_PAIRS};
use trabeculon_model::random::Random;

use crate::worked::EXAMPLES;
use crate::{expect, keystrokes, settings, SAIGAI};

pub fn check_all() -> Result<(), String> {
    check_fresh()?;
    check_log()?;
    let mut random = Random::new(8);
    for example in &EXAMPLES {
        let (t, j, l, solo) = example.settings;
        let text: Vec<&str> = example.lines.iter().map(|(keystroke, ..)| *keystroke).collect();
        let events = keystrokes(&text.join(" "))?;
        check_moves(&mut random, &example.lent(), settings(t, j, l, solo)?, &events)
            .map_err(|what| format!("{}, {what}", example.name))?;
    }
    for _ in 0..SEQUENCES {
        let fresh = open(right_settings(&mut random)).ok_or("settings refused")?;
        let lent = right_lent(&mut random);
        let count = random.place(40);
        let events = random_events(&mut random, &lent, fresh, count, true);
        check_moves(&mut random, &lent, fresh.settings, &events)?;
    }
    println!("moved clock: examples, 01's log, {SEQUENCES} random sequences keep their text");
    Ok(())
}

const SEQUENCES: u64 = 10_000;

/// A sequence moved in several ways.
fn check_moves(
    random: &mut Random,
    lent: &Lent,
    settings: Settings,
    events: &[Event],
) -> Result<(), String> {
    let stamps: Vec<u64> = events.iter().map(|event| event.stamp).collect();
    moves(random, &stamps).into_iter().try_for_each(|(_, k)| {
        check_moved(lent, settings, events, k)
            .map_err(|what| format!("moved by {k}: {what}\n{settings:?} {lent:?} {events:?}"))
    })
}

/// The same numbers, items and sendings at each event, the same states but for their
/// stamps, and the same distance asked at a stamp that moves too.
fn check_moved(lent: &Lent, settings: Settings, events: &[Event], k: u64) -> Result<(), String> {
    let mut machine = Machine::fresh(settings);
    let (mut moved, mut accepted) = (machine, false);
    for event in events {
        let after = told_with(lent, &mut moved, moved_event(*event, k));
        let before = told_with(lent, &mut machine, *event);
        accepted |= before.is_ok();
        expect("what is told", after, before)?;
        let right = if accepted { moved_machine(&machine, k) } else { machine };
        expect("the state", moved, right)?;
        let stamps = [event.stamp, machine.last, due(lent, &machine).unwrap_or(0)];
        for stamp in stamps.into_iter().filter(|stamp| stays(*stamp, k)) {
            let after = moved.distance_with(lent, moved_stamp(stamp, k));
            let before = machine.distance_with(lent, stamp);
            expect(&format!("the distance at {stamp}"), after, before)?;
        }
    }
    Ok(())
}

type Told = Result<(Vec<Item>, Vec<Sending>), u32>;

/// Steps on; what is given back besides the state.
fn told(machine: &mut Machine, event: Event) -> Told {
    told_with(&NO_PAIRS, machine, event)
}

fn told_with(lent: &Lent, machine: &mut Machine, event: Event) -> Told {
    let step = step_with(lent, machine, event)?;
    *machine = step.machine;
    Ok((step.items, step.sendings))
}

/// A fresh state's last stamp is 0 both times: its first event is never refused 5, also
/// after refused ones. Every later event is, if it is before the last accepted one.
fn check_fresh() -> Result<(), String> {
    let fresh = Machine::fresh(settings(100, 50, 50, 0)?);
    for k in [0, 1, LARGEST_STAMP - 10] {
        let tick = |stamp| moved_event(Event { kind: 6, key: 0, stamp }, k);
        let mut machine = fresh;
        expect("a kind", told(&mut machine, Event { kind: 7, ..tick(10) }), Err(3))?;
        expect("still fresh", machine, fresh)?;
        expect("the first stamp", told(&mut machine, tick(5)), Ok((vec![], vec![])))?;
        expect("the last stamp", machine.last, 5 + k)?;
        expect("before it", told(&mut machine, tick(4)), Err(5))?;
        expect("the latest", told(&mut machine, tick(10)), Ok((vec![], vec![])))?;
        expect("one before", told(&mut machine, tick(9)), Err(5))?;
    }
    Ok(())
}

/// 01's log up to the largest stamp, and one further.
fn check_log() -> Result<(), String> {
    let log = log_of((100, 50, 50, 0), &keystrokes(SAIGAI)?);
    let most = LARGEST_STAMP - 400;
    for k in [1, 1_000_000_007, most] {
        let moved = moved_log(&log, k);
        let stamps: Vec<u64> = log_stamps(&log).iter().map(|stamp| stamp + k).collect();
        expect("stamps of 01's log", log_stamps(&moved), stamps)?;
        expect("01's log moved", play(&moved), "さいがい\nwaiting 0\n".to_string())?;
    }
    let beyond = play(&moved_log(&log, most + 1));
    expect("01's log too far", beyond, "さいが\nrefused 4 at 125\n".to_string())?;
    // A refused record and those behind it are moved too, a cut one is not.
    let cut = [&log[..21], &log[8..30]].concat();
    let right = [&moved_log(&log[..21], 7)[..], &moved_log(&log, 7)[8..21], &log[21..30]].concat();
    expect("a log that is cut", moved_log(&cut, 7), right)
}
