//! Request 3/12 tried on the model: the distance, its refusals and that it says when
//! a tick commits; the machine as numbers, and the states that the tests make.

use trabeculon_model::lists::right_lent;
use trabeculon_model::live::{
    at as stamp, distance, open, step_numbers, Asked, Flat, Opened, Stepped, Wrong,
};
use trabeculon_model::model::{step_with, Event, Machine, Resting, Settings, Thumb, LARGEST_STAMP};
use trabeculon_model::random::Random;
use trabeculon_model::states::{bit, broken_state, nameless_state, random_stamp, right_state};

use crate::{expect, settings};

pub fn check_all() -> Result<(), String> {
    check_distances()?;
    check_largest()?;
    check_refusals()?;
    check_ticks()?;
    check_numbers()?;
    check_states()
}

// ---- The distance ----

/// No key is held, which the distance does not ask.
fn at(settings: Settings, last: u64, resting: Resting) -> Machine {
    Machine { resting, last, ..Machine::fresh(settings) }
}

/// Every state, at T=100, J=L=50: before its deadline, at it and behind it.
fn check_distances() -> Result<(), String> {
    let usual = settings(100, 50, 50, 0)?;
    let solo = settings(100, 50, 50, 1)?;
    let (key, thumb) = (21, Thumb::Right);
    let states = [
        (at(usual, 10, Resting::S2 { key, m: 10 }), 110),
        (at(solo, 10, Resting::S3 { thumb, o: 10 }), 110),
        (at(usual, 30, Resting::S4 { key, m: 0, thumb, o: 30 }), 60),
        (at(usual, 30, Resting::S4 { key, m: 30, thumb, o: 30 }), 30),
        (at(usual, 30, Resting::S5 { thumb, o: 0, key, m: 30 }), 60),
        (at(usual, 1_000, Resting::S5 { thumb, o: 0, key, m: 1_000 }), 1_100),
        (at(usual, 60, Resting::S6 { thumb, o: 0, key, m: 40, r: 60 }), 80),
        // A state may stand behind its deadline.
        (at(usual, 5_000, Resting::S2 { key, m: 10 }), 110),
    ];
    for (machine, deadline) in states {
        for stamp in [machine.last, 109, 110, 111, 1_099, 1_100, 1_101, 40_000, LARGEST_STAMP] {
            let right =
                if stamp < machine.last { Err(5) } else { Ok(Some(deadline - stamp as i64)) };
            expect(&format!("{machine:?} at {stamp}"), machine.distance(stamp), right)?;
        }
    }
    let none = [
        at(usual, 10, Resting::S1),
        at(solo, 10, Resting::S1),
        at(usual, 10, Resting::S3 { thumb, o: 10 }),
    ];
    for machine in none {
        for stamp in [10, 11, 10_000, LARGEST_STAMP] {
            expect(&format!("{machine:?} at {stamp}"), machine.distance(stamp), Ok(None))?;
        }
    }
    Ok(())
}

/// At the largest stamp, and the farthest that a deadline can be away.
fn check_largest() -> Result<(), String> {
    let (key, thumb, o) = (21, Thumb::Left, LARGEST_STAMP);
    let usual = settings(100, 50, 50, 0)?;
    let end = at(usual, LARGEST_STAMP, Resting::S2 { key, m: LARGEST_STAMP });
    expect("pressed at the largest", end.distance(LARGEST_STAMP), Ok(Some(100)))?;
    expect("one more", end.distance(LARGEST_STAMP + 1), Err(4))?;
    expect("one less", end.distance(LARGEST_STAMP - 1), Err(5))?;
    let slow = at(settings(1_000, 99, 1, 0)?, LARGEST_STAMP, Resting::S4 { key, m: 0, thumb, o });
    expect("the farthest", slow.distance(LARGEST_STAMP), Ok(Some(99 * LARGEST_STAMP as i64)))?;
    let old = at(usual, 0, Resting::S2 { key, m: 0 });
    let overdue = 100 - LARGEST_STAMP as i64;
    expect("the most overdue", old.distance(LARGEST_STAMP), Ok(Some(overdue)))
}

/// 2 before 4 and 5. 4 and 5 never hold together, as no last stamp of a well-formed
/// state is above the largest.
fn check_refusals() -> Result<(), String> {
    let usual = settings(100, 50, 50, 0)?;
    let good = at(usual, 50, Resting::S2 { key: 30, m: 50 });
    let bad = at(usual, 50, Resting::S2 { key: 31, m: 50 });
    let beyond = at(usual, LARGEST_STAMP + 2, Resting::S1);
    let tries = [
        (good, 50, Ok(Some(100))),
        (good, 49, Err(5)),
        (good, 0, Err(5)),
        (good, LARGEST_STAMP + 1, Err(4)),
        (good, u64::MAX, Err(4)),
        (bad, 50, Err(2)),
        (bad, 49, Err(2)),
        (bad, LARGEST_STAMP + 1, Err(2)),
        (beyond, LARGEST_STAMP + 1, Err(2)),
        (beyond, u64::MAX, Err(2)),
    ];
    for (machine, stamp, right) in tries {
        expect(&format!("{machine:?} at {stamp}"), machine.distance(stamp), right)?;
    }
    println!("distance: to wait, due, overdue, none; 2 before 4 and 5; the largest stamp");
    Ok(())
}

const STATES: u64 = 50_000;

/// A tick leaves a state as it was as long as the distance is positive, and ends it
/// from 0 on; with no deadline it never does. A distance shrinks as time goes on.
fn check_ticks() -> Result<(), String> {
    let mut random = Random::new(5);
    for _ in 0..STATES {
        let lent = right_lent(&mut random);
        let flat = right_state(&mut random, &lent);
        let machine = flat.machine_with(&lent, RIGHT).map_err(|n| format!("{flat:?}: {n}"))?;
        let stamp = random_stamp(&mut random, &lent, &flat);
        let asked = machine.distance_with(&lent, stamp);
        let stepped = step_with(&lent, &machine, Event { kind: 6, key: 0, stamp });
        let right = match asked {
            Err(number) => Err(number),
            Ok(Some(i64::MIN..=0)) => Ok(Resting::S1),
            Ok(_) => Ok(machine.resting),
        };
        let what = format!("a tick at {stamp} in {machine:?}");
        expect(&what, stepped.map(|step| step.machine.resting), right)?;
        let later = machine.distance_with(&lent, stamp.saturating_add(1));
        if let (Ok(now), Ok(later)) = (asked, later) {
            expect("one ms later", later, now.map(|now| now - 1))?;
        }
    }
    println!("distance: {STATES} random states, a tick ends each when it is due and not before");
    Ok(())
}

// ---- The machine as numbers ----

const RIGHT: Wrong = Wrong { machine: None, live: None };

fn check_numbers() -> Result<(), String> {
    let fresh = Flat { t: 100, j: 50, l: 50, solo: 1, state: 1, ..Flat::default() };
    let opened = |flat| Opened { machine: flat, number: 0 };
    let closed = Opened { machine: Flat::default(), number: 1 };
    expect("open", open(RIGHT, (100, 50, 50, 1)), opened(fresh))?;
    expect("not open", open(RIGHT, (100, 50, 50, 2)), closed)?;
    for t in [50, 200, 201, 999, 1_000] {
        expect(&format!("T {t}"), open(RIGHT, (t, 50, 50, 1)), opened(Flat { t, ..fresh }))?;
    }
    for t in [0, 49, 1_001, 65_535] {
        expect(&format!("T {t}"), open(RIGHT, (t, 50, 50, 1)), closed)?;
    }
    check_p9(fresh)?;
    check_slower(Flat { t: 1_000, solo: 0, ..fresh })?;
    let refused = |flat: Flat, event: (u8, u8, u64), number: u32| {
        let (kind, key, stamp) = event;
        let got = step_numbers(RIGHT, &flat, Event { kind, key, stamp });
        let right = Stepped { machine: flat, number, ..Stepped::default() };
        expect(&format!("{event:?} in {flat:?}"), got, right)
    };
    let at_50 = stamp(50);
    let waiting = Flat { last: at_50, state: 2, key: 30, m: at_50, held: bit(30), ..fresh };
    refused(waiting, (1, 31, 49), 3)?;
    refused(waiting, (1, 21, LARGEST_STAMP + 1), 4)?;
    refused(waiting, (6, 0, 49), 5)?;
    for nameless in nameless(waiting) {
        refused(nameless, (9, 99, u64::MAX), 2)?;
        let right = Asked { number: 2, ..Asked::default() };
        expect("nameless, the distance", distance(RIGHT, &nameless, u64::MAX), right)?;
    }
    println!("numbers: P9 and 4/12 step by step, refusals hand the numbers back as given");
    Ok(())
}

/// S2 with one number that is too much, and numbers that are no state.
fn nameless(waiting: Flat) -> [Flat; 10] {
    let at_50 = stamp(50);
    [
        Flat::default(),
        Flat { state: 9, ..waiting },
        Flat { state: 255, ..waiting },
        Flat { o: stamp(1), ..waiting },
        Flat { r: stamp(u64::MAX), ..waiting },
        Flat { thumb: 1, ..waiting },
        Flat { state: 4, o: at_50, thumb: 2, ..waiting },
        Flat { state: 5, o: at_50, r: at_50, ..waiting },
        Flat { second: 24, ..waiting },
        Flat { k: stamp(1), ..waiting },
    ]
}

/// Request 4/12's keystrokes, every number of every answer.
fn check_slower(fresh: Flat) -> Result<(), String> {
    let (ka, ga, none) = (0x304b, 0x304c, Stepped::default());
    let at_500 = stamp(500);
    let s2 = Flat { state: 2, key: 21, held: bit(21), ..fresh };
    let s4 = Flat { state: 4, thumb: 1, o: at_500, last: at_500, ..s2 };
    let s3 = Flat { state: 3, thumb: 1, o: at_500, last: stamp(899), ..fresh };
    let asked = |milliseconds| Asked { number: 0, deadline: 1, milliseconds };
    let down = ((1, 21, 0), Stepped { machine: s2, sent_first: ka, ..none }, asked(1_000));
    let thumb = ((3, 1, 500), Stepped { machine: s4, ..none }, asked(500));
    let plain = Stepped { machine: s3, items: 1, first: ka, ..none };
    let end = Flat { last: stamp(900), ..fresh };
    let chord = Stepped { machine: end, items: 1, first: ga, ..none };
    let chord = Stepped { backspaces: 1, sent_first: ga, ..chord };
    let up = |stamp, stepped| ((2, 21, stamp), stepped, Asked::default());
    check_lines("4/12", fresh, &[down, thumb, up(899, plain)])?;
    check_lines("4/12", fresh, &[down, thumb, up(900, chord)])
}

/// 01's P9, every number of every answer.
fn check_p9(fresh: Flat) -> Result<(), String> {
    let (ka, ga, mark) = (0x304b, 0x304c, 2);
    let none = Stepped::default();
    let [at_40, at_60, at_79, at_80] = [40, 60, 79, 80].map(stamp);
    let s3 = Flat { state: 3, thumb: 1, ..fresh };
    let s5 = Flat { state: 5, key: 21, m: at_40, last: at_40, held: bit(21), ..s3 };
    let s6 = Flat { state: 6, r: at_60, last: at_60, ..s5 };
    // The key is held still when its character is committed.
    let s1 = Flat { last: at_80, held: bit(21), ..fresh };
    let end = Stepped { items: 2, first: mark, second: ka, backspaces: 1, ..none };
    let end = Stepped { sent_first: mark, sent_second: ka, ..end };
    let asked = |milliseconds| Asked { number: 0, deadline: 1, milliseconds };
    let lines = [
        ((3, 1, 0), Stepped { machine: s3, ..none }, asked(100)),
        ((1, 21, 40), Stepped { machine: s5, sent_first: ga, ..none }, asked(40)),
        ((4, 1, 60), Stepped { machine: s6, ..none }, asked(20)),
        ((6, 0, 79), Stepped { machine: Flat { last: at_79, ..s6 }, ..none }, asked(1)),
        ((6, 0, 80), Stepped { machine: s1, ..end }, Asked::default()),
    ];
    check_lines("P9", fresh, &lines)
}

/// Kind, key and stamp of an event, its answer, and the distance from its stamp then.
type Line = ((u8, u8, u64), Stepped, Asked);

fn check_lines(name: &str, mut flat: Flat, lines: &[Line]) -> Result<(), String> {
    for ((kind, key, stamp), right, wait) in lines.iter().copied() {
        let got = step_numbers(RIGHT, &flat, Event { kind, key, stamp });
        expect(&format!("{name} at {stamp}"), got, right)?;
        flat = got.machine;
        expect(&format!("{name} at {stamp}, the distance"), distance(RIGHT, &flat, stamp), wait)?;
    }
    Ok(())
}

// ---- The states that the tests make ----

/// Right states name well-formed machines and come back from them; broken and
/// nameless ones are refused 2.
fn check_states() -> Result<(), String> {
    let mut random = Random::new(6);
    for _ in 0..STATES {
        let lent = right_lent(&mut random);
        let flat = right_state(&mut random, &lent);
        let back = flat.machine_with(&lent, RIGHT);
        let back = back.map(|machine| Flat::of(flat.raw_settings(), &machine));
        expect("a right state", back, Ok(flat))?;
        for flat in [broken_state(&mut random, &lent), nameless_state(&mut random, &lent)] {
            expect(&format!("{flat:?}"), flat.machine_with(&lent, RIGHT).err(), Some(2))?;
        }
    }
    println!("states: {STATES} right ones, as many broken and nameless ones are refused 2");
    Ok(())
}
