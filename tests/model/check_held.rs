//! Request 7/12 tried on the model: refusal 11 and its place among the others, which
//! held sets are well formed, states made by hand in which the waiting key is not held,
//! that a repeat and an up of a key not held give what a tick gives, and what is held
//! after an event.

use trabeculon_model::lists::right_lent;
use trabeculon_model::live::{at, step_numbers, Flat, Stepped, Wrong};
use trabeculon_model::log::{log_of, play, read_log};
use trabeculon_model::model::{
    step, step_with, Event, Held, Machine, Resting, Thumb, KEYS, LARGEST_STAMP,
};
use trabeculon_model::notation::sendings_text;
use trabeculon_model::random::Random;
use trabeculon_model::states::{bit, random_event, random_stamp, right_state};

use crate::{answer, expect, keystrokes, settings};

pub fn check_all() -> Result<(), String> {
    check_refusals()?;
    check_formed()?;
    check_by_hand()?;
    check_log()?;
    check_numbers()?;
    check_as_ticks()
}

const SIX: [u8; 6] = [0, 1, 2, 3, 4, 30];

fn number(machine: &Machine, (kind, key, stamp): (u8, u8, u64)) -> u32 {
    step(machine, Event { kind, key, stamp }).err().unwrap_or(0)
}

/// While six keys are held: 11 after 3, 4 and 5, only for a press, only of a new key.
fn check_refusals() -> Result<(), String> {
    let fresh = Machine { last: 50, ..Machine::fresh(settings(100, 50, 50, 0)?) };
    let full = Machine { held: Held::of(&SIX), ..fresh };
    let answers = [
        ((1, 21, 50), 11),
        ((1, 29, 50), 11),
        ((1, 21, LARGEST_STAMP), 11),
        ((1, 31, 50), 3),
        ((1, 255, 49), 3),
        ((7, 21, 50), 3),
        ((1, 21, LARGEST_STAMP + 1), 4),
        ((1, 21, 49), 5),
        ((1, 0, 50), 0),
        ((1, 30, 50), 0),
        ((1, 30, LARGEST_STAMP + 1), 4),
        ((1, 30, 49), 5),
        ((2, 21, 50), 0),
        ((2, 30, 50), 0),
        ((3, 1, 50), 0),
        ((4, 1, 50), 0),
        ((5, 0, 50), 0),
        ((6, 0, 50), 0),
    ];
    for (event, right) in answers {
        expect(&format!("{event:?} while six are held"), number(&full, event), right)?;
    }
    let five = Machine { held: Held::of(&SIX[1..]), ..fresh };
    expect("a sixth key", number(&five, (1, 21, 50)), 0)?;
    expect("an up makes room", number(&full.after(2, 4, 50)?, (1, 21, 50)), 0)?;
    expect("a function key does not", number(&full.after(5, 0, 50)?, (1, 21, 50)), 11)?;
    println!("held: a seventh key is refused 11, after 3, 4 and 5; a repeat never is");
    Ok(())
}

/// An event that must be accepted.
trait After: Sized {
    fn after(&self, kind: u8, key: u8, stamp: u64) -> Result<Self, String>;
}

impl After for Machine {
    fn after(&self, kind: u8, key: u8, stamp: u64) -> Result<Machine, String> {
        let step = step(self, Event { kind, key, stamp });
        step.map(|step| step.machine).map_err(|n| format!("{kind} {key} {stamp}: refused {n}"))
    }
}

/// Bits 31 and up are 0, and at most 6 are set; 2 comes before all else.
fn check_formed() -> Result<(), String> {
    let fresh = Machine::fresh(settings(100, 50, 50, 0)?);
    let formed = [0, 1, 1 << 21, 1 << 30, 0b11_1111, 0x7e00_0000, 0x4111_0011];
    let not = [1 << 31, 0b111_1111, 0x7f00_0000, 0xfc00_0000, 0x8000_0001, 0x7fff_ffff, u32::MAX];
    for held in formed {
        let machine = Machine { held: Held(held), ..fresh };
        expect(&format!("held {held:x}"), number(&machine, (6, 0, 0)), 0)?;
        expect("its distance", machine.distance(0), Ok(None))?;
    }
    for held in not {
        let machine = Machine { held: Held(held), ..fresh };
        expect(&format!("held {held:x}"), number(&machine, (9, 99, u64::MAX)), 2)?;
        expect("its distance", machine.distance(u64::MAX), Err(2))?;
    }
    Ok(())
}

/// The waiting key is not held: its up acts as a tick, its down is a new press, and only
/// the set decides upon 11.
fn check_by_hand() -> Result<(), String> {
    let usual = Machine { last: 50, ..Machine::fresh(settings(100, 60, 50, 0)?) };
    let s2 = Machine { resting: Resting::S2 { key: 21, m: 40 }, ..usual };
    let s4 = Resting::S4 { key: 0, m: 40, thumb: Thumb::Right, o: 50 };
    let s4 = Machine { resting: s4, ..usual };
    let full = Machine { held: Held::of(&SIX), ..s2 };
    let tries = [
        // Machine, event, sent, state and what is held afterwards.
        (s2, (2, 21, 60), "", s2.resting, &[][..]),
        (s2, (1, 21, 60), "か", Resting::S2 { key: 21, m: 60 }, &[21]),
        // The chord's face is empty, so what is shown stays.
        (s4, (1, 0, 60), "", Resting::S2 { key: 0, m: 60 }, &[0]),
        (full, (2, 21, 60), "", s2.resting, &SIX),
    ];
    for (machine, (kind, key, stamp), sent, resting, held) in tries {
        let what = format!("{kind} {key} {stamp} of {machine:?}");
        let got = step(&machine, Event { kind, key, stamp }).map_err(|n| format!("{what}: {n}"))?;
        expect(&what, sendings_text(&got.sendings), sent.to_string())?;
        let right = Machine { resting, last: stamp, held: Held::of(held), ..machine };
        expect(&what, got.machine, right)?;
    }
    expect("the waiting key is a seventh", number(&full, (1, 21, 60)), 11)?;
    println!("held: in a state made by hand only the set counts");
    Ok(())
}

/// A seventh finger, when what waits is due, and a tick behind it.
pub const SEVENTH: &str = "10@0 11@0 12@0 13@0 14@0 15@0 16@100 tick@100";

/// 11 on a record: its offset, the words before it, and before 8.
fn check_log() -> Result<(), String> {
    let log = log_of((100, 50, 50, 0), &keystrokes(SEVENTH)?);
    expect("a seventh finger", play(&log), "うしてけせ\nrefused 11 at 86\n".to_string())?;
    let read = |room: usize| read_log(&log, &mut vec![0; room]);
    // The seventh key's record would commit a word besides.
    for room in [9, 6, 5] {
        expect(&format!("room for {room}"), read(room), answer(11, 5, 86, 1))?;
    }
    expect("room for 4", read(4), answer(8, 4, 73, 1))?;
    let text = "21@0 21@500 21@530 21@560 21up@600 21@700 21up@750";
    let log = log_of((100, 50, 50, 0), &keystrokes(text)?);
    expect("a letter that repeats", play(&log), "かか\nwaiting 0\n".to_string())
}

/// Press, repeat and up as numbers, every number of every answer.
fn check_numbers() -> Result<(), String> {
    let fresh = Flat { t: 100, j: 50, l: 50, solo: 1, state: 1, ..Flat::default() };
    let (ka, none) = (0x304b, Stepped::default());
    let down = Flat { state: 2, key: 21, m: at(7), last: at(7), held: bit(21), ..fresh };
    let late = Flat { last: at(107), held: bit(21), ..fresh };
    let up = Flat { last: at(200), ..fresh };
    let lines = [
        ((1, 7), Stepped { machine: down, sent_first: ka, ..none }),
        ((1, 106), Stepped { machine: Flat { last: at(106), ..down }, ..none }),
        ((1, 107), Stepped { machine: late, items: 1, first: ka, ..none }),
        ((1, 108), Stepped { machine: Flat { last: at(108), ..late }, ..none }),
        ((2, 200), Stepped { machine: up, ..none }),
        ((2, 200), Stepped { machine: up, ..none }),
    ];
    let mut flat = fresh;
    for ((kind, stamp), right) in lines {
        let got = step_numbers(Wrong::default(), &flat, Event { kind, key: 21, stamp });
        expect(&format!("kind {kind} at {stamp}"), got, right)?;
        flat = got.machine;
    }
    Ok(())
}

const STATES: u64 = 20_000;

/// Of random states: a repeat, and an up of a key not held, give what a tick gives,
/// refusals too; and after an accepted event a down's key is held, an up's is not, and
/// every other is as it was.
fn check_as_ticks() -> Result<(), String> {
    let mut random = Random::new(9);
    let (mut repeats, mut ups, mut accepted) = (0, 0, 0);
    for _ in 0..STATES {
        let lent = right_lent(&mut random);
        let flat = right_state(&mut random, &lent);
        let machine = flat.machine_with(&lent, Wrong::default());
        let machine = machine.map_err(|n| format!("{flat:?}: {n}"))?;
        let stamp = random_stamp(&mut random, &lent, &flat);
        let tick = step_with(&lent, &machine, Event { kind: 6, key: 0, stamp });
        for key in 0..KEYS {
            let held = machine.held.has(key);
            let kind = if held { 1 } else { 2 };
            let what = format!("kind {kind}, key {key}, stamp {stamp} of {flat:?}");
            let stepped = step_with(&lent, &machine, Event { kind, key, stamp });
            expect(&what, stepped, tick.clone())?;
            repeats += u64::from(held);
            ups += u64::from(!held);
        }
        let event = random_event(&mut random, &lent, &flat);
        if let Ok(step) = step_with(&lent, &machine, event) {
            let right = |key: u8| match (event.kind, event.key == key) {
                (1, true) => true,
                (2, true) => false,
                _ => machine.held.has(key),
            };
            let after = (0..KEYS).map(|key| step.machine.held.has(key));
            expect(&format!("{event:?} of {flat:?}"), after.eq((0..KEYS).map(right)), true)?;
            accepted += 1;
        }
    }
    println!(
        "held: {repeats} repeats and {ups} stray ups are ticks; the set after {accepted} events"
    );
    Ok(())
}
