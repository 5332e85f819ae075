//! Request 11/12 tried on the model: 14 and 8, their places and their order; and that shifts
//! are what they should be: accepted to their end, and of every kind of stroke.

use std::collections::BTreeSet;

use trabeculon_model::generate::{every_place, random_case};
use trabeculon_model::holding::Holding;
use trabeculon_model::log::{
    judged_events, list_record, log_of, play, read_log, settings_record, Answer,
};
use trabeculon_model::model::Event;
use trabeculon_model::opinion::{opined, opinion};
use trabeculon_model::overlaps::Overlaps;
use trabeculon_model::pairs::{pair, Lent};
use trabeculon_model::random::Random;
use trabeculon_model::shifts::random_shift;
use trabeculon_model::tally::Tally;

use crate::{answer, expect, keystrokes, note_rules, LATE, RULES, SAIGAI};

pub fn check_all() -> Result<(), String> {
    check_numbers()?;
    check_cases()?;
    check_trap()?;
    check_shifts()
}

fn check_numbers() -> Result<(), String> {
    let log = log_of((100, 50, 50, 0), &keystrokes(SAIGAI)?);
    let settings = settings_record(100, 50, 50, 0);
    let with = |list: &[u8]| [&settings[..], list, &log[8..]].concat();
    let none = list_record(&Lent::new(&[], 50, 50));
    let pairs = list_record(&Lent::new(&[pair(0, 1, 0x304c)], 50, 50));
    let bad = list_record(&Lent::new(&[pair(0, 1, 0x304c)], 49, 50));
    let say = |log: &[u8], room| {
        let mut run = vec![9; room];
        let answer = opinion(log, &mut run);
        (answer, run)
    };
    let saigai = vec![0x3055, 0x3044, 0x304c, 0x3044];
    expect("01's log", say(&log, 4), (answer(0, 4, 138, 0), saigai.clone()))?;
    expect("no pairs", say(&with(&none), 4), (answer(0, 4, 144, 0), saigai))?;
    expect("pairs", say(&with(&pairs), 4), (answer(14, 0, 8, 0), vec![9; 4]))?;
    expect("pairs and no room", say(&with(&pairs), 0), (answer(14, 0, 8, 0), vec![]))?;
    expect("a bad list", say(&with(&bad), 4), (answer(12, 0, 8, 0), vec![9; 4]))?;
    let refused = [&with(&pairs)[..], &[9, 0, 0]].concat();
    expect("pairs, and refused behind", say(&refused, 4), (answer(14, 0, 8, 0), vec![9; 4]))?;
    let no_settings = [&settings_record(49, 50, 50, 0)[..], &pairs].concat();
    expect("settings before pairs", say(&no_settings, 4), (answer(1, 0, 0, 0), vec![9; 4]))?;
    expect("no room", say(&log, 3), (answer(8, 0, 0, 0), vec![9; 3]))?;
    let behind = [&log[..], &[9, 0, 0]].concat();
    expect("no room, and refused behind", say(&behind, 3), (answer(8, 0, 0, 0), vec![9; 3]))?;
    expect("pairs, printed", opined(&with(&pairs)), "\nrefused 14 at 8\n".to_string())?;
    println!("opinion: 14 at a list with pairs, after 12 and before 8; 8 of the whole log");
    Ok(())
}

/// Apart from 14 and 8 it is the reader's answer.
fn check_cases() -> Result<(), String> {
    let mut tally = Tally::default();
    let mut check = |log: &[u8], room: usize| {
        let (mut ample, mut run) = (vec![0; log.len() / 5], vec![9; room]);
        let right = read_log(log, &mut ample);
        let got = opinion(log, &mut run);
        tally.add(u64::from(got.number));
        let words = &ample[..right.words as usize];
        // The reader accepts a list, and it is longer than T_s and N.
        let pairs = right.offset > 8 && log[8] == 3 && log[9..11] != [0, 3];
        let expected = match pairs {
            true => Answer { number: 14, waiting: 0, words: 0, offset: 8 },
            false if words.len() > room => Answer { number: 8, waiting: 0, words: 0, offset: 0 },
            false => right,
        };
        let mut written = vec![9; room];
        if !matches!(got.number, 8 | 14) {
            written[..words.len()].copy_from_slice(words);
        }
        expect("answer", got, expected)?;
        expect("words", run == written, true)
    };
    let mut index = 0;
    every_place(|case| {
        index += 1;
        if index % 8 == 0 {
            check(&case.log, case.room / 2)
        } else {
            Ok(())
        }
    })?;
    let mut random = Random::new(11);
    (0..20_000).try_for_each(|_| {
        let case = random_case(&mut random);
        check(&case.log, case.room / 2)
    })?;
    tally.complete(&[0, 1, 3, 4, 5, 6, 7, 8, 11, 12, 14], u64::MAX)?;
    println!("opinion: the reader's answers but for 8 and 14{}", tally.times());
    Ok(())
}

/// A thumb that is given to the next letter is not asked its own deadline any more.
fn check_trap() -> Result<(), String> {
    let log = log_of((100, 50, 99, 1), &keystrokes("21@0 R@30 24@50 tick@5000")?);
    expect("a thumb given on", play(&log), "かざ\nwaiting 0\n".to_string())
}

const SHIFTS: usize = 60;

/// Shifts are accepted to their end, and all of them together have every rule without pairs.
fn check_shifts() -> Result<(), String> {
    let mut random = Random::new(11);
    let (mut overlaps, mut holding) = (Overlaps::default(), Holding::default());
    let (mut reached, mut late, mut events) = (BTreeSet::new(), BTreeSet::new(), 0);
    for _ in 0..SHIFTS {
        let log = random_shift(&mut random, 2_000);
        let mut run = vec![0; log.len() / 5];
        let read = read_log(&log, &mut run);
        expect("a shift", (read.number, read.offset), (0, log.len() as u64))?;
        overlaps.add_log(&log);
        holding.add_log(&log);
        let (lent, judged) = judged_events(&log);
        let all: Vec<Event> = judged.iter().map(|(_, event)| *event).collect();
        let (first, _) = judged.first().ok_or("a shift without events")?;
        note_rules(&lent, *first, &all, &mut reached, &mut late);
        events += all.len();
    }
    let without_pairs = |state: &str| !["S7", "S8"].contains(&state);
    for rule in RULES.iter().filter(|rule| without_pairs(rule.0) && without_pairs(rule.2)) {
        expect(&format!("rule {rule:?} in a shift"), reached.contains(rule), true)?;
    }
    for line in LATE.iter().filter(|line| without_pairs(line.0)) {
        expect(&format!("late {line:?} in a shift"), late.contains(line), true)?;
    }
    overlaps.complete(u64::MAX)?;
    let held = ["press", "repeat", "repeat-while-six", "up", "up-alone", "function-while-held"];
    holding.complete(&held, u64::MAX)?;
    println!("opinion: {events} events of {SHIFTS} shifts have every rule without pairs");
    Ok(())
}
