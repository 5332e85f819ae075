//! Request 9/12 tried on the model: which lists are accepted, refusal 12 and its place,
//! lists in logs, that a list of no pairs changes nothing, how much a step commits and
//! sends in any state, that no late line follows another, where L decides in S8, and the
//! longest wait, looked for on purpose.

use std::collections::BTreeMap;

use trabeculon_model::generate::{due, open, random_events, right_settings};
use trabeculon_model::lists::{boundary_lists, right_lent, wrong_lent, BAD};
use trabeculon_model::live::{distance_with, step_numbers_with, Flat, Wrong};
use trabeculon_model::log::{event_record, list_record, log_of, log_with, play, read_log};
use trabeculon_model::model::{
    step, step_with, Event, Item, Machine, Resting, Settings, KEYS, LARGEST_STAMP,
};
use trabeculon_model::pairs::{pair, Lent, Pair, NO_PAIRS};
use trabeculon_model::random::Random;
use trabeculon_model::states::{random_event, right_state};

use crate::{answer, expect, keystrokes, settings};

pub fn check_all() -> Result<(), String> {
    check_lists()?;
    check_refusals()?;
    check_logs()?;
    check_as_before()?;
    check_states()?;
    check_waits()?;
    check_longest()
}

const KA_SA: Pair = pair(21, 24, 0x4e00);

// ---- Lists ----

fn check_lists() -> Result<(), String> {
    let with = |pairs: &[Pair]| Lent::new(pairs, 100, 50).good(None);
    let all: Vec<Pair> =
        (0..KEYS).flat_map(|a| (a + 1..KEYS).map(move |b| pair(b, a, 0x20))).collect();
    let tries = [
        ("no pair", with(&[]), true),
        ("one", with(&[KA_SA]), true),
        ("64", with(&all[..64]), true),
        ("65", with(&all[..65]), false),
        ("sharing a key", with(&[KA_SA, pair(24, 22, 0x4e00), pair(21, 22, 0x4e01)]), true),
        ("twice", with(&[KA_SA, pair(1, 2, 0x20), KA_SA]), false),
        ("twice, in both orders", with(&[KA_SA, pair(24, 21, 0x4e8c)]), false),
        ("a key with itself", with(&[pair(5, 5, 0x4e00)]), false),
        ("keys 0 and 30", with(&[pair(0, 30, 0x4e00)]), true),
        ("key 31 first", with(&[pair(31, 0, 0x4e00)]), false),
        ("key 31 second", with(&[pair(0, 31, 0x4e00)]), false),
        ("U+001F", with(&[pair(0, 1, 0x1f)]), false),
        ("U+0020", with(&[pair(0, 1, 0x20)]), true),
        ("U+D7FF", with(&[pair(0, 1, 0xd7ff)]), true),
        ("U+D800", with(&[pair(0, 1, 0xd800)]), false),
        ("U+DFFF", with(&[pair(0, 1, 0xdfff)]), false),
        ("U+E000", with(&[pair(0, 1, 0xe000)]), true),
        ("U+FFFF", with(&[pair(0, 1, 0xffff)]), true),
    ];
    for (name, got, right) in tries {
        expect(name, got, right)?;
    }
    let times = [(49, 50), (1_001, 50), (50, 0), (50, 100), (0, 0)];
    for (ts, n) in times {
        expect("out of range", Lent::new(&[KA_SA], ts, n).good(None), false)?;
        expect("with no pair too", Lent::new(&[], ts, n).good(None), false)?;
    }
    for (ts, n) in [(50, 1), (50, 99), (1_000, 1), (1_000, 99)] {
        expect("in range", Lent::new(&[], ts, n).good(None), true)?;
    }
    check_made_lists()
}

/// What the tests make: good lists are good, and bad ones bad, in every way there is.
fn check_made_lists() -> Result<(), String> {
    let mut random = Random::new(11);
    let mut ways = BTreeMap::new();
    for _ in 0..10_000 {
        let right = right_lent(&mut random);
        expect(&format!("{right:?}"), right.good(None), true)?;
        let (wrong, way) = wrong_lent(&mut random);
        expect(&format!("{way}: {wrong:?}"), wrong.good(None), false)?;
        *ways.entry(way).or_insert(0) += 1;
    }
    expect("ways of being bad", ways.len(), BAD.len())?;
    let lists = boundary_lists();
    let good = lists.iter().filter(|lent| lent.good(None)).count();
    println!("lists: good and bad ones of every kind; {good} of {} on bounds good", lists.len());
    Ok(())
}

// ---- Refusals ----

/// 12, then 2, then the others; of asking too.
fn check_refusals() -> Result<(), String> {
    let fresh = Machine { last: 50, ..Machine::fresh(settings(100, 50, 50, 0)?) };
    let waiting = Machine { resting: Resting::S7 { key: 21, m: 40, second: 24, k: 50 }, ..fresh };
    let none = Machine { resting: Resting::S2 { key: 31, m: 50 }, ..fresh };
    let good = Lent::new(&[KA_SA], 100, 50);
    let other = Lent::new(&[pair(21, 22, 0x4e00)], 100, 50);
    let bad = Lent::new(&[KA_SA], 49, 50);
    let far = LARGEST_STAMP + 1;
    let tries = [
        (&good, waiting, (6, 0, 50), 0, 0),
        (&good, waiting, (7, 0, 50), 3, 0),
        (&good, waiting, (6, 0, far), 4, 4),
        (&good, waiting, (6, 0, 49), 5, 5),
        // A list lent later, in which the two that wait are no pair.
        (&other, waiting, (6, 0, 50), 2, 2),
        (&NO_PAIRS, waiting, (7, 0, far), 2, 2),
        (&bad, waiting, (6, 0, 50), 12, 12),
        (&bad, fresh, (7, 0, far), 12, 12),
        (&bad, none, (7, 0, far), 12, 12),
        (&good, none, (7, 0, far), 2, 2),
    ];
    for (lent, machine, (kind, key, stamp), number, asked) in tries {
        let what = format!("{kind} {key} {stamp} of {machine:?} with {lent:?}");
        let event = Event { kind, key, stamp };
        expect(&what, step_with(lent, &machine, event).err().unwrap_or(0), number)?;
        let got = machine.distance_with(lent, stamp).err().unwrap_or(0);
        expect(&format!("{what}, asked"), got, asked)?;
        let flat = Flat::of((100, 50, 50, 0), &machine);
        let wrong = Wrong::default();
        expect(&what, step_numbers_with(wrong, lent, &flat, event).number, number)?;
        expect(&what, distance_with(wrong, lent, &flat, stamp).number, asked)?;
    }
    println!("lists: 12 before 2 and all else, on an event and for asking");
    Ok(())
}

// ---- Logs ----

const CHORD: &str = "21@0 24@30 21up@60 24up@70 21@100 24@120";

/// Logs with a list in its place, in others, cut, of wrong lengths and of many pairs; with
/// the answer for room enough.
fn listed_logs() -> Result<Vec<(Vec<u8>, [u64; 4])>, String> {
    let events = keystrokes(CHORD)?;
    let raw = (100, 50, 50, 0);
    let plain = log_of(raw, &events);
    let list = Lent::new(&[KA_SA], 100, 50);
    let record = list_record(&list);
    let with = |place: usize, bytes: &[u8]| [&plain[..place], bytes, &plain[place..]].concat();
    let good = log_with(raw, Some(&list), &events);
    let body = |length: u16, bytes: &[u8]| [&[3], &length.to_be_bytes()[..], bytes].concat();
    let all = |count: usize| {
        let two = (0..KEYS).flat_map(|a| (a + 1..KEYS).map(move |b| pair(a, b, 0x4e00)));
        log_with(raw, Some(&Lent::new(&two.take(count).collect::<Vec<_>>(), 50, 50)), &events)
    };
    let damage = |place: usize, value: u8| {
        let mut log = good.clone();
        log[place] = value;
        log
    };
    // Number, words, offset, waiting.
    Ok(vec![
        (good.clone(), [0, 1, 96, 2]),
        (with(8, &list_record(&Lent::new(&[], 50, 1))), [0, 3, 92, 1]),
        (with(0, &record), [7, 0, 0, 0]),
        (with(21, &record), [7, 0, 21, 1]),
        (with(86, &record), [7, 3, 86, 1]),
        (with(8, &[&record[..], &record].concat()), [7, 0, 18, 0]),
        (good[..9].to_vec(), [6, 0, 8, 0]),
        (good[..17].to_vec(), [6, 0, 8, 0]),
        (good[..18].to_vec(), [0, 0, 18, 0]),
        (with(8, &body(0, &[])), [7, 0, 8, 0]),
        (with(8, &body(2, &[0, 100])), [7, 0, 8, 0]),
        (with(8, &body(3, &[0, 100, 50])), [0, 3, 92, 1]),
        (with(8, &body(4, &[0, 100, 50, 21])), [7, 0, 8, 0]),
        (with(8, &body(9, &[0, 100, 50, 21, 24, 0, 0, 1, 2])), [7, 0, 8, 0]),
        (with(8, &body(3, &[0, 49, 50])), [12, 0, 8, 0]),
        (with(8, &body(3, &[0, 50, 0])), [12, 0, 8, 0]),
        // T_s, N, a key, its partner, its character.
        (damage(11, 4), [12, 0, 8, 0]),
        (damage(13, 100), [12, 0, 8, 0]),
        (damage(14, 31), [12, 0, 8, 0]),
        (damage(15, 21), [12, 0, 8, 0]),
        (damage(16, 0xd8), [12, 0, 8, 0]),
        (all(64), [0, 3, 348, 1]),
        (all(65), [12, 0, 8, 0]),
        (all(100), [12, 0, 8, 0]),
    ])
}

/// The logs alone, to be cut.
pub fn list_logs() -> Result<Vec<Vec<u8>>, String> {
    Ok(listed_logs()?.into_iter().map(|(log, _)| log).collect())
}

fn check_logs() -> Result<(), String> {
    let logs = listed_logs()?;
    for (index, (log, [number, words, offset, waiting])) in logs.iter().enumerate() {
        let got = read_log(log, &mut [0; 40]);
        let right = answer(*number as u32, *words, *offset, *waiting as u32);
        expect(&format!("log {index} with a list"), got, right)?;
    }
    let chord =
        log_with((100, 50, 50, 0), Some(&Lent::new(&[KA_SA], 100, 50)), &keystrokes(CHORD)?);
    expect("the chord", play(&chord), "一\nwaiting 2\n".to_string())?;
    // Both letters of a pair that comes apart, or neither.
    let late = [&chord[..], &event_record(Event { kind: 2, key: 21, stamp: 130 })].concat();
    let late = [&late[..], &event_record(Event { kind: 6, key: 0, stamp: 140 })].concat();
    expect("one of two fits", read_log(&late, &mut [0; 2]), answer(8, 1, 109, 2))?;
    expect("both fit", read_log(&late, &mut [0; 3]), answer(0, 3, 122, 0))?;
    println!("lists: {} logs with one, in its place and elsewhere, 7 and 12", logs.len());
    Ok(())
}

// ---- As before ----

const SEQUENCES: u64 = 10_000;

/// With a list of no pairs, whatever its T_s and N, each event and each asking is answered
/// as without; so it is with pairs, where no key of a pair is pressed. And in a log.
fn check_as_before() -> Result<(), String> {
    let mut random = Random::new(13);
    for _ in 0..SEQUENCES {
        let raw = right_settings(&mut random);
        let fresh = open(raw).ok_or("settings refused")?;
        let count = random.place(30);
        let events = random_events(&mut random, &NO_PAIRS, fresh, count, true);
        let lent = right_lent(&mut random);
        let pressed = |pair: &&Pair| events.iter().any(|event| pair.has(event.key));
        let others: Vec<Pair> = lent.pairs.iter().filter(|pair| !pressed(pair)).copied().collect();
        for list in [Lent::new(&[], lent.ts, lent.n), Lent::new(&others, lent.ts, lent.n)] {
            check_same(&list, fresh, &events)?;
            let log = log_of(raw, &events);
            let listed = log_with(raw, Some(&list), &events);
            let more = (listed.len() - log.len()) as u64;
            let mut runs = [vec![0; 70], vec![0; 70]];
            let before = read_log(&log, &mut runs[0]);
            let after = read_log(&listed, &mut runs[1]);
            let right = answer(before.number, before.words, before.offset + more, before.waiting);
            expect("a log with a list of no pairs", (after, &runs[1]), (right, &runs[0]))?;
        }
    }
    println!("lists: {SEQUENCES} random sequences with no pairs, or none pressed, are as before");
    Ok(())
}

fn check_same(list: &Lent, fresh: Machine, events: &[Event]) -> Result<(), String> {
    let mut machine = fresh;
    for event in events {
        let asked = machine.distance_with(list, event.stamp);
        expect("asked as before", asked, machine.distance(event.stamp))?;
        let stepped = step_with(list, &machine, *event);
        expect("as before", &stepped, &step(&machine, *event))?;
        machine = stepped.map_or(machine, |step| step.machine);
    }
    Ok(())
}

// ---- Any state ----

const STATES: u64 = 100_000;

/// Of every well-formed state, reached or not: at most 2 items and 4 sendings; no late line
/// follows another; K's release in S8 before the deadline, with L at most N, always gives
/// the pair, and above N it gives both now and then.
fn check_states() -> Result<(), String> {
    let mut random = Random::new(14);
    let (mut by_l, mut two, mut four) = (0, 0, 0);
    for _ in 0..STATES {
        let lent = right_lent(&mut random);
        let flat = right_state(&mut random, &lent);
        let machine = flat.machine_with(&lent, Wrong::default());
        let machine = machine.map_err(|n| format!("{flat:?}: {n}"))?;
        let event = random_event(&mut random, &lent, &flat);
        let what = format!("{event:?} of {flat:?} with {lent:?}");
        let Ok(step) = step_with(&lent, &machine, event) else { continue };
        expect(&what, step.items.len() <= 2 && step.sendings.len() <= 4, true)?;
        expect(&what, machine.late_lines(&lent, event.stamp) <= 1, true)?;
        expect(&what, step.machine.well_formed_with(&lent), true)?;
        two += u64::from(step.items.len() == 2);
        four += u64::from(step.sendings.len() == 4);
        let waits = machine.distance_with(&lent, event.stamp) > Ok(Some(0));
        let up = Event { kind: 2, key: flat.second as u8, ..event };
        if flat.state == 8 && machine.held.has(up.key) && waits {
            let step = step_with(&lent, &machine, up).map_err(|n| format!("{what}: {n}"))?;
            let apart = !matches!(step.items[..], [Item::Together { .. }]);
            expect(&format!("L at most N, {what}"), apart && flat.l <= lent.n, false)?;
            by_l += u64::from(apart);
        }
    }
    expect("L decides now and then", by_l > 0, true)?;
    println!(
        "lists: {STATES} random states, at most 2 items ({two}) and 4 sendings ({four}), \
         no late line behind another; L decided {by_l} times in S8"
    );
    Ok(())
}

// ---- The longest wait ----

fn lent(ts: u16, n: u8) -> Lent {
    Lent::new(&[KA_SA, pair(24, 22, 0x4e8c)], ts, n)
}

fn check_waits() -> Result<(), String> {
    let tries = [
        // T, J, L, T_s, N, and the longest wait.
        ((50, 50, 50), (50, 50), 150),
        ((100, 50, 50), (60, 50), 220),
        ((100, 50, 50), (100, 50), 300),
        ((50, 50, 50), (1_000, 99), 50 + 1_000 + 11),
        ((1_000, 1, 1), (1_000, 1), 99_000 + 1_000 + 99_000),
        ((1_000, 99, 1), (1_000, 1), 99_000 + 9_801_000),
    ];
    for ((t, j, l), (ts, n), right) in tries {
        let s = settings(t, j, l, 0)?;
        expect("the longest wait", s.longest_wait_with(&lent(ts, n)), right)?;
        let none = Lent::new(&[], ts, n);
        expect("with no pairs", s.longest_wait_with(&none), s.longest_wait())?;
    }
    Ok(())
}

/// Settings of T, J, L and T_s, N in which the longest wait is looked for.
const SOUGHT: [((u64, u64, u64), (u16, u8)); 12] = [
    ((50, 50, 50), (50, 50)),
    ((100, 50, 50), (60, 50)),
    ((50, 50, 50), (1_000, 99)),
    ((50, 99, 99), (50, 99)),
    ((50, 99, 50), (50, 1)),
    ((50, 1, 50), (50, 99)),
    ((50, 50, 99), (50, 50)),
    ((100, 60, 70), (50, 30)),
    ((1_000, 50, 50), (50, 50)),
    ((50, 50, 50), (1_000, 50)),
    ((200, 99, 99), (200, 99)),
    ((1_000, 99, 1), (1_000, 1)),
];

/// Four events behind a press, at every stamp where a rule turns or beside it: no press is
/// due later than the longest wait says, and how near it comes.
fn check_longest() -> Result<(), String> {
    let mut near = vec![];
    for ((t, j, l), (ts, n)) in SOUGHT {
        let (s, lent) = (settings(t, j, l, 0)?, lent(ts, n));
        let longest = s.longest_wait_with(&lent);
        let found = longest_found(s, &lent).max(longest_found(settings(t, j, l, 1)?, &lent));
        let what = format!("T={t} J={j} L={l} T_s={ts} N={n}");
        expect(&format!("{what}, {found} within {longest}"), found <= longest, true)?;
        near.push(format!("{found} of {longest}"));
    }
    println!("longest wait: found {}", near.join(", "));
    Ok(())
}

/// From the press of a waiting letter to the deadline, the longest that was found.
fn longest_found(s: Settings, lent: &Lent) -> u64 {
    let mut longest = 0;
    search(lent, Machine::fresh(s), &[], 5, &mut longest);
    longest
}

/// All events at all stamps to try, so many deep. `presses` are those of the letters that
/// wait, first pressed first.
fn search(lent: &Lent, machine: Machine, presses: &[u64], depth: u64, longest: &mut u64) {
    if let (Some(deadline), Some(press)) = (due(lent, &machine), presses.first()) {
        *longest = (*longest).max(deadline - press);
    }
    if depth == 0 {
        return;
    }
    for stamp in stamps_to_try(lent, &machine) {
        for (kind, key) in EVENTS {
            let Ok(step) = step_with(lent, &machine, Event { kind, key, stamp }) else { continue };
            // What changes nothing, and what leaves nothing, leads no further.
            if step.machine.resting == machine.resting || step.machine.resting == Resting::S1 {
                continue;
            }
            let new = kind == 1 && !machine.held.has(key);
            let all: Vec<u64> = presses.iter().copied().chain(new.then_some(stamp)).collect();
            let left = step.machine.waiting().count();
            search(lent, step.machine, &all[all.len() - left..], depth - 1, longest);
        }
    }
}

/// か, さ and た, and both thumbs.
const EVENTS: [(u8, u8); 9] =
    [(1, 21), (1, 24), (1, 22), (2, 21), (2, 24), (3, 0), (3, 1), (4, 0), (4, 1)];

/// At once, just before the deadline, and around equal gaps and the share of N.
fn stamps_to_try(lent: &Lent, machine: &Machine) -> Vec<u64> {
    let last = machine.last;
    // A thumb that has no deadline may be held for long.
    let Some(due) = due(lent, machine) else {
        return vec![last, last + machine.settings.b(), last + 2 * machine.settings.b()];
    };
    let (n, l) = (u64::from(lent.n), u64::from(machine.settings.numbers().2));
    let turn = match machine.resting {
        Resting::S4 { m, o, .. } => o + (o - m),
        Resting::S5 { m, o, .. } => m + (m - o),
        Resting::S7 { m, k, .. } => k + (n * (k - m)).div_ceil(100 - n),
        Resting::S8 { k, r, .. } => k + (100 * (r - k)).div_ceil(l),
        _ => last + (due - last.min(due)) / 2,
    };
    let mut stamps =
        [last, turn.saturating_sub(1), turn, due.saturating_sub(2), due.saturating_sub(1)]
            .map(|stamp| stamp.clamp(last, due.saturating_sub(1).max(last)))
            .to_vec();
    stamps.sort_unstable();
    stamps.dedup();
    stamps
}
