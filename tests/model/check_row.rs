//! Request 10/12 tried on the model: the worked examples typed at once at keyboards of one
//! row, refusal 13 before 12 and the rest, and keyboards that are kept apart; and of the
//! console's log, what is printed of a few, and that each keyboard's line is the reader's
//! of that keyboard's own log.

use trabeculon_model::console::{console, keyboard_record, read_console, Console, CONSOLE_BUFFER};
use trabeculon_model::consoles::{every_console, long_consoles, random_console};
use trabeculon_model::lists::right_lent;
use trabeculon_model::live::{step_numbers_with, Asked, Flat, Wrong};
use trabeculon_model::log::{event_record, list_record, read_log, settings_record, Answer};
use trabeculon_model::model::{sign, Event, Machine};
use trabeculon_model::notation::{sendings_text, sign_text};
use trabeculon_model::pairs::{pair, Lent, NO_PAIRS};
use trabeculon_model::random::Random;
use trabeculon_model::row::{row_distance, row_step, Board, Row, Told, MOST_KEYBOARDS};
use trabeculon_model::rows::Desk;
use trabeculon_model::states::USUAL;
use trabeculon_model::tally::Tally;

use crate::worked::EXAMPLES;
use crate::{expect, keystrokes, settings, SAIGAI};

pub fn check_all() -> Result<(), String> {
    check_examples()?;
    check_refusals()?;
    check_apart()?;
    check_printed()?;
    check_own_logs()
}

// ---- The row ----

/// The worked examples that share a list, up to 16 of them at once: each keyboard's next
/// line after the other's.
fn check_examples() -> Result<(), String> {
    let mut rows = 0;
    for first in &EXAMPLES {
        let lent = first.lent();
        let sharing = EXAMPLES.iter().filter(|example| example.lent() == lent);
        let sharing: Vec<_> = sharing.take(MOST_KEYBOARDS).collect();
        let states = sharing.iter().map(|example| {
            let (t, j, l, solo) = example.settings;
            settings(t, j, l, solo).map(Machine::fresh)
        });
        let states = states.collect::<Result<Vec<_>, String>>()?;
        let mut row = Row { states, lent };
        let longest = sharing.iter().map(|example| example.lines.len()).max().unwrap_or(0);
        for turn in 0..longest {
            for (board, example) in sharing.iter().enumerate() {
                let Some((keystroke, committed, sent, _)) = example.lines.get(turn) else {
                    continue;
                };
                for event in keystrokes(keystroke)? {
                    let step = row.step(board as Board, event);
                    let step = step.map_err(|n| format!("{keystroke}: refused {n}"))?;
                    let signs = step.items.iter().filter_map(sign);
                    let line: String = signs.map(|s| sign_text(&s)).collect();
                    let got = (line.as_str(), sendings_text(&step.sendings));
                    expect(
                        &format!("{}, in a row", example.name),
                        got,
                        (committed, sent.to_string()),
                    )?;
                }
            }
        }
        rows += 1;
    }
    println!("row: the examples, typed at once, in {rows} rows");
    Ok(())
}

fn check_refusals() -> Result<(), String> {
    let bad = Lent::new(&[], 49, 50);
    let event = Event { kind: 1, key: 21, stamp: 1_000 };
    let none = Flat::default();
    let cases: [(&str, usize, Board, &Lent, u32); 9] = [
        ("an empty row", 0, 0, &NO_PAIRS, 13),
        ("an empty row, a bad list", 0, 0, &bad, 13),
        ("the last of 16", 16, 15, &NO_PAIRS, 0),
        ("past 16", 16, 16, &NO_PAIRS, 13),
        ("a row of 17", 17, 0, &NO_PAIRS, 13),
        ("a row of 17, a bad list", 17, 3, &bad, 13),
        ("past the row", 3, 3, &bad, 13),
        ("past the row by 256", 3, 256, &NO_PAIRS, 13),
        ("a bad list", 3, 2, &bad, 12),
    ];
    for (what, length, board, lent, number) in cases {
        let mut row = vec![USUAL; length];
        let before = row.clone();
        let asked = row_distance(None, lent, &mut row, board, event.stamp);
        expect(&format!("{what}, asked"), asked.number, number)?;
        expect(&format!("{what}, asked: the row"), &row, &before)?;
        let told = row_step(None, lent, &mut row, board, event);
        expect(what, told.number, number)?;
        expect(&format!("{what}: the row stays"), row == before, number != 0)?;
    }
    // A keyboard that is not open is refused 2; the others go on, each by its own clock.
    let mut row = [USUAL, none, USUAL];
    let mut at =
        |board, stamp| row_step(None, &NO_PAIRS, &mut row, board, Event { stamp, ..event });
    let numbers = [at(1, 5_000), at(2, 9_000), at(0, 1_000), at(2, 8_999)].map(|told| told.number);
    expect("each its own clock", numbers, [2, 0, 0, 5])?;
    let asked = row_distance(None, &NO_PAIRS, &mut row, 0, 1_000);
    expect("asked in a row", asked, Asked { number: 0, deadline: 1, milliseconds: 100 })
}

const DESKS: u64 = 2_000;

/// An event does to its keyboard what it does to that alone, and leaves the others.
fn check_apart() -> Result<(), String> {
    let mut random = Random::new(10);
    let mut events = 0;
    for _ in 0..DESKS {
        let lent = right_lent(&mut random);
        let desk = Desk::random(&mut random, lent);
        let mut row = desk.row.clone();
        for _ in 0..60 {
            let (board, event) = desk.next(&mut random, &row);
            let before = row.clone();
            let told = row_step(None, &desk.lent, &mut row, board, event);
            let mut right = before.clone();
            let place = board as usize;
            let number = if place < right.len() {
                let alone = step_numbers_with(Wrong::default(), &desk.lent, &before[place], event);
                right[place] = alone.machine;
                expect("as alone", told, Told::of(&alone))?;
                alone.number
            } else {
                13
            };
            expect("the number", told.number, number)?;
            expect("the row", &row, &right)?;
            events += 1;
        }
    }
    println!("row: {events} events at {DESKS} desks, each keyboard as if it were alone");
    Ok(())
}

// ---- The console's log ----

fn record(board: u8, text: &str) -> Result<Vec<u8>, String> {
    let events = keystrokes(text)?;
    Ok(events.into_iter().flat_map(|e| keyboard_record(board, &event_record(e))).collect())
}

fn check_printed() -> Result<(), String> {
    let settings = |board| keyboard_record(board, &settings_record(100, 50, 50, board % 2));
    expect("length of settings", settings(0).len(), 12)?;
    expect("length of an event", record(0, "21@0")?.len(), 17)?;
    let both = [
        settings(15),
        settings(0),
        record(0, "24@0 24up@60 18@100")?,
        record(15, "R@900000 21@900040 Rup@900060")?,
        record(0, "18up@150 21@200 R@230 21up@270 Rup@280 18@300 tick@400")?,
        record(15, "tick@900080 24@900090")?,
    ]
    .concat();
    let two = "0: さいがい\n0: waiting 0\n15: <R>か\n15: waiting 1\n";
    expect("two keyboards", console(&both).as_str(), two)?;
    // Keyboard 15's stamps go back, and its later records are passed over.
    let refused =
        [&both[..], &record(15, "24up@5 24up@900100")?, &record(0, "21@500 F@510")?].concat();
    let right =
        format!("0: さいがいか\n0: waiting 0\n15: <R>か\n15: refused 5 at {}\n", both.len());
    expect("one refused", console(&refused), right)?;
    let list = list_record(&Lent::new(&[pair(21, 24, 0x304c)], 100, 50));
    let pairs = [&list[..], &settings(3), &record(3, "21@0 24@10 24up@20")?].concat();
    expect("a list in front", console(&pairs).as_str(), "3: が\n3: waiting 0\n")?;
    let behind = [&settings(3)[..], &list].concat();
    expect("a list behind", console(&behind).as_str(), "3: \n3: waiting 0\nrefused 7 at 12\n")?;
    let inside = [&settings(3)[..], &keyboard_record(3, &list)].concat();
    expect("a list inside", console(&inside).as_str(), "3: \n3: refused 7 at 12\n")?;
    expect("an empty log", console(&[]).as_str(), "refused 6 at 0\n")?;
    expect("a list alone", console(&list).as_str(), "")?;
    expect("a bad list", console(&[3, 0, 3, 0, 49, 50]).as_str(), "refused 12 at 0\n")?;
    expect("a list of 4 bytes", console(&[3, 0, 4, 0, 50, 50, 0]).as_str(), "refused 7 at 0\n")?;
    expect("no keyboard", console(&[4, 0, 0]).as_str(), "refused 7 at 0\n")?;
    expect("keyboard 16", console(&settings(16)).as_str(), "refused 13 at 0\n")?;
    expect(
        "a bare record",
        console(&settings_record(100, 50, 50, 0)).as_str(),
        "refused 7 at 0\n",
    )?;
    expect("an event first", console(&record(9, "21@0")?).as_str(), "9: \n9: refused 7 at 0\n")?;
    let mut cut = both.clone();
    cut.pop();
    let at = both.len() - 17;
    let right = format!("0: さいがい\n0: waiting 0\n15: <R>か\n15: waiting 0\nrefused 6 at {at}\n");
    expect("a cut log", console(&cut), right)?;
    let [shorter, full, longer, ..] = &long_consoles(&mut Random::new(10))[..] else {
        return Err("no long logs".to_string());
    };
    expect("the buffer's length", full.len(), CONSOLE_BUFFER)?;
    expect("a full buffer", read_console(full).refused, None)?;
    let cut = read_console(shorter).refused.map(|refused| refused.number);
    expect("a byte less", cut, Some(6))?;
    let right = format!("refused 9 at {CONSOLE_BUFFER}\n");
    expect("a byte more", console(longer), right)?;
    let alone = [&settings(0)[..], &record(0, SAIGAI)?].concat();
    expect("01's log", console(&alone).as_str(), "0: さいがい\n0: waiting 0\n")?;
    println!("console: logs of two keyboards, refusals of one and of all, lists, a full buffer");
    Ok(())
}

const CONSOLES: u64 = 10_000;

fn check_own_logs() -> Result<(), String> {
    let mut random = Random::new(11);
    let (mut of_lines, mut of_logs) = (Tally::default(), Tally::default());
    let mut check = |log: &[u8]| {
        let console = read_console(log);
        of_logs.add(console.refused.map_or(0, |refused| u64::from(refused.number)));
        for (board, line) in console.lines.iter().enumerate().filter(|(_, line)| line.named()) {
            of_lines.add(line.refused.map_or(0, |refused| u64::from(refused.number)));
            check_own_log(log, &console, board)?;
        }
        Ok::<_, String>(())
    };
    every_console(&mut check)?;
    (0..CONSOLES).try_for_each(|_| check(&random_console(&mut random)))?;
    of_lines.complete(&[0, 1, 3, 4, 5, 7, 11], u64::MAX)?;
    of_logs.complete(&[0, 6, 7, 12, 13], u64::MAX)?;
    println!("console: lines as the reader's; numbers of lines{}", of_lines.times());
    println!("console: numbers of logs{}", of_logs.times());
    Ok(())
}

/// Keyboard k's own log is its settings record, the list's record if there is one, then its
/// event records, up to where the whole log ends; of it the reader says what the console's
/// line says.
fn check_own_log(log: &[u8], console: &Console, board: usize) -> Result<(), String> {
    let line = &console.lines[board];
    let (records, list) = own_records(log, console, board);
    // Up to a record inside that is not whole, or of a tag that a keyboard's log has not.
    let odd = |inner: &[u8]| inner.len() < 3 || !is_whole(inner) || ![1, 2].contains(&inner[0]);
    let first_odd = records.iter().position(|(_, inner)| odd(inner));
    let whole = &records[..first_odd.unwrap_or(records.len())];
    let mut own = vec![];
    let mut offsets = vec![];
    for (index, (offset, inner)) in whole.iter().enumerate() {
        offsets.push((own.len() as u64, *offset));
        own.extend(*inner);
        if index == 0 {
            own.extend(list);
        }
    }
    let mut run = vec![0; own.len()];
    let read = read_log(&own, &mut run);
    let words = &run[..read.words as usize];
    let got = line.refused.map(|refused| (refused.number, refused.offset));
    let right = match (read, first_odd) {
        // No record at all, or all accepted.
        (Answer { number: 6, .. }, Some(odd)) if own.is_empty() => Some((7, records[odd].0)),
        (Answer { number: 0, .. }, Some(odd)) => Some((7, records[odd].0)),
        (Answer { number: 0, .. }, None) => None,
        (Answer { number, offset, .. }, _) => {
            let of = offsets.iter().find(|(own, _)| *own == offset);
            Some((number, of.ok_or("no such record")?.1))
        }
    };
    let waiting = read.waiting;
    expect("line", (&line.words[..], got, line.waiting()), (words, right, waiting))
        .map_err(|what| format!("keyboard {board} of {log:?}: {what}"))
}

fn is_whole(inner: &[u8]) -> bool {
    3 + usize::from(inner[1]) * 256 + usize::from(inner[2]) == inner.len()
}

/// The records inside, with the offsets of those that they stand in; and the list in front.
fn own_records<'a>(
    log: &'a [u8],
    console: &Console,
    board: usize,
) -> (Vec<(usize, &'a [u8])>, &'a [u8]) {
    let end = console.refused.map_or(log.len(), |refused| refused.offset);
    let (mut records, mut list) = (vec![], &log[..0]);
    let mut offset = 0;
    while offset < end {
        let length = 3 + usize::from(log[offset + 1]) * 256 + usize::from(log[offset + 2]);
        match log[offset] {
            3 => list = &log[..length],
            _ if usize::from(log[offset + 3]) == board => {
                records.push((offset, &log[offset + 4..offset + length]));
            }
            _ => (),
        }
        offset += length;
    }
    (records, list)
}
