//! Request 12/12 tried on the model: 01's log damaged in a few ways, and of every damage what
//! the request promises: what is written is accepted by the reader, a log that the reader
//! accepts comes out the same, mending again changes nothing; and what is dropped is what the
//! reader refuses there, with that number.

use trabeculon_model::damage::{every_damage, random_mend, Mend};
use trabeculon_model::log::{list_record, log_of, read_log, Answer};
use trabeculon_model::mend::{mend, mend_into, Dropped, MendAnswer, Mended, MOST_LISTED};
use trabeculon_model::pairs::{pair, Lent};
use trabeculon_model::random::Random;
use trabeculon_model::tally::Tally;

use crate::{expect, keystrokes, SAIGAI};

pub fn check_all() -> Result<(), String> {
    check_worked()?;
    check_lists()?;
    let (mut logs, mut drops, mut refused) = (Tally::default(), Tally::default(), Tally::default());
    let mut check = |case: Mend| {
        let mended = mend(&case.log);
        match &mended {
            Ok(mended) => {
                logs.add(how_many(mended.dropped.len()));
                mended.dropped.iter().for_each(|dropped| drops.add(u64::from(dropped.number)));
            }
            Err(dropped) => refused.add(format!("{} at {}", dropped.number, dropped.offset)),
        }
        check_case(&case, &mended).map_err(|what| format!("{what}\nlog {:02x?}", case.log))
    };
    let mut index = 0;
    every_damage(|case| {
        index += 1;
        // Of all values in all bytes one in three.
        if index % 3 == 0 {
            check(case)
        } else {
            Ok(())
        }
    })?;
    let mut random = Random::new(12);
    (0..RANDOM).try_for_each(|_| check(random_mend(&mut random)))?;
    logs.complete(&["none", "one", "two", "up-to-1000", "1000", "1001", "more"], u64::MAX)?;
    drops.complete(&[3, 4, 5, 6, 7, 11, 12], u64::MAX)?;
    let all = ["1 at 0", "6 at 0", "7 at 0", "6 at 8", "7 at 8", "12 at 8"].map(String::from);
    refused.complete(&all, u64::MAX)?;
    println!("mend: logs by how many are dropped{}", logs.times());
    println!("mend: dropped records by number{}; logs refused{}", drops.times(), refused.times());
    Ok(())
}

const RANDOM: u64 = 30_000;

fn how_many(dropped: usize) -> &'static str {
    match dropped {
        0 => "none",
        1 => "one",
        2 => "two",
        3..MOST_LISTED => "up-to-1000",
        MOST_LISTED => "1000",
        1_001 => "1001",
        _ => "more",
    }
}

// ---- Worked ----

fn check_worked() -> Result<(), String> {
    let log = log_of((100, 50, 50, 0), &keystrokes(SAIGAI)?);
    let with = |place: usize, value: u8| {
        let mut log = log.clone();
        log[place] = value;
        log
    };
    let dropped = |log: &[u8]| mend(log).map(|mended| (mended.log.len(), mended.dropped));
    let one = |length, offset, number| Ok((length, vec![Dropped { offset, number }]));
    let refused = |offset, number| Err(Dropped { offset, number });
    expect("as it is", dropped(&log), Ok((138, vec![])))?;
    expect("a kind", dropped(&with(76, 0)), one(125, 73, 3))?;
    expect("a tag", dropped(&with(73, 9)), one(125, 73, 7))?;
    expect("settings again", dropped(&with(73, 1)), one(125, 73, 7))?;
    expect("a list later", dropped(&with(73, 3)), one(125, 73, 7))?;
    // A far stamp makes all behind it drop with 5.
    let far = Dropped { offset: 86, number: 5 };
    let all = (4..8).map(|index| Dropped { offset: 34 + 13 * index, ..far });
    expect("a far stamp", dropped(&with(82, 1)), Ok((86, all.collect())))?;
    // A length that swallows the next record, and one that goes past the end.
    expect("a length of 23", dropped(&with(75, 23)), one(112, 73, 7))?;
    expect("a length past the end", dropped(&with(74, 1)), one(73, 73, 6))?;
    expect("a cut tail", dropped(&log[..137]), one(125, 125, 6))?;
    expect("a cut header", dropped(&log[..126]), one(125, 125, 6))?;
    expect("settings out of range", dropped(&with(5, 0)), refused(0, 1))?;
    expect("no settings", dropped(&log[8..]), refused(0, 7))?;
    expect("empty", dropped(&[]), refused(0, 6))?;
    expect("settings cut", dropped(&log[..7]), refused(0, 6))?;
    // The words of what is mended are no matter of the mender's.
    let mut out = [0xee; 126];
    let (answer, listed) = mend_into(&with(76, 0), &mut out);
    expect("into a run", answer, MendAnswer { number: 0, offset: 138, bytes: 125, dropped: 1 })?;
    expect("its list", listed, vec![Dropped { offset: 73, number: 3 }])?;
    expect("its bytes", out[..] == [&log[..73], &log[86..], &[0xee]].concat(), true)?;
    let mut out = [0xee; 124];
    let (answer, listed) = mend_into(&with(76, 0), &mut out);
    let eight = MendAnswer { number: 8, offset: 138, ..MendAnswer::default() };
    expect("no room", (answer, listed, out), (eight, vec![], [0xee; 124]))?;
    println!("mend: 01's log, damaged in 14 ways");
    Ok(())
}

fn check_lists() -> Result<(), String> {
    let log = log_of((100, 50, 50, 0), &keystrokes("21@0 24@30 21up@70")?);
    let good = list_record(&Lent::new(&[pair(21, 24, 0x304c)], 100, 50));
    let bad = list_record(&Lent::new(&[pair(21, 21, 0x304c)], 100, 50));
    let behind = |parts: &[&[u8]]| mend(&[&log[..8], &parts.concat(), &log[8..]].concat());
    let length = log.len();
    let listed = |mended: Result<Mended, Dropped>| mended.map(|m| (m.log.len(), m.dropped));
    let nine = [9, 0, 0];
    let of = |offset, number| Dropped { offset, number };
    expect("a good list", listed(behind(&[&good])), Ok((length + 10, vec![])))?;
    expect("a bad list", listed(behind(&[&bad])), Err(of(8, 12)))?;
    expect("an odd list", listed(behind(&[&[3, 0, 1, 7]])), Err(of(8, 7)))?;
    expect("a cut list", listed(mend(&[&log[..8], &good[..9]].concat())), Err(of(8, 6)))?;
    expect("a lone 3", listed(mend(&[&log[..8], &[3]].concat())), Err(of(8, 6)))?;
    let third = (length + 10, vec![of(8, 7)]);
    expect("a good list third", listed(behind(&[&nine, &good])), Ok(third))?;
    let third = (length, vec![of(8, 7), of(11, 12)]);
    expect("a bad list third", listed(behind(&[&nine, &bad])), Ok(third))?;
    let third = vec![of(8, 7), of(11, 6)];
    let cut = mend(&[&log[..8], &nine, &[3]].concat());
    expect("a lone 3 third", listed(cut), Ok((8, third)))?;
    let twice = (length + 10, vec![of(18, 7)]);
    expect("a list twice", listed(behind(&[&good, &good])), Ok(twice))
}

// ---- Every damage ----

/// The reader with room enough.
fn read(log: &[u8]) -> Answer {
    read_log(log, &mut vec![0; log.len() / 5])
}

fn check_case(case: &Mend, mended: &Result<Mended, Dropped>) -> Result<(), String> {
    let log = &case.log;
    let reader = read(log);
    check_room(case, mended)?;
    let mended = match mended {
        Ok(mended) => mended,
        Err(refused) => {
            let said = (reader.number, reader.offset as usize);
            expect("refused as by the reader", (refused.number, refused.offset), said)?;
            let right = refused.offset == 0 || refused.offset == 8 && log[8] == 3;
            return expect("refused where it may be", right, true);
        }
    };
    let again = read(&mended.log);
    expect("accepted", (again.number, again.offset), (0, mended.log.len() as u64))?;
    let untouched = Mended { log: mended.log.clone(), dropped: vec![] };
    expect("mended again", mend(&mended.log).as_ref(), Ok(&untouched))?;
    let first = mended.dropped.first().map_or((0, log.len()), |d| (d.number, d.offset));
    expect("the first is the reader's", first, (reader.number, reader.offset as usize))?;
    check_dropped(log, mended)
}

/// What is dropped lies between what is copied, and the reader refuses it there.
fn check_dropped(log: &[u8], mended: &Mended) -> Result<(), String> {
    let mut copied = vec![];
    let mut from = 0;
    let few = mended.dropped.len() <= 20;
    for Dropped { offset, number } in &mended.dropped {
        copied.extend(&log[from..*offset]);
        let length =
            log.get(offset + 1..offset + 3).map(|l| 256 * usize::from(l[0]) + usize::from(l[1]));
        from = length.map_or(log.len(), |length| (offset + 3 + length).min(log.len()));
        if few {
            let at = copied.len();
            let there = read(&[&copied[..], &log[*offset..from]].concat());
            expect("refused there", (there.number, there.offset), (*number, at as u64))?;
        }
    }
    copied.extend(&log[from..]);
    expect("the others are copied", copied == mended.log, true)
}

/// 8 exactly when what is mended does not fit; nothing is written beside a refusal.
fn check_room(case: &Mend, mended: &Result<Mended, Dropped>) -> Result<(), String> {
    let mut out = vec![0xee; case.room];
    let (answer, listed) = mend_into(&case.log, &mut out);
    let nothing = || (vec![0xee; case.room], vec![]);
    let length = case.log.len() as u64;
    let (right, (bytes, list)) = match mended {
        Err(Dropped { offset, number }) => {
            let offset = *offset as u64;
            (MendAnswer { number: *number, offset, ..MendAnswer::default() }, nothing())
        }
        Ok(mended) if mended.log.len() > case.room => {
            (MendAnswer { number: 8, offset: length, ..MendAnswer::default() }, nothing())
        }
        Ok(mended) => {
            let mut bytes = mended.log.clone();
            bytes.resize(case.room, 0xee);
            let (written, dropped) = (mended.log.len() as u64, mended.dropped.len() as u64);
            let answer = MendAnswer { number: 0, offset: length, bytes: written, dropped };
            (answer, (bytes, mended.listed().to_vec()))
        }
    };
    expect("answer", answer, right)?;
    expect("list", listed == list, true)?;
    expect("run", out == bytes, true)
}
