//! Request 5/12 tried on the model: however a worked log is cut, its pieces say what
//! the whole log says; and every sentence of the request by an example.

use trabeculon_model::live::{at, Flat};
use trabeculon_model::log::{log_of, log_with, read_log, Answer, Before, RawSettings};
use trabeculon_model::pairs::NO_PAIRS;
use trabeculon_model::pieces::{
    end_numbers, fresh_numbers, piece_numbers, FlatReader, Kept, Reader, Wrong, LONGEST_LOG,
};
use trabeculon_model::random::Random;
use trabeculon_model::readers::{random_call, random_cut};
use trabeculon_model::states::bit;

use crate::check_held::SEVENTH;
use crate::check_pairs;
use crate::worked::EXAMPLES;
use crate::{answer, expect, keystrokes, SAIGAI};

const RIGHT: Wrong = Wrong { machine: None, pieces: None };

pub fn check_all() -> Result<(), String> {
    check_cuts()?;
    check_sentences()?;
    check_limit()?;
    check_numbers()?;
    check_readers()
}

// ---- However a log is cut ----

/// Every worked log; 01's own also cut short and damaged; one with a seventh finger.
fn worked_logs() -> Result<Vec<Vec<u8>>, String> {
    let mut logs = vec![vec![], vec![9, 255, 255], vec![9, 0, 0]];
    let usual: RawSettings = (100, 50, 50, 0);
    logs.push(log_of(usual, &keystrokes(SAIGAI)?));
    logs.push(log_of(usual, &keystrokes(SEVENTH)?));
    for example in &EXAMPLES {
        let text: String = example.lines.iter().map(|line| format!("{} ", line.0)).collect();
        let lent = Some(example.lent()).filter(|lent| *lent != NO_PAIRS);
        logs.push(log_with(example.raw_settings(), lent.as_ref(), &keystrokes(&text)?));
    }
    logs.extend(check_pairs::list_logs()?);
    // Settings out of range, met again and missing; tag, length, kind, stamp.
    let damages = [(5, 0), (8, 1), (0, 2), (8, 9), (10, 9), (10, 11), (9, 255), (11, 7), (13, 1)];
    let whole = logs[3].clone();
    for (place, value) in damages {
        let mut log = whole.clone();
        log[place] = value;
        logs.push(log);
    }
    logs.extend((1..40).map(|cut| whole[..cut].to_vec()));
    Ok(logs)
}

fn check_cuts() -> Result<(), String> {
    let mut random = Random::new(7);
    let logs = worked_logs()?;
    let mut cuts = 0;
    for log in &logs {
        let length = log.len();
        let two = (0..=length).map(|cut| vec![cut, length - cut]);
        let bytes = [vec![1; length], [0, 1].repeat(length)];
        let any: Vec<_> = (0..20).map(|_| random_cut(&mut random, length)).collect();
        for pieces in two.chain(bytes).chain(any) {
            check_cut(log, &pieces).map_err(|what| format!("{log:?} in {pieces:?}: {what}"))?;
            cuts += 1;
        }
    }
    println!("pieces: {} worked logs in {cuts} cuts say what the whole ones say", logs.len());
    Ok(())
}

/// After each piece what the whole beginning says, but for 6; at the end all of it.
fn check_cut(log: &[u8], pieces: &[usize]) -> Result<(), String> {
    let mut reader = Reader::fresh();
    let mut line = vec![];
    let mut came = 0;
    for length in pieces {
        let before = reader.words;
        let mut run = vec![0; 40 + length / 5];
        let got = reader.piece(RIGHT, &log[came..came + length], &mut run);
        came += length;
        line.extend(&run[..(got.words - before) as usize]);
        let (mut right, words) = whole(&log[..came]);
        if right.number == 6 {
            right = Answer { number: 0, offset: came as u64, ..right };
        }
        expect("a piece", (got, &line), (right, &words))?;
    }
    let (right, words) = whole(log);
    expect("the end", (reader.end(RIGHT), &line), (right, &words))?;
    expect("a piece after the end", reader.piece(RIGHT, log, &mut [0; 40]), right)?;
    expect("the end once more", reader.end(RIGHT), right)
}

fn whole(log: &[u8]) -> (Answer, Vec<u16>) {
    let mut run = vec![0; log.len()];
    let answer = read_log(log, &mut run);
    run.truncate(answer.words as usize);
    (answer, run)
}

// ---- The request's sentences ----

/// Gives pieces with these rooms and says the end (none); the answers in order.
fn answers(calls: &[Option<(&[u8], usize)>]) -> Vec<Answer> {
    let mut reader = Reader::fresh();
    let call = |call: &Option<(&[u8], usize)>| match call {
        Some((piece, room)) => reader.piece(RIGHT, piece, &mut vec![0; *room]),
        None => reader.end(RIGHT),
    };
    calls.iter().map(call).collect()
}

fn check_sentences() -> Result<(), String> {
    let log = log_of((100, 50, 50, 0), &keystrokes(SAIGAI)?);
    let (start, middle, rest) = (&log[..30], &log[30..80], &log[80..]);
    let never_ends = [Some((&[9, 255][..], 0)), Some((&[255], 0)), Some((&[], 0)), None];
    let right = [answer(0, 0, 2, 0), answer(0, 0, 3, 0), answer(0, 0, 3, 0), answer(6, 0, 0, 0)];
    expect("a wrong tag, and the end", &answers(&never_ends)[..], &right)?;
    let ends = [Some((&[9, 0][..], 0)), Some((&[0], 0)), None];
    let right = [answer(0, 0, 2, 0), answer(7, 0, 0, 0), answer(7, 0, 0, 0)];
    expect("a record of length 0", &answers(&ends)[..], &right)?;
    let empty = [None, Some((&log[..], 9)), None];
    expect("the end of nothing", &answers(&empty)[..], &[answer(6, 0, 0, 0); 3])?;
    // Two words by 60 bytes; the third comes with the record at 86.
    let runs = [Some((start, 0)), Some((middle, 2)), Some((rest, 2)), None, Some((rest, 9))];
    let all = [answer(0, 0, 30, 1), answer(0, 2, 80, 1)];
    let good = [all[0], all[1], answer(0, 4, 138, 0), answer(0, 4, 138, 0), answer(0, 4, 138, 0)];
    expect("each its own run", &answers(&runs)[..], &good)?;
    let runs = [Some((start, 0)), Some((middle, 3)), Some((rest, 1)), None, Some((rest, 9))];
    let short = answer(8, 3, 125, 1);
    expect("a run too short", &answers(&runs)[..], &[all[0], all[1], short, short, short])?;
    println!("pieces: 6 only at the end, 7 with the last byte, each run by itself, for good");
    Ok(())
}

/// A log of exactly the longest length is read; a piece that goes past it is not.
fn check_limit() -> Result<(), String> {
    let log = log_of((100, 50, 50, 0), &keystrokes("21@0 21up@50")?);
    let at = |left: u64| {
        let mut reader = Reader::fresh();
        reader.piece(RIGHT, &log[..26], &mut []);
        let before = Before { offset: LONGEST_LOG - left - 5, ..reader.before };
        Reader { before, ..reader }
    };
    let limit = LONGEST_LOG;
    let mut full = at(8);
    expect("up to the limit", full.piece(RIGHT, &log[26..], &mut [0]), answer(0, 1, limit, 0))?;
    expect("nothing more", full.piece(RIGHT, &[], &mut []), answer(0, 1, limit, 0))?;
    expect("a byte more", full.piece(RIGHT, &[2], &mut []), answer(9, 1, limit, 0))?;
    expect("then the end", full.end(RIGHT), answer(9, 1, limit, 0))?;
    let mut over = at(7);
    expect("unread", over.piece(RIGHT, &log[26..], &mut [0]), answer(9, 0, limit, 1))?;
    expect("for good", over.piece(RIGHT, &[], &mut [0]), answer(9, 0, limit, 1))?;
    println!("pieces: 9 from one byte past {limit} on, the piece unread");
    Ok(())
}

// ---- The reader as numbers ----

fn check_numbers() -> Result<(), String> {
    let fresh = fresh_numbers();
    expect("fresh", fresh, FlatReader::default())?;
    let log = log_of((100, 50, 50, 0), &keystrokes("21@7 21up@50")?);
    let opened = Flat { t: 100, j: 50, l: 50, state: 1, ..Flat::default() };
    let waiting = Flat { state: 2, key: 21, m: at(7), last: at(7), held: bit(21), ..opened };
    let ended = Flat { last: at(50), ..opened };
    let begun = FlatReader { machine: waiting, offset: 21, ts: 50, n: 1, ..fresh };
    let after = [
        (0, fresh),
        (1, FlatReader { count: 1, header: 1, ..fresh }),
        (3, FlatReader { count: 3, header: 0x01_0005, ..fresh }),
        (4, FlatReader { count: 4, header: 0x01_0005, ..fresh }),
        (5, FlatReader { count: 5, header: 0x01_0005, front: 100, ..fresh }),
        (7, FlatReader { count: 7, header: 0x01_0005, front: 100, tail: 0x3232, ..fresh }),
        (8, FlatReader { machine: opened, offset: 8, opened: 1, ..fresh }),
        (21, begun),
        (26, FlatReader { count: 5, header: 0x02_000a, front: 0x0215, ..begun }),
        (33, FlatReader { count: 12, header: 0x02_000a, front: 0x0215, ..begun }),
        (34, FlatReader { machine: ended, offset: 34, words: 1, ..begun }),
    ];
    for (length, right) in after {
        let mut kept = Kept::from(fresh);
        piece_numbers(RIGHT, &mut kept, &log[..length], &mut [0; 9]);
        expect(&format!("after {length} bytes"), kept, right.into())?;
    }
    let bytes = [0x02, 0, 10, 1, 21, 0, 0, 0, 0, 0, 0, 1, 2];
    let long = [&[9, 0, 14][..], &bytes].concat();
    let mut kept = Kept::from(fresh);
    piece_numbers(RIGHT, &mut kept, &long, &mut []);
    let right = FlatReader { count: 16, header: 0x09_000e, front: 0x0200, ..fresh };
    expect("13 bytes are kept", kept.reader, FlatReader { tail: 0x0a01_1500_0000_0000, ..right })?;
    let told = Kept::from(FlatReader { told: 1, number: 6, ..begun });
    let mut kept = told;
    let got = piece_numbers(RIGHT, &mut kept, &log, &mut [0; 9]);
    expect("told", (kept, got), (told, answer(6, 0, 21, 1)))?;
    println!("pieces: the reader as numbers byte by byte");
    Ok(())
}

const READERS: u64 = 50_000;

/// Random readers, well formed or not: whatever a call hands back is well formed if
/// what it was given was, and else is what it was given.
fn check_readers() -> Result<(), String> {
    let mut random = Random::new(8);
    let mut refused = 0;
    for _ in 0..READERS {
        let call = random_call(&mut random);
        let formed = call.kept.reader(RIGHT).is_some();
        let (mut pieced, mut ended) = (call.kept, call.kept);
        let piece = piece_numbers(RIGHT, &mut pieced, &call.piece, &mut vec![0; call.room]);
        let end = end_numbers(RIGHT, &mut ended);
        for (kept, got) in [(pieced, piece), (ended, end)] {
            let right = if formed { kept.reader(RIGHT).is_some() } else { false };
            expect(&format!("{:?}, handed back {kept:?}", call.kept), right, formed)?;
            let given = (call.kept, answer(2, 0, 0, 0));
            expect("refused 2", (kept, got) == given, !formed)?;
            refused += u64::from(!formed);
        }
    }
    println!("pieces: {READERS} random readers stay well formed; {} are refused 2", refused / 2);
    Ok(())
}
