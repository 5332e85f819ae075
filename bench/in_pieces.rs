//! Logs of 1 MiB in pieces: the library's reader, which goes by value through the
//! caller's hands as numbers, against two plain Rust ones, which go by value too. One has
//! the same C face (face.rs): any numbers may be handed to it, and those that are no
//! reader are refused. The other's fields are private (pieces.rs), so it never looks.

use std::hint::black_box;

use trabeculon_model::generate::{random_case, Case};
use trabeculon_model::log::{read_log_bytes, Answer};
use trabeculon_model::pieces::Kept as Numbered;
use trabeculon_model::random::Random;
use trabeculon_model::readers::{every_call, random_call, random_cut, Call};

use crate::kept::{Face, Kept, Library, Model, Numbers, Private, SameFace};
use crate::times::{measure, milliseconds, ratios, Times};
use crate::whole::{make_logs, SEED};

/// The sizes of the pieces; the last is a whole log.
const SIZES: [usize; 6] = [1, 7, 64, 1_000, 65_536, usize::MAX];
const MIB: usize = 1 << 20;
/// So many random logs, and so many random readers, are tried before timing.
const RANDOM_LOGS: u64 = 20_000;
const RANDOM_READERS: u64 = 20_000;
/// The length of a log that is read once.
const LENGTH_ONCE: usize = 200_000;

// ---- Comparing ----

/// A log in pieces with these lengths and rooms: every answer, and what every run held
/// afterwards.
fn told<R: Kept>(log: &[u8], cut: &[(usize, usize)]) -> (Vec<Answer>, Vec<Vec<u8>>) {
    let mut reader = R::fresh();
    let mut rest = log;
    let (mut answers, mut runs) = (vec![], vec![]);
    for (length, room) in cut {
        let (piece, behind) = rest.split_at(*length);
        let mut run = vec![0xa5; *room];
        answers.push(reader.piece(piece, &mut run));
        runs.push(run);
        rest = behind;
    }
    answers.push(reader.end());
    (answers, runs)
}

/// Random logs, damaged ones among them, in pieces with runs that are too short now and
/// then.
fn compare_random_logs() -> Result<(), String> {
    let mut random = Random::new(SEED);
    for index in 0..RANDOM_LOGS {
        let Case { log, room } = random_case(&mut random);
        let cut = random_cut(&mut random, log.len());
        let ample = random.once_in(2);
        let room_of = |length: usize| if ample { room_for(length) } else { room.min(length) };
        let cut: Vec<_> = cut.into_iter().map(|length| (length, room_of(length))).collect();
        let model = told::<Numbers<Model>>(&log, &cut);
        let differs = [
            ("library", told::<Numbers<Library>>(&log, &cut) != model),
            ("Rust reader with the same face", told::<Numbers<SameFace>>(&log, &cut) != model),
            ("Rust reader with private fields", told::<Private>(&log, &cut) != model),
        ];
        if let Some((name, _)) = differs.into_iter().find(|(_, differs)| *differs) {
            return Err(format!("the {name} differs from the model on random log {index}"));
        }
    }
    Ok(())
}

/// A fixed set of readers that tries every place of the numbers, and random ones, well
/// formed or not. How many there were, and how many were refused 2.
fn compare_readers() -> Result<(u64, u64), String> {
    let (mut tried, mut refused) = (0, 0);
    let mut compare = |call: Call| -> Result<(), String> {
        tried += 1;
        let Numbered { reader, run } = call.kept;
        refused += u64::from(Model::end(reader, &run).answer.number == 2);
        agrees::<Library>(&call).map_err(|fault| format!("the library differs {fault}"))?;
        agrees::<SameFace>(&call).map_err(|fault| format!("the Rust reader differs {fault}"))
    };
    every_call(&mut compare)?;
    let mut random = Random::new(SEED);
    for _ in 0..RANDOM_READERS {
        compare(random_call(&mut random))?;
    }
    Ok((tried, refused))
}

/// Gives a piece and says the end, in the reader's way and in the model's. An error if
/// they differ.
fn agrees<F: Face>(call: &Call) -> Result<(), String> {
    let Call { kept: Numbered { reader, run: list }, piece, room } = call;
    let [mut run, mut right] = [vec![0xa5; *room], vec![0xa5; *room]];
    let [mut left_list, mut right_list] = [*list, *list];
    let read = F::piece(*reader, &mut left_list, piece, &mut run);
    let model = Model::piece(*reader, &mut right_list, piece, &mut right);
    let same_list = Numbered { reader: model.reader, run: right_list }.says(&left_list);
    let calls = [(read, model), (F::end(*reader, list), Model::end(*reader, list))];
    let same = calls.iter().all(|(read, model)| {
        // Beside 2 byte for byte; else bits above the bytes that came say nothing, nor do
        // pairs, T_s and N before a list or an event.
        let exactly = model.answer.number == 2;
        let cleaned = read.reader.lending().clean() == model.reader.lending().clean();
        read.answer == model.answer && cleaned && (!exactly || read.reader == *reader)
    });
    if same && run == right && same_list {
        Ok(())
    } else {
        Err(format!("at {reader:?} with {piece:?}, room {room}: {calls:?}, {run:?}, {right:?}"))
    }
}

/// No more bytes than these are the words of the events that end in a piece.
fn room_for(length: usize) -> usize {
    4 * (length / 13 + 1)
}

/// Reads a log in pieces of this size, each with the same run. The last answer; what
/// each piece wrote is shown.
#[inline]
fn read<R: Kept>(log: &[u8], size: usize, run: &mut [u8], mut show: impl FnMut(&[u8])) -> Answer {
    let mut reader = R::fresh();
    let mut words = 0;
    for piece in log.chunks(size) {
        let answer = reader.piece(piece, run);
        show(&run[..2 * (answer.words - words) as usize]);
        words = answer.words;
    }
    reader.end()
}

/// The last answer and the joined words.
fn line<R: Kept>(log: &[u8], size: usize) -> (Answer, Vec<u8>) {
    let mut run = vec![0xa5; room_for(size.min(MIB))];
    let mut line = vec![];
    let answer = read::<R>(log, size, &mut run, |words| line.extend(words));
    (answer, line)
}

fn compare(logs: &[Vec<u8>], size: usize) -> Result<(), String> {
    for (index, log) in logs.iter().enumerate() {
        let mut words = vec![0xa5; room_for(log.len())];
        let whole = read_log_bytes(log, &mut words);
        words.truncate(2 * whole.words as usize);
        let right = (whole, words);
        let same = line::<Numbers<Library>>(log, size) == right
            && line::<Numbers<SameFace>>(log, size) == right
            && line::<Private>(log, size) == right;
        if whole.number != 0 || !same {
            return Err(format!("pieces of {size}: a reader differs on log {index}"));
        }
    }
    Ok(())
}

// ---- Timing ----

/// Reads a log in pieces into a run that stays.
fn timed<R: Kept>(size: usize) -> impl FnMut(&[u8]) {
    let mut run = vec![0xa5; room_for(size.min(MIB))];
    move |log| {
        let shown = |words: &[u8]| {
            black_box(words);
        };
        black_box(read::<R>(black_box(log), black_box(size), black_box(&mut run), shown));
    }
}

/// Compares the readers with the model on logs of any kind.
pub fn compare_all() -> Result<(), String> {
    compare_random_logs()?;
    println!("in pieces: all three readers agree with the model on {RANDOM_LOGS} random logs");
    let (tried, refused) = compare_readers()?;
    println!(
        "so do the two with the C face on {tried} calls with any readers, {refused} refused 2\n"
    );
    Ok(())
}

/// Times the readers on logs of so many MiB, each with a list of pairs or without.
pub fn run(mib: usize, rounds: usize, lists: bool) -> Result<(), String> {
    let logs = make_logs(mib * MIB - MIB / 2, MIB, lists);
    let bytes: usize = logs.iter().map(Vec::len).sum();
    let with = if lists { ", each with a list of pairs" } else { "" };
    println!("{} valid logs, {bytes} bytes{with}; {rounds} rounds, interleaved", logs.len());
    println!("medians in ms; ratios by the median, by the minimum and by each log's fastest");
    println!(
        "{:>8} {:>10} {:>10} {:>10}   {:<21}   {:<21}",
        "piece", "library", "same face", "private", "library / same face", "library / private"
    );
    for size in SIZES {
        compare(&logs, size)?;
        let times = measure(
            &logs,
            rounds,
            [
                &mut timed::<Numbers<Library>>(size),
                &mut timed::<Numbers<SameFace>>(size),
                &mut timed::<Private>(size),
            ],
        );
        report(size, &times);
    }
    Ok(())
}

fn report(size: usize, times: &[Times; 3]) {
    let name = if size == usize::MAX { "whole".to_string() } else { size.to_string() };
    let [library, same_face, private] = times;
    let [a, b, c] = [library, same_face, private].map(|times| milliseconds(times.median()));
    let row = |ratios: [f64; 3]| ratios.map(|ratio| format!("{ratio:.3}")).join("  ");
    println!(
        "{name:>8} {a:>10.2} {b:>10.2} {c:>10.2}   {:<21}   {:<21}",
        row(ratios(library, same_face)),
        row(ratios(library, private))
    );
}

/// Reads one log once, with a list or without, in pieces of this size and with one reader.
/// How many pieces, and how many events; none if there is no such reader or size.
pub fn read_once(reader: &str, size: usize, list: bool) -> Option<(usize, usize)> {
    let log = &make_logs(1, LENGTH_ONCE, list)[0];
    if size == 0 {
        return None;
    }
    match reader {
        "library" => timed::<Numbers<Library>>(size)(log),
        "same-face" => timed::<Numbers<SameFace>>(size)(log),
        "private" => timed::<Private>(size)(log),
        _ => return None,
    }
    Some((log.len().div_ceil(size), log.len() / 13))
}
