//! The writer's part of the comparison: each drill is written by the library and
//! by the model into runs that hold the same bytes before, and the library's own
//! reader must give back the line of every drill that it accepted.

use trabeculon_model::drill::{write_drill_bytes_with, Drill, WriterSlip};
use trabeculon_model::lines::{every_drill, random_drill, DrillCase};
use trabeculon_model::log::{Answer, RawSettings};
use trabeculon_model::program::cut_hex;
use trabeculon_model::random::Random;
use trabeculon_model::tally::Tally;

use crate::{face, Arguments, GUARD};

extern "C" {
    fn trabeculon_write_drill(
        t: u16,
        j: u8,
        l: u8,
        solo: u8,
        line: *const u16,
        line_len: usize,
        out: *mut u8,
        out_len: usize,
    ) -> Drill;
}

/// The proved library, in safe clothes.
fn library_write_drill((t, j, l, solo): RawSettings, line: &[u16], out: &mut [u8]) -> Drill {
    let (words, bytes) = (line.as_ptr(), out.as_mut_ptr());
    // Sound: both pairs are a slice's own pointer and length, and don't overlap.
    unsafe { trabeculon_write_drill(t, j, l, solo, words, line.len(), bytes, out.len()) }
}

/// The numbers of a drill: not 4, which takes a line of 4,000,000,001 words.
const WRITER_NUMBERS: [u64; 4] = [0, 1, 8, 10];
/// For so many random logs one random drill is compared.
const LOGS_FOR_A_DRILL: u64 = 4;

pub fn compare_all(arguments: &Arguments) -> Result<(), String> {
    // Another run of numbers than the reader's.
    let mut random = Random::new(!arguments.seed);
    let slip = arguments.wrong.writer;

    let mut fixed = Tally::default();
    every_drill(|case| compare(&mut random, slip, &case).map(|answer| fixed.add(answer.number)))?;
    fixed.print("drills of every code point, room and boundary");

    let mut tally = Tally::default();
    for index in 0..arguments.count / LOGS_FOR_A_DRILL {
        let case = random_drill(&mut random);
        let answer = compare(&mut random, slip, &case)
            .map_err(|what| format!("drill {index} of seed {}: {what}", arguments.seed))?;
        tally.add(answer.number);
    }
    tally.print(&format!("random drills of seed {}, read back if accepted", arguments.seed));
    tally.complete(&WRITER_NUMBERS, arguments.count)
}

/// Writes one drill both ways, and reads the library's back.
fn compare(
    random: &mut Random,
    slip: Option<WriterSlip>,
    case: &DrillCase,
) -> Result<Drill, String> {
    let start = GUARD + random.place(8);
    let end = start + case.room;
    let before = random.bytes(end + GUARD);
    let line = case.line.clone();

    let mut left = before.clone();
    let library = library_write_drill(case.settings, &line, &mut left[start..end]);
    let mut right = before.clone();
    let model = write_drill_bytes_with(slip, case.settings, &case.line, &mut right[start..end]);

    let fault = if library != model {
        "the answers differ".to_string()
    } else if left[start..end] != right[start..end] {
        "the runs differ".to_string()
    } else if left != right {
        "a byte outside the run was written".to_string()
    } else if line != case.line {
        "the line was written".to_string()
    } else if let Err(fault) = read_back(random, &library, &line, &left[start..end]) {
        fault
    } else {
        return Ok(model);
    };
    let runs = [&before, &left, &right].map(|run| cut_hex(&run[start..end]));
    let [before, left, right] = runs;
    Err(format!(
        "{fault}\nT J L solo {:?}, line {}\nrun     {} bytes, before {before}\n\
         library {library:?}\n        {left}\nmodel   {model:?}\n        {right}",
        case.settings,
        words_hex(&case.line),
        case.room,
    ))
}

/// The library reads its own drill back: the line, all of the log, nothing waiting.
/// The run has just enough room, two bytes a character.
fn read_back(random: &mut Random, written: &Drill, line: &[u16], run: &[u8]) -> Result<(), String> {
    if written.number != 0 {
        return Ok(());
    }
    let (length, room) = (written.bytes as usize, 2 * line.len());
    let mut out = random.bytes(room + GUARD);
    let right: Vec<u8> = line.iter().flat_map(|word| word.to_be_bytes()).collect();
    let right = [&right, &out[room..]].concat();
    let answer = face::read_log(&run[..length], &mut out[..room]);
    let words = line.len() as u64;
    if answer != (Answer { number: 0, waiting: 0, words, offset: written.bytes }) {
        return Err(format!("read back: {answer:?}"));
    }
    if out != right {
        return Err(format!("read back: {}", cut_hex(&out[..room])));
    }
    Ok(())
}

fn words_hex(line: &[u16]) -> String {
    let bytes: Vec<u8> = line.iter().flat_map(|word| word.to_be_bytes()).collect();
    cut_hex(&bytes)
}
