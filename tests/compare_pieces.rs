//! Compares the proved library's reader of a log in pieces with the model of the
//! papers: every number of every answer and of every reader handed back, the words,
//! and every byte that must stay untouched.
//!
//!   compare_pieces [COUNT [SEED]] [--wrong-rule [NAME]]
//!
//! Single calls: a fixed set that tries every place of a reader's numbers, then COUNT
//! random readers, well formed or not. Logs: a fixed set of whole ones, a quarter of
//! COUNT random ones, both once more with their stamps moved (8/12), and a fixed set
//! damaged at every place. Each is cut at random, into pieces of any length, with runs
//! that are too short now and then, of the damaged ones one in four. The whole ones and
//! the short random ones are cut at every place too; of the damaged ones some are, and
//! each at one place, the next one at the next. After every piece and at the end the library's reader of whole logs must
//! say the same, until an 8; calls after a refusal and after the end are tried; and a
//! moved log has the answers and the words of the log itself in the same pieces. Exit 0:
//! all equal. Exit 1: a mismatch, printed. Exit 2: wrong arguments.

mod face;

use std::process::ExitCode;

use trabeculon_model::arguments::{self, named};
use trabeculon_model::generate::{base_logs, every_place, random_case, typed_log, Case};
use trabeculon_model::log::{Answer, SETTINGS_LENGTH};
use trabeculon_model::model::SLIPS;
use trabeculon_model::moved::{log_stamps, moved_log, one_move, MOVES};
use trabeculon_model::pairs::MOST_PAIRS;
use trabeculon_model::pieces::{
    end_numbers, fresh_numbers, piece_numbers, Kept, Run, Wrong, EMPTY, PIECE_SLIPS,
};
use trabeculon_model::program::cut_hex;
use trabeculon_model::random::Random;
use trabeculon_model::readers::{every_call, random_call, random_cut, Call};
use trabeculon_model::tally::Tally;

const DEFAULT_COUNT: u64 = 200_000;
const DEFAULT_SEED: u64 = 20_010_401;
/// The numbers of a piece and of an end, 6 and 9 as answers that are for good.
const NUMBERS: [u64; 12] = [0, 1, 2, 3, 4, 5, 6, 7, 8, 9, 11, 12];
/// Those of a log: not 2, since the reader is always one handed back, and not 9.
const LOG_NUMBERS: [u64; 10] = [0, 1, 3, 4, 5, 6, 7, 8, 11, 12];
/// How many bytes of the begun record the given readers had, so many or more.
const BEGUN: [u64; 15] = [0, 1, 2, 3, 4, 5, 6, 7, 8, 9, 10, 11, 12, 13, 14];
/// For so many random calls one random log is compared.
const CALLS_FOR_A_LOG: u64 = 4;
/// For so many random logs one that is longer than the program's buffer.
const LOGS_FOR_A_LONG_ONE: u64 = 5_000;
const LONG: usize = 70_000;
/// Random logs up to this length are cut at every place.
const SHORT: usize = 64;
/// So often each whole log is cut at random.
const CUTS: usize = 100;
/// One in so many of the damaged logs is cut at every place, of the short ones more.
const LOGS_FOR_EVERY_CUT: usize = 500;
const SHORT_LOGS_FOR_EVERY_CUT: usize = 20;
/// And one in so many at random.
const LOGS_FOR_A_RANDOM_CUT: usize = 4;
/// A log's beginnings are read whole after each piece up to this length.
const OFTEN_READ: usize = 1_500;
/// So many pieces of a log are given once its answer is for good.
const PIECES_AFTER: usize = 3;
/// One in so many pieces is also given with a list's run that is too short.
const CALLS_FOR_A_SHORT_LIST: u64 = 16;
/// What is answered then.
const TWO: Answer = Answer { number: 2, waiting: 0, words: 0, offset: 0 };
/// Bytes before and after a run, to see a write outside it.
const GUARD: usize = 32;

type Arguments = arguments::Arguments<Wrong>;

fn main() -> ExitCode {
    let words: Vec<String> = std::env::args().skip(1).collect();
    let Some(arguments) = read_arguments(&words) else {
        let machine = SLIPS.map(|(name, _)| name).join(", ");
        let pieces = PIECE_SLIPS.map(|(name, _)| name).join(", ");
        eprintln!("usage: compare_pieces [COUNT [SEED]] [--wrong-rule [NAME]]");
        eprintln!("names: {machine},\n{pieces}");
        return ExitCode::from(2);
    };
    match compare_all(&arguments) {
        Ok(()) => ExitCode::SUCCESS,
        Err(message) => {
            println!("{message}");
            ExitCode::from(1)
        }
    }
}

fn read_arguments(words: &[String]) -> Option<Arguments> {
    let usual = Arguments { count: DEFAULT_COUNT, seed: DEFAULT_SEED, wrong: Wrong::default() };
    let first = Wrong { machine: None, pieces: Some(PIECE_SLIPS[0].1) };
    Arguments::read(words, usual, first, wrong_named)
}

fn wrong_named(name: &str) -> Option<Wrong> {
    let wrong = Wrong { machine: named(&SLIPS, name), pieces: named(&PIECE_SLIPS, name) };
    (wrong.machine.is_some() || wrong.pieces.is_some()).then_some(wrong)
}

fn compare_all(arguments: &Arguments) -> Result<(), String> {
    let (library, model) = (face::reader_fresh(), fresh_numbers());
    if library != model {
        return Err(format!("fresh readers differ\nlibrary {library:?}\nmodel   {model:?}"));
    }
    // Single calls first: they show a wrong rule soonest. The damaged logs take longest.
    compare_fixed_calls(arguments)?;
    compare_random_calls(arguments)?;
    compare_whole_logs(arguments)?;
    compare_random_logs(arguments)?;
    compare_moved_logs(arguments)?;
    compare_damaged_logs(arguments)
}

// ---- One call ----

/// All that was compared, and how often each answer came up.
struct Compared {
    random: Random,
    wrong: Wrong,
    pieces: Tally,
    ends: Tally,
    begun: Tally,
}

impl Compared {
    fn new(seed: u64, wrong: Wrong) -> Compared {
        let (pieces, ends, begun) = Default::default();
        Compared { random: Random::new(seed), wrong, pieces, ends, begun }
    }

    /// Gives one piece both ways, with runs that hold the same bytes before. What the
    /// library answered, and the words it wrote.
    fn piece(&mut self, call: &Call) -> Result<(Read, Vec<u8>), String> {
        let start = GUARD + self.random.place(8);
        let end = start + call.room;
        let before = self.random.bytes(end + GUARD);
        let piece = call.piece.clone();

        let (mut left, mut reader) = (before.clone(), call.kept.reader);
        let mut list = List::of(&mut self.random, &call.kept);
        let answer = face::reader_piece(&mut reader, list.lent(), &piece, &mut left[start..end]);
        let library = Read { kept: Kept { reader, run: list.run() }, answer };
        let (mut right, mut kept) = (before.clone(), call.kept);
        let answer = piece_numbers(self.wrong, &mut kept, &call.piece, &mut right[start..end]);
        let model = Read { kept, answer };

        let fault = if !same(&call.kept, &library, &model) {
            "the answers differ"
        } else if left[start..end] != right[start..end] {
            "the runs differ"
        } else if left != right {
            "a byte outside the run was written"
        } else if !list.is_whole() {
            "a number outside the list's run was written"
        } else if piece != call.piece {
            "the piece was written"
        } else {
            if self.random.once_in(CALLS_FOR_A_SHORT_LIST) {
                self.short_list(call)?;
            }
            self.pieces.add(model.answer.number.into());
            self.begun.add(call.kept.reader.count.min(14));
            let words = library.answer.words.saturating_sub(call.kept.reader.words);
            return Ok((library, left[start..][..2 * words as usize].to_vec()));
        };
        Err(format!(
            "{fault}\nreader  {:?}\npiece   {}\nrun     {} bytes, before {}\n\
             library {library:?}\n        {}\nmodel   {model:?}\n        {}",
            call.kept,
            cut_hex(&piece),
            call.room,
            cut_hex(&before[start..end]),
            cut_hex(&left[start..end]),
            cut_hex(&right[start..end]),
        ))
    }

    /// Says the end both ways.
    fn end(&mut self, given: &Kept) -> Result<Read, String> {
        let (mut left, mut right) = (*given, *given);
        let mut list = List::of(&mut self.random, given);
        let answer = face::reader_end(&mut left.reader, list.lent());
        let library = Read { kept: left, answer };
        let answer = end_numbers(self.wrong, &mut right);
        let model = Read { kept: right, answer };
        if !same(given, &library, &model) {
            let answers = format!("library {library:?}\nmodel   {model:?}");
            return Err(format!("the answers differ\nend of {given:?}\n{answers}"));
        }
        self.ends.add(model.answer.number.into());
        Ok(library)
    }

    /// With fewer numbers than the longest list has, a piece and an end are refused 2, and
    /// nothing is changed.
    fn short_list(&mut self, call: &Call) -> Result<(), String> {
        let short = self.random.pick(&[0, 1, 32, 62, 63]);
        let (given, before) = (call.kept.reader, self.random.bytes(call.room));
        let (mut list, mut out) = (call.kept.run[..short].to_vec(), before.clone());
        let (mut left, mut right) = (given, given);
        let piece = face::reader_piece(&mut left, &mut list, &call.piece, &mut out);
        let end = face::reader_end(&mut right, &list);
        let kept = left == given && right == given && out == before;
        match kept && list == call.kept.run[..short] && piece == TWO && end == TWO {
            true => Ok(()),
            false => Err(format!(
                "a run of {short} numbers is not refused 2, or something is changed\n\
                 reader  {given:?}\npiece   {piece:?} {left:?}\nend     {end:?} {right:?}"
            )),
        }
    }

    fn print(&self, what: &str) {
        self.pieces.print(&format!("pieces {what}"));
        println!("  bytes of a begun record before{}", self.begun.times());
        self.ends.print(&format!("ends {what}"));
    }

    /// An error if a number never came up, or a place where a record was cut.
    fn complete(&self, numbers: &[u64], count: u64) -> Result<(), String> {
        let complete = || {
            self.pieces.complete(numbers, count)?;
            self.ends.complete(numbers, count)?;
            self.begun.complete(&BEGUN, count)
        };
        complete().map_err(|what: String| format!("of pieces and ends, {what}"))
    }
}

/// What a call leaves and answers.
#[derive(Clone, Copy, PartialEq, Debug)]
struct Read {
    kept: Kept,
    answer: Answer,
}

/// Every number is the same. Where the reader that was given had bits above the bytes
/// that came, and is neither refused nor for good, and no record became whole, what
/// stands there afterwards is not asked; nor what pairs, T_s and N are before a list or
/// an event came. Where a list may still come, of its run only the pairs are asked, and
/// of a list that is not whole what came of them; elsewhere it stays as it was.
fn same(given: &Kept, library: &Read, model: &Read) -> bool {
    let (left, right) = (&library.kept.reader, &model.kept.reader);
    let run = &library.kept.run;
    if given.reader.told == 1 || model.answer.number == 2 {
        return library.answer == model.answer && library.kept == *given && left == right;
    }
    let begun = right.told == 0 && right.offset == given.reader.offset;
    let free = begun && given.reader != given.reader.clean();
    let (lent_left, lent_right) = (left.lending(), right.lending());
    library.answer == model.answer
        && (lent_left == lent_right || free && lent_left.clean() == lent_right.clean())
        && model.kept.says(run)
        && (*run == given.run || given.reader.may_list())
}

/// The run that a list's pairs live in as it is lent: with numbers around it that must not
/// be written, and sometimes longer than the longest list.
struct List {
    before: Vec<u32>,
    numbers: Vec<u32>,
    length: usize,
}

impl List {
    fn of(random: &mut Random, kept: &Kept) -> List {
        let length = MOST_PAIRS + if random.once_in(4) { random.place(40) } else { 0 };
        let mut numbers: Vec<u32> = (0..length + 2).map(|_| random.next() as u32).collect();
        numbers[1..][..MOST_PAIRS].copy_from_slice(&kept.run);
        List { before: numbers.clone(), numbers, length }
    }

    fn lent(&mut self) -> &mut [u32] {
        &mut self.numbers[1..][..self.length]
    }

    fn run(&self) -> Run {
        let mut run = EMPTY;
        run.copy_from_slice(&self.numbers[1..][..MOST_PAIRS]);
        run
    }

    /// What is around the run and behind the longest list is as it was.
    fn is_whole(&self) -> bool {
        let behind = 1 + MOST_PAIRS;
        self.before[0] == self.numbers[0] && self.before[behind..] == self.numbers[behind..]
    }
}

// ---- Single calls ----

fn compare_fixed_calls(arguments: &Arguments) -> Result<(), String> {
    let mut compared = Compared::new(arguments.seed, arguments.wrong);
    every_call(|call| {
        compared.end(&call.kept)?;
        compared.piece(&call).map(drop)
    })?;
    compared.print("with every place of a reader tried");
    Ok(())
}

fn compare_random_calls(arguments: &Arguments) -> Result<(), String> {
    let mut random = Random::new(arguments.seed);
    let mut compared = Compared::new(!arguments.seed, arguments.wrong);
    for index in 0..arguments.count {
        let call = random_call(&mut random);
        let mut compare = || {
            compared.end(&call.kept)?;
            // And once more with the reader handed back.
            let (read, _) = compared.piece(&call)?;
            compared.piece(&Call { kept: read.kept, ..random_call(&mut random) })?;
            compared.end(&read.kept)
        };
        compare().map_err(|what| format!("call {index} of seed {}: {what}", arguments.seed))?;
    }
    compared.print(&format!("of random readers of seed {}", arguments.seed));
    compared.complete(&NUMBERS, arguments.count)
}

// ---- Logs ----

/// How the runs of a log's pieces are: always enough, or too short now and then.
#[derive(Clone, Copy, PartialEq)]
enum Runs {
    Enough,
    TooShort,
}

fn compare_whole_logs(arguments: &Arguments) -> Result<(), String> {
    let mut compared = Compared::new(arguments.seed, arguments.wrong);
    // The first would be refused 7 by its header, but its record never ends.
    let bytes = [&[9, 255, 255][..], &[9, 0, 0], &[1, 0, 5, 0, 100, 50, 50, 0, 2, 1, 0]];
    for log in bytes.into_iter().map(<[u8]>::to_vec).chain(base_logs()) {
        compared.every_cut(&log)?;
        compared.log(&log, &vec![1; log.len()], Runs::Enough)?;
        (0..CUTS).try_for_each(|_| compared.random_cut(&log, Runs::TooShort))?;
    }
    // The first one, and the first that has a list.
    let listed = base_logs().filter(|log| log.get(SETTINGS_LENGTH) == Some(&3));
    for log in base_logs().take(1).chain(listed.take(1)) {
        compared.every_two_cuts(&log)?;
    }
    compared.print("of whole logs");
    Ok(())
}

fn compare_random_logs(arguments: &Arguments) -> Result<(), String> {
    let mut compared = Compared::new(!arguments.seed, arguments.wrong);
    random_logs(arguments, |log, runs| {
        if log.len() <= SHORT {
            compared.every_cut(log)?;
        }
        compared.random_cut(log, runs)
    })?;
    compared.print(&format!("of random logs of seed {}", arguments.seed));
    compared.complete(&LOG_NUMBERS, arguments.count)
}

/// Hands over the random logs, always the same ones; stops at the first error.
fn random_logs(
    arguments: &Arguments,
    mut visit: impl FnMut(&[u8], Runs) -> Result<(), String>,
) -> Result<(), String> {
    let mut random = Random::new(arguments.seed);
    (0..arguments.count / CALLS_FOR_A_LOG).try_for_each(|index| {
        let log = match index % LOGS_FOR_A_LONG_ONE {
            0 => typed_log(&mut random, (100, 50, 50, 1), LONG),
            _ => random_case(&mut random).log,
        };
        let runs = if index % 2 == 0 { Runs::Enough } else { Runs::TooShort };
        visit(&log, runs).map_err(|what| format!("log {index} of seed {}: {what}", arguments.seed))
    })
}

/// The whole and the random logs once more, moved. They come after those that are not,
/// so that a wrong rule which is seen here was not seen there.
fn compare_moved_logs(arguments: &Arguments) -> Result<(), String> {
    let mut compared = Compared::new(arguments.seed, arguments.wrong);
    let mut ways = Tally::default();
    for log in base_logs() {
        (0..CUTS).try_for_each(|_| compared.moved(&log, Runs::TooShort, &mut ways))?;
    }
    random_logs(arguments, |log, runs| compared.moved(log, runs, &mut ways))?;
    compared.print("of logs, moved and not");
    println!("  how far{}", ways.times());
    ways.complete(&MOVES, arguments.count)
}

fn compare_damaged_logs(arguments: &Arguments) -> Result<(), String> {
    let mut compared = Compared::new(arguments.seed, arguments.wrong);
    let mut index = 0;
    every_place(|Case { log, .. }| {
        index += 1;
        let short = log.len() <= SHORT;
        let rare = if short { SHORT_LOGS_FOR_EVERY_CUT } else { LOGS_FOR_EVERY_CUT };
        if index % rare == 0 {
            compared.every_cut(&log)?;
        }
        // The next log at the next place.
        let cut = index % (log.len() + 1);
        compared.log(&log, &[cut, log.len() - cut], Runs::Enough)?;
        match index % LOGS_FOR_A_RANDOM_CUT {
            0 => compared.random_cut(&log, Runs::Enough),
            _ => Ok(()),
        }
    })?;
    compared.print("of logs damaged at every place");
    Ok(())
}

impl Compared {
    /// A log in two pieces, cut at every place.
    fn every_cut(&mut self, log: &[u8]) -> Result<(), String> {
        (0..=log.len())
            .try_for_each(|cut| self.log(log, &[cut, log.len() - cut], Runs::Enough).map(drop))
    }

    /// A log in three pieces, cut at every two places.
    fn every_two_cuts(&mut self, log: &[u8]) -> Result<(), String> {
        for cut in 0..=log.len() {
            for second in 0..=log.len() - cut {
                let pieces = [cut, second, log.len() - cut - second];
                self.log(log, &pieces, Runs::Enough)?;
            }
        }
        Ok(())
    }

    fn random_cut(&mut self, log: &[u8], runs: Runs) -> Result<(), String> {
        let pieces = random_cut(&mut self.random, log.len());
        self.log(log, &pieces, runs).map(drop)
    }

    /// A log cut at random, and with its stamps moved in the same pieces, with the same
    /// runs: the same answers to all pieces and the end, and the same words.
    fn moved(
        &mut self,
        log: &[u8],
        runs: Runs,
        ways: &mut Tally<&'static str>,
    ) -> Result<(), String> {
        let Some((way, k)) = one_move(&mut self.random, &log_stamps(log)) else { return Ok(()) };
        ways.add(way);
        let pieces = random_cut(&mut self.random, log.len());
        // The same random numbers give the same runs.
        let again = self.random.clone();
        let before = self.log(log, &pieces, runs)?;
        self.random = again;
        let after = self
            .log(&moved_log(log, k), &pieces, runs)
            .map_err(|what| format!("moved by {k}: {what}"))?;
        match after == before {
            true => Ok(()),
            false => Err(format!(
                "moved by {k}: not as before\nbefore  {before:x?}\nafter   {after:x?}\n\
                 log     {}\npieces  {pieces:?}",
                cut_hex(log)
            )),
        }
    }

    /// A log in pieces of these lengths, its end, and a few calls after that. All answers
    /// of the library, the end's last, and the words.
    fn log(
        &mut self,
        log: &[u8],
        pieces: &[usize],
        runs: Runs,
    ) -> Result<(Vec<Answer>, Vec<u8>), String> {
        let in_log = |what| format!("{what}\nlog     {}\npieces  {pieces:?}", cut_hex(log));
        let mut kept = Kept::from(face::reader_fresh());
        let (mut answers, mut line) = (vec![], vec![]);
        let (mut came, mut after) = (0, 0);
        for length in pieces {
            if after > PIECES_AFTER {
                break;
            }
            let piece = log[came..came + length].to_vec();
            let room = self.room(&kept, &piece, runs);
            let (read, words) = self.piece(&Call { kept, piece, room }).map_err(in_log)?;
            came += length;
            after += usize::from(kept.reader.told == 1);
            answers.push(read.answer);
            line.extend(words);
            if came <= OFTEN_READ {
                before_the_end(&log[..came], &read.answer, &line).map_err(in_log)?;
            }
            kept = read.kept;
        }
        let read = self.end(&kept).map_err(in_log)?;
        answers.push(read.answer);
        at_the_end(log, &read.answer, &line).map_err(in_log)?;
        self.after_the_end(&read).map_err(in_log)?;
        Ok((answers, line))
    }

    /// The length of a piece's run, by how many words the model writes.
    fn room(&mut self, kept: &Kept, piece: &[u8], runs: Runs) -> usize {
        let most = 4 * (piece.len() / 13 + 1);
        let random = &mut self.random;
        if runs == Runs::Enough && random.once_in(2) {
            return most + random.place(3);
        }
        let right = Wrong::default();
        let answer = piece_numbers(right, &mut kept.clone(), piece, &mut vec![0; most]);
        let need = 2 * (answer.words - kept.reader.words) as usize;
        match random.below(4) {
            0 if runs == Runs::TooShort => need.saturating_sub(random.pick(&[1, 2, 3])),
            1 if runs == Runs::TooShort => random.place(need + 1),
            _ => need + random.place(3),
        }
    }

    /// The answer is for good, whatever comes.
    fn after_the_end(&mut self, ended: &Read) -> Result<(), String> {
        let lengths = [0, 1, 13, 40];
        let length = self.random.pick(&lengths);
        let piece = self.random.bytes(length);
        let room = self.random.place(20);
        let (again, _) = self.piece(&Call { kept: ended.kept, piece, room })?;
        let end = self.end(&again.kept)?;
        match again == *ended && end == *ended {
            true => Ok(()),
            false => Err(format!("not for good\n{ended:?}\n{again:?}\n{end:?}")),
        }
    }
}

/// The library's own reader of whole logs, with room enough.
fn whole(log: &[u8]) -> (Answer, Vec<u8>) {
    let mut run = vec![0; 4 * (log.len() / 13 + 1)];
    let answer = face::read_log(log, &mut run);
    run.truncate(2 * answer.words as usize);
    (answer, run)
}

/// What came so far, read whole, is said the same way; only that 6 is not said yet,
/// and the offset is then the bytes so far.
fn before_the_end(log: &[u8], answer: &Answer, line: &[u8]) -> Result<(), String> {
    let (mut right, words) = whole(log);
    if right.number == 6 {
        right = Answer { number: 0, offset: log.len() as u64, ..right };
    }
    said_by_the_whole(answer, line, right, &words)
}

fn at_the_end(log: &[u8], answer: &Answer, line: &[u8]) -> Result<(), String> {
    let (right, words) = whole(log);
    said_by_the_whole(answer, line, right, &words)
}

/// After an 8 the line is only the beginning of the whole one.
fn said_by_the_whole(
    answer: &Answer,
    line: &[u8],
    right: Answer,
    words: &[u8],
) -> Result<(), String> {
    let said = match answer.number {
        8 => answer.offset <= right.offset && words.starts_with(line),
        _ => *answer == right && words == line,
    };
    if said && line.len() as u64 == 2 * answer.words {
        return Ok(());
    }
    let (line, words) = (cut_hex(line), cut_hex(words));
    Err(format!("not as read whole\npieces {answer:?}\n{line}\nwhole  {right:?}\n{words}"))
}
