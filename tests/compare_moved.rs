//! The part of `compare` for request 8/12: every log once more with the same number
//! added to every stamp of its events, so that each that is at most the largest stays
//! so. The library must say of it what the model says and what it says of the log
//! itself: the same number, offset and waiting count, the same words. They come after
//! all logs that are not moved, so that a wrong rule which is seen here was not seen
//! there.

use trabeculon_model::generate::{every_place, random_case, Case};
use trabeculon_model::log::Answer;
use trabeculon_model::model::Slip;
use trabeculon_model::moved::{log_stamps, moved_log, moves, one_move, Move, MOVES};
use trabeculon_model::program::hex;
use trabeculon_model::random::Random;
use trabeculon_model::tally::Tally;

use crate::{compare, face, Arguments};

/// Those of the fixed set each in one way, the random ones each in all.
pub fn compare_all(arguments: &Arguments) -> Result<(), String> {
    let mut moved = Moved::new(arguments);
    every_place(|case| {
        let one = one_move(&mut moved.random, &log_stamps(&case.log));
        moved.compare(&case, one.as_slice())
    })?;
    moved.print("logs damaged at every place");

    // The logs of before.
    let mut random = Random::new(arguments.seed);
    let mut moved = Moved::new(arguments);
    for index in 0..arguments.count {
        let case = random_case(&mut random);
        let all = moves(&mut moved.random, &log_stamps(&case.log));
        moved
            .compare(&case, &all)
            .map_err(|what| format!("log {index} of seed {}: {what}", arguments.seed))?;
    }
    moved.print(&format!("random logs of seed {}", arguments.seed));
    moved.ways.complete(&MOVES, arguments.count)
}

/// What was compared, and how it was moved.
struct Moved {
    random: Random,
    slip: Option<Slip>,
    numbers: Tally,
    ways: Tally<&'static str>,
}

impl Moved {
    fn new(arguments: &Arguments) -> Moved {
        let (random, slip) = (Random::new(!arguments.seed), arguments.wrong.reader);
        Moved { random, slip, numbers: Tally::default(), ways: Tally::default() }
    }

    fn compare(&mut self, case: &Case, moves: &[Move]) -> Result<(), String> {
        let before = library(case);
        moves.iter().try_for_each(|(way, k)| {
            self.ways.add(way);
            let moved = Case { log: moved_log(&case.log, *k), room: case.room };
            self.compare_with(&before, &moved)
                .map_err(|what| format!("moved by {k}: {what}\nof log  {}", hex(&case.log)))
        })
    }

    /// The model says the same of the moved log, and the library what it said before.
    fn compare_with(&mut self, before: &Read, moved: &Case) -> Result<(), String> {
        let answer = compare(&mut self.random, self.slip, moved)?;
        self.numbers.add(answer.number.into());
        let after = library(moved);
        match after == *before {
            true => Ok(()),
            false => Err(format!("not as before\nbefore  {before:x?}\nafter   {after:x?}")),
        }
    }

    fn print(&self, what: &str) {
        self.numbers.print(&format!("{what}, moved"));
        println!("  how far{}", self.ways.times());
    }
}

/// What the library says of a log, and the words.
type Read = (Answer, Vec<u8>);

fn library(case: &Case) -> Read {
    let mut run = vec![0; case.room];
    let answer = face::read_log(&case.log, &mut run);
    run.truncate(2 * answer.words as usize);
    (answer, run)
}
