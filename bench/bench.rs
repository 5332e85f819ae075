//! Times the proved library against plain Rust readers, tuned by hand, on the same logs,
//! read whole and in pieces:
//!
//!   bench [ROUNDS [MIB]]
//!   bench once READER SIZE [list]
//!
//! 50 MiB of valid typed logs of at most 65,536 bytes each are made in memory, and as
//! much again of 1 MiB each, to be read in pieces (in_pieces.rs); first logs with no list
//! of pairs, then as many that have one (9/12), in which two letters are often typed
//! together. Before timing, all readers are compared with the model on every log. In each
//! round every log is read by every reader, one right after the other; which goes first changes from log to
//! log and from round to round. Each reader has one run of its own, written in full
//! once before timing (so that its pages are there) and not cleared between logs or
//! rounds.
//!
//! On a busy machine the steadiest figure is the one by each log's fastest round.
//! Instructions don't depend on the load at all. Those of whole logs:
//!
//!   valgrind --tool=callgrind --callgrind-out-file=FILE target/bench/bench 1 2
//!   callgrind_annotate --inclusive=yes FILE | grep read_log
//!
//! For those of a piece, `once` reads one log with one reader; bench/count counts them.

mod in_pieces;
mod kept;
mod times;
mod whole;

use std::process::ExitCode;

use trabeculon_model::log::Answer;
use trabeculon_plain::reader;

extern "C" {
    fn trabeculon_read_log(log: *const u8, log_len: usize, out: *mut u8, out_len: usize) -> Answer;
}

/// The proved library, in safe clothes.
fn library_read_log(log: &[u8], out: &mut [u8]) -> Answer {
    // Sound: both pairs are a slice's own pointer and length, and don't overlap.
    unsafe { trabeculon_read_log(log.as_ptr(), log.len(), out.as_mut_ptr(), out.len()) }
}

const DEFAULT_ROUNDS: usize = 15;
const DEFAULT_MIB: usize = 50;

fn main() -> ExitCode {
    let words: Vec<String> = std::env::args().skip(1).collect();
    let words: Vec<&str> = words.iter().map(String::as_str).collect();
    let done = match words[..] {
        ["once", reader, size] => size.parse().ok().and_then(|size| once(reader, size, false)),
        ["once", reader, size, "list"] => {
            size.parse().ok().and_then(|size| once(reader, size, true))
        }
        [] => timed_all(DEFAULT_ROUNDS, DEFAULT_MIB),
        [rounds] => rounds.parse().ok().and_then(|rounds| timed_all(rounds, DEFAULT_MIB)),
        [rounds, mib] => {
            rounds.parse().ok().zip(mib.parse().ok()).and_then(|(r, m)| timed_all(r, m))
        }
        _ => None,
    };
    match done {
        Some(Ok(())) => ExitCode::SUCCESS,
        Some(Err(message)) => {
            println!("{message}");
            ExitCode::FAILURE
        }
        None => {
            eprintln!("usage: bench [ROUNDS [MIB]]");
            eprintln!("       bench once library|same-face|private SIZE [list]");
            ExitCode::from(2)
        }
    }
}

/// None if the arguments are wrong.
type Done = Option<Result<(), String>>;

fn timed_all(rounds: usize, mib: usize) -> Done {
    if rounds == 0 || !(1..=1000).contains(&mib) {
        return None;
    }
    let timed =
        |lists| whole_logs(mib, rounds, lists).and_then(|()| in_pieces::run(mib, rounds, lists));
    let compared = in_pieces::compare_all();
    Some(compared.and_then(|()| timed(false)).and_then(|()| timed(true)))
}

fn once(reader: &str, size: usize, list: bool) -> Done {
    let (pieces, events) = in_pieces::read_once(reader, size, list)?;
    println!("{pieces} pieces {events} events");
    Some(Ok(()))
}

fn whole_logs(mib: usize, rounds: usize, lists: bool) -> Result<(), String> {
    let readers: [(&str, whole::Reader); 2] =
        [("proved library", library_read_log), ("Rust reader", reader::read_log)];
    let [library, rust] = whole::run(mib, rounds, lists, readers)?;
    whole::report_ratio("library / Rust", &library, &rust);
    Ok(())
}
