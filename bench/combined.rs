//! Whether whole logs are read as fast by the library that has all functions as by the
//! reader alone:
//!
//!   combined [ROUNDS [MIB]]
//!
//! Both libraries, whose functions have names of their own here (bench/combined), and a
//! plain Rust reader read the same logs, as bench.rs says. Exit 1 where the combined
//! library's ratio to Rust is more than 1.1 times that of the reader alone, by each
//! log's fastest round, which is the steadiest figure on a busy machine.

mod times;
mod whole;

use std::process::ExitCode;

use times::ratios;
use trabeculon_model::log::Answer;
use trabeculon_plain::reader;

extern "C" {
    fn alone_read_log(log: *const u8, log_len: usize, out: *mut u8, out_len: usize) -> Answer;
    fn combined_read_log(log: *const u8, log_len: usize, out: *mut u8, out_len: usize) -> Answer;
}

fn alone(log: &[u8], out: &mut [u8]) -> Answer {
    // Sound: both pairs are a slice's own pointer and length, and don't overlap.
    unsafe { alone_read_log(log.as_ptr(), log.len(), out.as_mut_ptr(), out.len()) }
}

fn combined(log: &[u8], out: &mut [u8]) -> Answer {
    // Sound: as above.
    unsafe { combined_read_log(log.as_ptr(), log.len(), out.as_mut_ptr(), out.len()) }
}

const DEFAULT_ROUNDS: usize = 15;
const DEFAULT_MIB: usize = 50;
/// So many times the ratio of the reader alone.
const MOST: f64 = 1.1;

fn main() -> ExitCode {
    let words: Vec<String> = std::env::args().skip(1).collect();
    let number = |place: usize, usual| words.get(place).map_or(Some(usual), |w| w.parse().ok());
    let (Some(rounds @ 1..), Some(mib @ 1..=1000), ..=2) =
        (number(0, DEFAULT_ROUNDS), number(1, DEFAULT_MIB), words.len())
    else {
        eprintln!("usage: combined [ROUNDS [MIB]]");
        return ExitCode::from(2);
    };
    match compare(mib, rounds) {
        Ok(()) => ExitCode::SUCCESS,
        Err(message) => {
            println!("{message}");
            ExitCode::FAILURE
        }
    }
}

fn compare(mib: usize, rounds: usize) -> Result<(), String> {
    let readers: [(&str, whole::Reader); 3] = [
        ("reader alone", alone),
        ("combined library", combined),
        ("Rust reader", reader::read_log),
    ];
    let [alone, combined, rust] = whole::run(mib, rounds, false, readers)?;
    whole::report_ratio("reader alone / Rust", &alone, &rust);
    whole::report_ratio("combined library / Rust", &combined, &rust);
    let [_, _, fastest] = ratios(&combined, &rust);
    let [_, _, bar] = ratios(&alone, &rust).map(|ratio| MOST * ratio);
    if fastest > bar {
        return Err(format!(
            "the combined library is too slow: {fastest:.3} times Rust, and {bar:.3} is the most"
        ));
    }
    println!("the combined library keeps the speed: {fastest:.3} times Rust, of at most {bar:.3}");
    Ok(())
}
