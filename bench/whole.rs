//! Whole logs, read by several readers side by side.

use std::hint::black_box;

use trabeculon_model::generate::{right_settings, typed_log, typed_log_with};
use trabeculon_model::log::{read_log_bytes, Answer, BUFFER};
use trabeculon_model::random::Random;

use crate::times::{measure, milliseconds, ratios, Times};

pub const SEED: u64 = 20_010_401;
/// Four bytes for each event of 13 are more than a log can fill.
const RUN: usize = BUFFER;

/// How many pairs the lists have, one log after the other.
const LISTS: [usize; 5] = [8, 1, 30, 3, 64];

pub type Reader = fn(&[u8], &mut [u8]) -> Answer;

/// Compares the readers with the model on logs of so many MiB, and times them; each log
/// with a list of pairs or without.
pub fn run<const N: usize>(
    mib: usize,
    rounds: usize,
    lists: bool,
    readers: [(&str, Reader); N],
) -> Result<[Times; N], String> {
    let logs = make_logs(mib << 20, BUFFER, lists);
    let bytes: usize = logs.iter().map(Vec::len).sum();
    let with = if lists { ", each with a list of pairs" } else { "" };
    println!("{} valid logs of at most {BUFFER} bytes, {bytes} bytes in all{with}", logs.len());
    let words = compare(&logs, &readers)?;
    println!("all readers agree with the model on every log; {words} words");
    let mut timed = readers.map(|(_, reader)| timed(reader));
    let times = measure(&logs, rounds, timed.each_mut().map(|one| one as _));
    println!("{rounds} rounds, interleaved log by log; runs not cleared between logs or rounds");
    for ((name, _), times) in readers.iter().zip(&times) {
        report(name, times, bytes);
    }
    Ok(times)
}

/// Logs of so many bytes in all, each of at most `longest`. Half of them have usual
/// settings, the others any. Lists go from one pair up to 64.
pub fn make_logs(total: usize, longest: usize, lists: bool) -> Vec<Vec<u8>> {
    let mut random = Random::new(SEED);
    let mut logs = vec![];
    let mut bytes = 0;
    while bytes < total {
        let any = right_settings(&mut random);
        let settings = if logs.len() % 2 == 0 { (100, 50, 50, 0) } else { any };
        let log = match lists {
            true => {
                let count = LISTS[logs.len() % LISTS.len()];
                typed_log_with(&mut random, settings, count, longest)
            }
            false => typed_log(&mut random, settings, longest),
        };
        bytes += log.len();
        logs.push(log);
    }
    logs
}

/// Reads every log with all readers and the model. The words of all; an error at the
/// first difference.
fn compare(logs: &[Vec<u8>], readers: &[(&str, Reader)]) -> Result<u64, String> {
    let mut words = 0;
    for (index, log) in logs.iter().enumerate() {
        let model = read_with(read_log_bytes, log);
        if model.0.number != 0 {
            return Err(format!("log {index} is refused {}", model.0.number));
        }
        if let Some((name, _)) = readers.iter().find(|(_, r)| read_with(*r, log) != model) {
            return Err(format!("the {name} differs from the model on log {index}"));
        }
        words += model.0.words;
    }
    Ok(words)
}

/// The answer and the whole run afterwards.
fn read_with(reader: Reader, log: &[u8]) -> (Answer, Vec<u8>) {
    let mut out = vec![0xa5; RUN];
    let answer = reader(log, &mut out);
    (answer, out)
}

/// Reads a log into a run that stays.
fn timed(reader: Reader) -> impl FnMut(&[u8]) {
    let reader = black_box(reader);
    let mut run = vec![0xa5; RUN];
    move |log| {
        black_box(reader(black_box(log), black_box(&mut run)));
    }
}

fn report(name: &str, times: &Times, bytes: usize) {
    let rate = bytes as f64 / 1e6 / times.fastest().as_secs_f64();
    let [median, minimum, fastest] =
        [times.median(), times.minimum(), times.fastest()].map(milliseconds);
    println!(
        "{name:<16} median {median:7.2} ms, minimum {minimum:7.2} ms, \
         each log's fastest {fastest:7.2} ms ({rate:.0} MB/s)"
    );
}

/// The ratio of two readers' times.
pub fn report_ratio(name: &str, one: &Times, other: &Times) {
    let [median, minimum, fastest] = ratios(one, other);
    println!(
        "ratio {name}: {median:.3} by median, {minimum:.3} by minimum, \
         {fastest:.3} by each log's fastest"
    );
}
