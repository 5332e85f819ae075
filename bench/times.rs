//! Times readers on the same logs, side by side.

use std::time::{Duration, Instant};

/// One reader's times.
pub struct Times {
    /// All logs, by round.
    rounds: Vec<Duration>,
    /// Each log's fastest round.
    fastest: Vec<Duration>,
}

impl Times {
    fn new(logs: usize) -> Times {
        Times { rounds: vec![], fastest: vec![Duration::MAX; logs] }
    }

    /// Reads one log and adds its time to the current round.
    fn read(&mut self, reader: &mut dyn FnMut(&[u8]), index: usize, log: &[u8]) {
        let start = Instant::now();
        reader(log);
        let time = start.elapsed();
        if let Some(round) = self.rounds.last_mut() {
            *round += time;
        }
        self.fastest[index] = self.fastest[index].min(time);
    }

    pub fn median(&self) -> Duration {
        let mut rounds = self.rounds.clone();
        rounds.sort();
        rounds[rounds.len() / 2]
    }

    pub fn minimum(&self) -> Duration {
        self.rounds.iter().copied().min().unwrap_or_default()
    }

    pub fn fastest(&self) -> Duration {
        self.fastest.iter().sum()
    }
}

/// In each round every log is read by all readers, one right after the other; which goes
/// first changes from log to log and from round to round.
pub fn measure<const N: usize>(
    logs: &[Vec<u8>],
    rounds: usize,
    readers: [&mut dyn FnMut(&[u8]); N],
) -> [Times; N] {
    let mut times = [(); N].map(|()| Times::new(logs.len()));
    for round in 0..rounds {
        for one in &mut times {
            one.rounds.push(Duration::ZERO);
        }
        for (index, log) in logs.iter().enumerate() {
            for turn in 0..N {
                let place = (round + index + turn) % N;
                times[place].read(readers[place], index, log);
            }
        }
    }
    times
}

/// One reader's time over another's: by the median, by the minimum and by each log's
/// fastest round.
pub fn ratios(one: &Times, other: &Times) -> [f64; 3] {
    [Times::median, Times::minimum, Times::fastest]
        .map(|time| time(one).as_secs_f64() / time(other).as_secs_f64())
}

pub fn milliseconds(time: Duration) -> f64 {
    time.as_secs_f64() * 1e3
}
