//! Times several ways to do a thing in turn, so that a temporary slowdown of the machine affects all of them.
use crate::clock;
use std::time::Duration;

pub const RUNS: usize = 15;
/// A run repeats the call until it is long enough for the clock.
const LEAST_RUN: Duration = Duration::from_millis(5);

/// The mean processor time of one call, over a run.
fn time(repeats: u32, call: &mut dyn FnMut()) -> Duration {
    let start = clock::now();
    for _ in 0..repeats {
        call();
    }
    (clock::now() - start) / repeats
}

/// The median and the least of some times.
pub struct Times {
    pub median: Duration,
    pub least: Duration,
}

impl Times {
    /// The ratio of other times to these, by the medians and by the least.
    pub fn ratios(&self, others: &Times) -> [f64; 2] {
        [(self.median, others.median), (self.least, others.least)]
            .map(|(one, other)| other.as_secs_f64() / one.as_secs_f64())
    }
}

/// Times some calls in turn.
pub fn interleaved<const N: usize>(mut calls: [&mut dyn FnMut(); N]) -> [Times; N] {
    let repeats = calls
        .each_mut()
        .map(|call| (LEAST_RUN.as_nanos() / time(1, call).as_nanos().max(1)) as u32 + 1);
    let mut all = [const { Vec::new() }; N];
    for _ in 0..RUNS {
        for (i, call) in calls.iter_mut().enumerate() {
            all[i].push(time(repeats[i], call));
        }
    }
    all.map(|mut times| {
        times.sort();
        Times {
            median: times[RUNS / 2],
            least: times[0],
        }
    })
}

/// The nanoseconds per item, where `count` items took `time` together.
pub fn each(time: Duration, count: usize) -> f64 {
    time.as_nanos() as f64 / count as f64
}
