//! Times: repeated where they are short, and put in order.

use std::hint::black_box;
use std::time::Duration;

use crate::clock;

/// How long one batch of repetitions shall take.
const BATCH: Duration = Duration::from_millis(1);
const BATCHES: usize = 5;
/// What takes longer than this is run twice only.
const LONG: Duration = Duration::from_millis(10);

/// The time of one call: the median of some batches of calls; of calls that take long the shorter of two, since the first may pay
/// for what later ones find ready.
pub fn time_of<T>(mut call: impl FnMut() -> T) -> Duration {
    let once = timed(1, &mut call);
    if once > LONG {
        return once.min(timed(1, &mut call));
    }
    let times = (BATCH.as_nanos() / once.as_nanos().max(1)).clamp(1, 100_000) as u32;
    let batches = (0..BATCHES).map(|_| timed(times, &mut call) / times).collect();
    Times::new(batches).percentile(50)
}

fn timed<T>(times: u32, call: &mut impl FnMut() -> T) -> Duration {
    let start = clock::of_thread();
    for _ in 0..times {
        black_box(call());
    }
    clock::of_thread() - start
}

/// Some times in ascending order.
#[derive(Clone, Debug, Default, PartialEq, Eq)]
pub struct Times(Vec<Duration>);

impl Times {
    pub fn new(mut times: Vec<Duration>) -> Times {
        times.sort();
        Times(times)
    }

    /// The smallest of the times that at least so many of a hundred do not exceed; zero of no times.
    pub fn percentile(&self, percent: usize) -> Duration {
        let rank = (self.0.len() * percent).div_ceil(100);
        self.0.get(rank.max(1) - 1).copied().unwrap_or_default()
    }

    pub fn most(&self) -> Duration {
        self.percentile(100)
    }
}

#[cfg(test)]
mod tests {
    use super::*;

    fn times(numbers: impl IntoIterator<Item = u64>) -> Times {
        Times::new(numbers.into_iter().map(Duration::from_millis).collect())
    }

    #[test]
    fn percentiles() {
        let hundred = times((1..=100).rev());
        for percent in [1, 50, 90, 99, 100] {
            assert_eq!(hundred.percentile(percent), Duration::from_millis(percent as u64));
        }
        assert_eq!(times([3, 1, 2]).percentile(50), Duration::from_millis(2));
        assert_eq!(times([3, 1, 2]).percentile(99), Duration::from_millis(3));
        assert_eq!(times([1, 2, 3, 4]).percentile(50), Duration::from_millis(2));
        assert_eq!(times([7]).percentile(1), Duration::from_millis(7));
        assert_eq!(times([]).most(), Duration::ZERO);
    }

    #[test]
    fn a_short_call_is_repeated() {
        let mut calls = 0;
        let time = time_of(|| calls += 1);
        assert!(calls > BATCHES && time < BATCH);
    }

    #[test]
    fn of_two_long_calls_the_shorter_counts() {
        let mut calls = 0;
        let time = time_of(|| {
            calls += 1;
            let (start, length) = (clock::of_thread(), LONG * if calls == 1 { 4 } else { 2 });
            while clock::of_thread() - start < length {}
        });
        assert!(calls == 2 && time >= LONG * 2 && time < LONG * 4);
    }
}
