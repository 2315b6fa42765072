//! Times.

use std::time::{Duration, Instant};

/// Far above the resolution of the clock; shorter calls are timed in groups.
const GROUP: Duration = Duration::from_micros(50);

/// Every call is repeated for so long at least.
const SPAN: Duration = Duration::from_millis(100);

/// The least time of a call in `reps` or more: other work on the machine only ever adds to a time.
pub fn least(reps: usize, mut call: impl FnMut()) -> Duration {
    let begin = Instant::now();
    call();
    let group = (GROUP.as_nanos() / begin.elapsed().as_nanos().max(1)) as u32 + 1;
    let mut least = Duration::MAX;
    let mut rounds = 0;
    while rounds < reps || begin.elapsed() < SPAN {
        let start = Instant::now();
        (0..group).for_each(|_| call());
        least = least.min(start.elapsed() / group);
        rounds += 1;
    }
    least
}

/// Milliseconds, in three digits or more.
pub fn milliseconds(t: Duration) -> String {
    let ms = t.as_secs_f64() * 1e3;
    let places = match ms {
        ms if ms < 1.0 => 3,
        ms if ms < 10.0 => 2,
        ms if ms < 100.0 => 1,
        _ => 0,
    };
    format!("{ms:.places$}")
}
