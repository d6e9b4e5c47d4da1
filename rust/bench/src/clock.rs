//! Processor time: what this thread, or the programs that it ran and waited for, have used so far.
//!
//! Everyone here works in one thread, so that on an idle machine this is the time that passes; on a busy one it still says what
//! the work cost. The C library is asked itself, since Rust's standard library has no such clock.

use std::time::Duration;

const THREAD_CLOCK: i32 = 3;
const CHILDREN: i32 = -1;

#[repr(C)]
#[derive(Clone, Copy, Default)]
struct Time {
    seconds: i64,
    /// Nanoseconds of the clock, microseconds of what children used.
    parts: i64,
}

#[repr(C)]
#[derive(Default)]
struct Usage {
    user: Time,
    system: Time,
    others: [i64; 14],
}

extern "C" {
    fn clock_gettime(clock: i32, time: *mut Time) -> i32;
    fn getrusage(who: i32, usage: *mut Usage) -> i32;
}

/// Of this thread.
pub fn of_thread() -> Duration {
    let mut time = Time::default();
    // SAFETY: the C library writes one `timespec`, which is two numbers of 64 bits on 64-bit Linux.
    let status = unsafe { clock_gettime(THREAD_CLOCK, &mut time) };
    assert_eq!(status, 0, "there is no clock for this thread");
    Duration::new(time.seconds as u64, time.parts as u32)
}

/// Of all programs that have ended and were waited for.
pub fn of_programs() -> Duration {
    let mut usage = Usage::default();
    // SAFETY: the C library writes one `rusage`, which is two `timeval` and fourteen numbers, all of 64 bits on 64-bit Linux.
    let status = unsafe { getrusage(CHILDREN, &mut usage) };
    assert_eq!(status, 0, "what programs use is not told");
    let duration = |time: Time| Duration::new(time.seconds as u64, time.parts as u32 * 1_000);
    duration(usage.user) + duration(usage.system)
}

#[cfg(test)]
mod tests {
    use super::*;

    #[test]
    fn work_takes_time() {
        let (thread, programs) = (of_thread(), of_programs());
        std::hint::black_box((0..1_000_000u64).map(std::hint::black_box).sum::<u64>());
        assert!(of_thread() > thread);
        std::process::Command::new("sh").args(["-c", ":"]).status().unwrap();
        assert!(of_programs() > programs);
    }
}
