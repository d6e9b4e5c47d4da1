//! A reader of JSON that others wrote: python3's, where it is installed. Its process takes the times itself, so that its start is no
//! part of them, in the way of `measure`.

use std::process::Command;
use std::time::Duration;

use crate::solvers;

const LIMIT: Duration = Duration::from_secs(120);

/// Reads texts, each behind its length in four bytes, and prints the nanoseconds that it takes to read each.
const PROGRAM: &str = r#"
import json, sys, time

def timed(times, text):
    start = time.thread_time_ns()
    for _ in range(times):
        json.loads(text)
    return (time.thread_time_ns() - start) / times

def time_of(text):
    once = timed(1, text)
    if once > 10_000_000:
        return min(once, timed(1, text))
    times = max(1, min(100_000, int(1_000_000 / max(once, 1))))
    return sorted(timed(times, text) for _ in range(5))[2]

texts = sys.stdin.buffer.read()
at = 0
while at < len(texts):
    length = int.from_bytes(texts[at:at + 4], "big")
    at += 4 + length
    print(round(time_of(texts[at - length:at])))
"#;

/// None where it is not installed.
pub fn version() -> Option<String> {
    let output = Command::new("python3").arg("--version").output().ok()?;
    output.status.success().then(|| String::from_utf8_lossy(&output.stdout).trim().to_string())
}

/// The time of each text, from its bytes to python's own objects; None where it is not installed, or does not read them all.
pub fn times(texts: &[&[u8]]) -> Option<Vec<Duration>> {
    let words = ["python3", "-c", PROGRAM].map(String::from);
    let mut input = Vec::new();
    for text in texts {
        input.extend((text.len() as u32).to_be_bytes());
        input.extend_from_slice(text);
    }
    let printed = solvers::run(&words, &input, LIMIT).ok()?.printed?;
    let times: Option<Vec<Duration>> =
        printed.lines().map(|line| Some(Duration::from_nanos(line.parse().ok()?))).collect();
    times.filter(|times| times.len() == texts.len())
}

#[cfg(test)]
mod tests {
    use super::*;

    #[test]
    fn a_time_for_each_text() {
        if version().is_some() {
            let times = times(&[b"[1, 2]", b"{}"]).expect("two times");
            assert!(times.iter().all(|time| !time.is_zero()));
            assert_eq!(super::times(&[b"[1, 2]", b"{"]), None);
        }
    }
}
