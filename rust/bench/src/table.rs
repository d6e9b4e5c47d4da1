//! Results as text.

use std::time::Duration;

use crate::contest::{Contest, Contestant};
use crate::corpus::Family;
use crate::solvers::Said;

/// Columns of words, the first set to the left and the others to the right.
pub fn aligned(rows: &[Vec<String>]) -> String {
    let columns = rows.iter().map(Vec::len).max().unwrap_or(0);
    let width =
        |column: usize| rows.iter().filter_map(|row| row.get(column)).map(|word| word.chars().count()).max();
    let widths: Vec<usize> = (0..columns).map(|column| width(column).unwrap_or(0)).collect();
    let mut text = String::new();
    for row in rows {
        let mut line = String::new();
        for (column, word) in row.iter().enumerate() {
            let blanks = " ".repeat(widths[column] - word.chars().count());
            let cell = if column == 0 { format!("{word}{blanks}") } else { format!("  {blanks}{word}") };
            line.push_str(&cell);
        }
        text.push_str(line.trim_end());
        text.push('\n');
    }
    text
}

/// Three digits and a unit.
pub fn time(duration: Duration) -> String {
    let nanoseconds = duration.as_nanos() as f64;
    let (number, unit) = match duration.as_nanos() {
        0..=999 => (nanoseconds, "ns"),
        1_000..=999_999 => (nanoseconds / 1e3, "µs"),
        1_000_000..=999_999_999 => (nanoseconds / 1e6, "ms"),
        _ => (nanoseconds / 1e9, "s"),
    };
    format!("{} {unit}", digits(number))
}

/// Three digits at least, and no more of the fraction than they need.
pub fn digits(number: f64) -> String {
    if number >= 100.0 {
        format!("{number:.0}")
    } else if number >= 10.0 {
        format!("{number:.1}")
    } else {
        format!("{number:.2}")
    }
}

/// How many times as long.
pub fn ratio(time: Duration, ours: Duration) -> String {
    if ours.is_zero() {
        return "-".to_string();
    }
    digits(time.as_secs_f64() / ours.as_secs_f64())
}

const HEADER: [&str; 14] = [
    "without start",
    "pairs",
    "median",
    "90 %",
    "99 %",
    "most",
    "late",
    "unknown",
    "x median",
    "x 99 %",
    "| with start: median",
    "99 %",
    "x median",
    "x 99 %",
];

/// The table of one family.
pub fn contest(contest: &Contest) -> String {
    let Contest { family, names, past_limits, contestants, .. } = contest;
    let left_out = if *past_limits > 0 {
        format!("; {past_limits} more drawn were past a limit")
    } else {
        String::new()
    };
    let mut text =
        format!("{}: {} pairs, {} with gaps{left_out}\n", family.name(), names.len(), contest.with_gaps());
    let mut rows = vec![HEADER.iter().map(|word| word.to_string()).collect::<Vec<_>>()];
    rows.extend(contestants.iter().map(|contestant| line(contestant, &contestants[0])));
    text.push_str(&aligned(&rows));
    if *family == Family::Worst {
        text.push('\n');
        text.push_str(&pair_by_pair(contest));
    }
    text
}

/// Ratios are to ours on the same pairs.
fn line(contestant: &Contestant, ours: &Contestant) -> Vec<String> {
    let (without, with) = (contestant.without_start(contestant), contestant.with_start(contestant));
    let (our_without, our_with) = (ours.without_start(contestant), ours.with_start(contestant));
    let mut words = vec![contestant.name.clone(), contestant.pairs().to_string()];
    words.extend([50, 90, 99, 100].map(|percent| time(without.percentile(percent))));
    words.extend([Said::TimedOut, Said::Unknown].map(|said| contestant.times_said(said).to_string()));
    words.extend([50, 99].map(|percent| ratio(without.percentile(percent), our_without.percentile(percent))));
    words.extend([50, 99].map(|percent| time(with.percentile(percent))));
    words.extend([50, 99].map(|percent| ratio(with.percentile(percent), our_with.percentile(percent))));
    words
}

/// Each pair by itself, without start.
fn pair_by_pair(contest: &Contest) -> String {
    let mut header = vec!["pair".to_string()];
    header.extend(contest.contestants.iter().map(|contestant| contestant.name.clone()));
    let mut rows = vec![header];
    for (at, name) in contest.names.iter().enumerate() {
        let mut row = vec![name.clone()];
        row.extend(contest.contestants.iter().map(|contestant| one(contestant, at)));
        rows.push(row);
    }
    aligned(&rows)
}

fn one(contestant: &Contestant, at: usize) -> String {
    match contestant.measured[at] {
        None => "not run".to_string(),
        Some(measured) if measured.said == Said::TimedOut => "late".to_string(),
        Some(measured) => time(measured.without_start),
    }
}

#[cfg(test)]
mod tests {
    use super::*;

    #[test]
    fn words() {
        assert_eq!(time(Duration::from_nanos(7)), "7.00 ns");
        assert_eq!(time(Duration::from_nanos(1_234)), "1.23 µs");
        assert_eq!(time(Duration::from_micros(98_765)), "98.8 ms");
        assert_eq!(time(Duration::from_secs(10)), "10.0 s");
        assert_eq!(ratio(Duration::from_micros(250), Duration::from_micros(2)), "125");
        assert_eq!(ratio(Duration::from_micros(250), Duration::ZERO), "-");
    }

    #[test]
    fn columns() {
        let rows = [vec!["a".to_string(), "10".to_string()], vec!["bc".to_string(), "5".to_string()]];
        assert_eq!(aligned(&rows), "a   10\nbc   5\n");
    }
}
