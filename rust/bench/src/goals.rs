//! What is to be reached in one run, and by how much it is reached or missed.

use std::time::Duration;

use crate::contest::Contest;
use crate::corpus::worst::ALL_KINDS;
use crate::judging::Rates;
use crate::lengths::Lengths;
use crate::reading;
use crate::stack::{Used, WORKSPACE_BYTES};
use crate::table::{digits, time};

const TIMES_FASTER: f64 = 10.0;
const MOST_TIME: Duration = Duration::from_millis(100);
const TIMES_FEWER: f64 = 20.0;
const MOST_STACK: usize = 16 * 1_024;
/// A byte of the longest text may cost so many times one of the shortest, where the time grows linearly.
const MOST_GROWTH: f64 = 2.0;

/// One goal in words.
pub struct Goal {
    pub reached: bool,
    pub words: String,
}

fn goal(reached: bool, words: String) -> Goal {
    Goal { reached, words }
}

/// Median and 99th percentile against the encoding in which cvc5 does best.
pub fn faster_than_cvc5(contest: &Contest) -> Vec<Goal> {
    let ours = &contest.contestants[0];
    let words = |(percent, name)| {
        let best = contest.best_of("cvc5", percent)?;
        let (theirs, ours) = (best.without_start(best), ours.without_start(best));
        let times =
            theirs.percentile(percent).as_secs_f64() / ours.percentile(percent).as_secs_f64().max(1e-9);
        let text =
            format!("{}: {name} {} times less than {}", contest.family.name(), digits(times), best.name);
        Some(goal(times >= TIMES_FASTER, text))
    };
    [(50, "median"), (99, "99th percentile")].into_iter().filter_map(words).collect()
}

/// "No pair within the limits over 100 ms but the last worst case."
pub fn no_long_pair(contests: &[Contest]) -> Goal {
    let mut long = Vec::new();
    let mut longest = Duration::ZERO;
    for contest in contests {
        for (name, measured) in contest.names.iter().zip(&contest.contestants[0].measured) {
            let Some(measured) = measured else { continue };
            if name != ALL_KINDS {
                longest = longest.max(measured.without_start);
                if measured.without_start > MOST_TIME {
                    long.push(format!("{} {name} ({})", contest.family.name(), time(measured.without_start)));
                }
            }
        }
    }
    let which = if long.is_empty() {
        String::new()
    } else {
        format!("; {} over 100 ms: {}", long.len(), long.join(", "))
    };
    goal(long.is_empty(), format!("longest pair but \"{ALL_KINDS}\": {}{which}", time(longest)))
}

/// Instructions of the whole comparison of one column of 512 positions, bit by bit and by words.
pub fn fewer_instructions(before: u64, now: u64) -> Goal {
    let times = before as f64 / now.max(1) as f64;
    goal(
        times >= TIMES_FEWER,
        format!("{} times fewer instructions than the bit-by-bit step: {now} for {before}", digits(times)),
    )
}

pub fn judging_no_slower(rates: &[Rates]) -> Vec<Goal> {
    let one = |rates: &Rates| {
        let times = rates.ours / rates.oracle;
        let text = format!(
            "judging with {} statements: {} times the oracle's rate",
            rates.statements,
            digits(times)
        );
        goal(times >= 1.0, text)
    };
    rates.iter().map(one).collect()
}

pub fn reading_no_slower(rates: &[reading::Rates]) -> Vec<Goal> {
    let one = |rates: &reading::Rates| {
        let times = rates.ours / rates.oracle;
        let text = format!(
            "reading {} statements, {}: {} times the oracle's rate",
            rates.statements,
            rates.written,
            digits(times)
        );
        goal(times >= 1.0, text)
    };
    rates.iter().map(one).collect()
}

/// Of the shortest and the longest text that there is.
pub fn linear_reading(lengths: &Lengths) -> Goal {
    let ours: Vec<f64> = lengths.curves[0].nanoseconds.iter().flatten().copied().collect();
    let times = ours[ours.len() - 1] / ours[0];
    let late = if lengths.is_late { "; longer ones would take too long" } else { "" };
    goal(
        times <= MOST_GROWTH && !lengths.is_late,
        format!("reading {}: {} times as long a byte in the longest text{late}", lengths.of, digits(times)),
    )
}

pub fn little_stack(used: &Used) -> Goal {
    let beside = used.gaps.max(used.gap).saturating_sub(WORKSPACE_BYTES).max(used.judge);
    goal(beside < MOST_STACK, format!("{beside} bytes of stack beside the workspace, of {MOST_STACK}"))
}

pub fn text(goals: &[Goal]) -> String {
    let line =
        |goal: &Goal| format!("{}  {}\n", if goal.reached { "reached" } else { "MISSED " }, goal.words);
    goals.iter().map(line).collect()
}
