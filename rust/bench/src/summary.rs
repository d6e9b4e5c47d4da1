//! One line a family: ours, the oracle, and each solver in the encoding in which it does best.

use crate::contest::{Contest, Contestant};
use crate::solvers::Said;
use crate::table::{aligned, ratio, time};

/// A solver's best is taken at the 99th percentile; times are without start.
pub fn text(contests: &[Contest]) -> String {
    let mut rows =
        vec![["family", "contestant", "pairs", "median", "99 %", "most", "late", "x median", "x 99 %"]
            .map(String::from)
            .to_vec()];
    for contest in contests {
        let [ours, oracle] = [&contest.contestants[0], &contest.contestants[1]];
        let solvers = ["cvc5", "z3"].into_iter().filter_map(|solver| contest.best_of(solver, 99));
        for (at, one) in [ours, oracle].into_iter().chain(solvers).enumerate() {
            let family = if at == 0 { contest.family.name() } else { "" };
            rows.push(line(family, one, ours));
        }
    }
    aligned(&rows)
}

fn line(family: &str, one: &Contestant, ours: &Contestant) -> Vec<String> {
    let (times, our_times) = (one.without_start(one), ours.without_start(one));
    let mut words = vec![family.to_string(), one.name.clone(), one.pairs().to_string()];
    words.extend([50, 99, 100].map(|percent| time(times.percentile(percent))));
    words.push(one.times_said(Said::TimedOut).to_string());
    words.extend([50, 99].map(|percent| ratio(times.percentile(percent), our_times.percentile(percent))));
    words
}
