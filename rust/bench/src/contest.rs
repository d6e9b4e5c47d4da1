//! Every pair put to everyone: the verified library, the oracle, and each solver in each encoding. All answers are compared.

use std::time::Duration;

use crate::corpus::{Drawn, Family, Pair};
use crate::measure::{time_of, Times};
use crate::settings::Settings;
use crate::smt::{self, Encoding};
use crate::solvers::{self, Said, Solver};

/// One answer of one contestant.
#[derive(Clone, Copy, Debug)]
pub struct Measured {
    pub without_start: Duration,
    /// None where no program of it was there to start.
    pub with_start: Option<Duration>,
    pub said: Said,
}

/// One contestant on the pairs of a family; None where the pair was not put to it.
#[derive(Clone, Debug)]
pub struct Contestant {
    pub name: String,
    pub measured: Vec<Option<Measured>>,
}

pub const OURS: &str = "ours";
pub const ORACLE: &str = "oracle";

#[derive(Clone, Debug)]
pub struct Contest {
    pub family: Family,
    pub names: Vec<String>,
    pub past_limits: usize,
    /// Ours first, the oracle second, then the solvers.
    pub contestants: Vec<Contestant>,
    /// What they do not agree on, in words.
    pub differences: Vec<String>,
}

impl Contest {
    /// The pairs that have gaps.
    pub fn with_gaps(&self) -> usize {
        let ours = self.contestants[0].measured.iter().flatten();
        ours.filter(|measured| measured.said == Said::Some).count()
    }

    /// The encoding in which a solver does best at a percentile, without start. One that was not put to all pairs has spent its
    /// budget, and counts only where all have.
    pub fn best_of(&self, solver: &str, percent: usize) -> Option<&Contestant> {
        let encodings = self.contestants.iter().filter(|one| one.name.starts_with(solver) && one.pairs() > 0);
        let most = encodings.clone().map(Contestant::pairs).max()?;
        let whole = encodings.filter(|one| one.pairs() == most);
        whole.min_by_key(|one| one.without_start(one).percentile(percent))
    }
}

impl Contestant {
    fn new(name: &str) -> Contestant {
        Contestant { name: name.to_string(), measured: Vec::new() }
    }

    pub fn pairs(&self) -> usize {
        self.measured.iter().flatten().count()
    }

    pub fn times_said(&self, said: Said) -> usize {
        self.measured.iter().flatten().filter(|measured| measured.said == said).count()
    }

    /// The times without start of the pairs that were put to both this one and another.
    pub fn without_start(&self, other: &Contestant) -> Times {
        let both = self.measured.iter().zip(&other.measured).filter(|(_, other)| other.is_some());
        Times::new(both.filter_map(|(measured, _)| Some((*measured)?.without_start)).collect())
    }

    /// The same with start.
    pub fn with_start(&self, other: &Contestant) -> Times {
        let both = self.measured.iter().zip(&other.measured).filter(|(_, other)| other.is_some());
        Times::new(both.filter_map(|(measured, _)| (*measured)?.with_start).collect())
    }
}

pub fn run(drawn: &Drawn, found: &[Solver], settings: &Settings) -> Contest {
    let mut ours = Contestant::new(OURS);
    let mut oracle = Contestant::new(ORACLE);
    let mut differences = Vec::new();
    for pair in &drawn.pairs {
        let (count, measured) = ours_on(pair, settings);
        let (oracle_count, oracle_measured) = oracle_on(pair, settings);
        if count != oracle_count {
            differences.push(format!("{}: ours counts {count} gaps, the oracle {oracle_count}", pair.name));
        }
        ours.measured.push(Some(measured));
        oracle.measured.push(Some(oracle_measured));
    }
    let mut contestants = vec![ours, oracle];
    for solver in found {
        for answers in solver_on(drawn, solver, settings) {
            differences.extend(disagreements(drawn, &contestants[0], &answers));
            contestants.push(answers);
        }
    }
    let names = drawn.pairs.iter().map(|pair| pair.name.clone()).collect();
    Contest { family: drawn.family, names, past_limits: drawn.past_limits, contestants, differences }
}

fn measured(count: u64, without_start: Duration, with_start: Option<Duration>) -> (u64, Measured) {
    let said = if count > 0 { Said::Some } else { Said::None };
    (count, Measured { without_start, with_start, said })
}

fn ours_on(pair: &Pair, settings: &Settings) -> (u64, Measured) {
    let [first, second] = &pair.stored;
    let count = portal::compare(first, second).expect("within the limits").len() as u64;
    let time = time_of(|| portal::ffi::gaps(first, second));
    measured(count, time, program_on(&settings.gaps, pair, count, settings))
}

fn oracle_on(pair: &Pair, settings: &Settings) -> (u64, Measured) {
    let [first, second] = &pair.stored;
    let counted = || oracle::Comparison::of(first, second).map(|comparison| comparison.count());
    let mut count = 0;
    let time = time_of(|| count = counted().expect("within the limits"));
    measured(count, time, program_on(&settings.oracle_gaps, pair, count, settings))
}

/// A gap program on a pair: its first line must say the same. One that is stopped at the limit counts as long as that.
fn program_on(words: &Option<Vec<String>>, pair: &Pair, count: u64, settings: &Settings) -> Option<Duration> {
    let words = words.as_ref()?;
    let input = pair.input();
    let run = || {
        let run = solvers::run(words, &input, settings.limit).expect("the gap program runs");
        let first_line = run.printed.as_ref().map(|printed| printed.lines().next().unwrap_or_default());
        let expected = format!("gaps {count}");
        assert!(
            first_line.is_none() || first_line == Some(&expected),
            "{} {words:?} {first_line:?}",
            pair.name
        );
        run.time
    };
    Some(repeated(run(), settings.repeats, run))
}

/// The median of some runs of a process, or the first of them where that takes long.
fn repeated(first: Duration, repeats: usize, mut run: impl FnMut() -> Duration) -> Duration {
    const LONG: Duration = Duration::from_millis(50);
    let repeats = if first > LONG { 1 } else { repeats };
    let more = (1..repeats).map(|_| run());
    Times::new(std::iter::once(first).chain(more).collect()).percentile(50)
}

/// A solver in each encoding, pair by pair. Its start is taken from the smallest question, asked once a pair, so that both
/// are timed under the same conditions.
fn solver_on(drawn: &Drawn, solver: &Solver, settings: &Settings) -> Vec<Contestant> {
    let mut answers = Encoding::ALL.map(|encoding| Asked::new(solver, encoding));
    let mut starts = Vec::new();
    for pair in &drawn.pairs {
        starts.push(solver.ask(smt::TRIVIAL, settings.limit).1);
        for asked in &mut answers {
            asked.ask(pair, settings);
        }
    }
    let start = Times::new(starts).percentile(50);
    answers.into_iter().map(|asked| asked.without(start)).collect()
}

/// A solver in one encoding, and what it has spent on the family so far.
struct Asked<'a> {
    solver: &'a Solver,
    encoding: Encoding,
    spent: Duration,
    answers: Vec<Option<(Said, Duration)>>,
}

impl<'a> Asked<'a> {
    fn new(solver: &'a Solver, encoding: Encoding) -> Asked<'a> {
        Asked { solver, encoding, spent: Duration::ZERO, answers: Vec::new() }
    }

    fn ask(&mut self, pair: &Pair, settings: &Settings) {
        if self.spent >= settings.budget {
            self.answers.push(None);
            return;
        }
        let question = smt::question(pair, self.encoding);
        let (said, time) = self.solver.ask(&question, settings.limit);
        self.spent += time;
        let time = repeated(time, settings.repeats, || self.solver.ask(&question, settings.limit).1);
        self.answers.push(Some((said, time)));
    }

    fn without(self, start: Duration) -> Contestant {
        let measured = |(said, time): (Said, Duration)| Measured {
            without_start: time.saturating_sub(start),
            with_start: Some(time),
            said,
        };
        Contestant {
            name: format!("{} {}", self.solver.name, self.encoding.name()),
            measured: self.answers.into_iter().map(|answer| answer.map(measured)).collect(),
        }
    }
}

/// A solver that says "some" where we list none, or the other way round.
fn disagreements(drawn: &Drawn, ours: &Contestant, solver: &Contestant) -> Vec<String> {
    let differs = |(at, pair): (usize, &Pair)| {
        let (ours, said) = (ours.measured[at]?.said, solver.measured[at]?.said);
        let differ = matches!((ours, said), (Said::Some, Said::None) | (Said::None, Said::Some));
        differ.then(|| format!("{}: ours has {ours:?}, {} has {said:?}", pair.name, solver.name))
    };
    drawn.pairs.iter().enumerate().filter_map(differs).collect()
}
