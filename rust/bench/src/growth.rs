//! How times grow with positions, states, statements and kinds.

use std::time::Duration;

use crate::corpus::growth::Series;
use crate::measure::{time_of, Times};
use crate::settings::Settings;
use crate::smt::{self, Encoding};
use crate::solvers::{Said, Solver};
use crate::table;

/// One curve: a time for each size, or none where a solver was stopped, or took no longer than its start.
pub struct Curve {
    pub name: String,
    pub times: Vec<Option<Duration>>,
}

pub struct Grown {
    pub quantity: &'static str,
    pub sizes: Vec<u64>,
    pub curves: Vec<Curve>,
}

/// The solvers' curves are in the encoding of source 001, without their start.
pub fn run(series: &Series, found: &[Solver], settings: &Settings) -> Grown {
    let ours = |[first, second]: &[Vec<u8>; 2]| time_of(|| portal::ffi::gaps(first, second));
    let counted =
        |[first, second]: &[Vec<u8>; 2]| oracle::Comparison::of(first, second).map(|one| one.count());
    let mut curves = vec![
        Curve { name: "ours".to_string(), times: each(series, ours) },
        Curve { name: "oracle".to_string(), times: each(series, |stored| time_of(|| counted(stored))) },
    ];
    curves.extend(found.iter().map(|solver| solver_curve(series, solver, settings)));
    Grown { quantity: series.quantity, sizes: series.pairs.iter().map(|(size, _)| *size).collect(), curves }
}

fn each(series: &Series, time: impl Fn(&[Vec<u8>; 2]) -> Duration) -> Vec<Option<Duration>> {
    series.pairs.iter().map(|(_, pair)| Some(time(&pair.stored))).collect()
}

/// Its start is the median of the smallest question, asked once a size. A time that is not above that is left out.
fn solver_curve(series: &Series, solver: &Solver, settings: &Settings) -> Curve {
    let (mut starts, mut times) = (Vec::new(), Vec::new());
    for (_, pair) in &series.pairs {
        let question = smt::question(pair, Encoding::ALL[0]);
        let mut asked: Vec<(Said, Duration)> = vec![solver.ask(&question, settings.limit)];
        if asked[0].0 != Said::TimedOut {
            asked.extend((1..settings.repeats).map(|_| solver.ask(&question, settings.limit)));
        }
        let late = asked[0].0 == Said::TimedOut;
        let median = Times::new(asked.into_iter().map(|(_, time)| time).collect()).percentile(50);
        times.push((!late).then_some(median));
        starts.push(solver.ask(smt::TRIVIAL, settings.limit).1);
    }
    let start = Times::new(starts).percentile(50);
    let above = |time: Option<Duration>| time?.checked_sub(start).filter(|time| !time.is_zero());
    Curve { name: solver.name.to_string(), times: times.into_iter().map(above).collect() }
}

/// The curves as a small table.
pub fn text(grown: &Grown) -> String {
    let mut header = vec![grown.quantity.to_string()];
    header.extend(grown.sizes.iter().map(u64::to_string));
    let mut rows = vec![header];
    for curve in &grown.curves {
        let mut row = vec![curve.name.clone()];
        row.extend(curve.times.iter().map(|time| time.map_or("-".to_string(), table::time)));
        rows.push(row);
    }
    table::aligned(&rows)
}
