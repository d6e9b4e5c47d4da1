//! The benchmark: the verified library, the oracle and two solvers on the same pairs of tables; and python3 on the same policies.

use std::fs;
use std::process::exit;

use bench::contest::{self, Contest};
use bench::corpus::{self, worst, Family};
use bench::goals::{self, Goal};
use bench::settings::Settings;
use bench::solvers::{Solver, SOLVERS};
use bench::{
    bounds, growth, instructions, judging, lengths, machine, plot, python, reading, stack, summary, table,
};

fn main() {
    let settings = Settings::read().unwrap_or_else(|error| {
        eprintln!("bench: {error}");
        exit(2)
    });
    fs::create_dir_all(&settings.folder).expect("the folder for results");
    let mut report = Report::default();
    report.say(&machine::text());
    let found = solvers(&settings, &mut report);
    let contests = contests(&settings, &found, &mut report);
    judge(&settings, &mut report);
    read(&settings, &mut report);
    grow(&settings, &found, &mut report);
    count(&settings, &mut report);
    bound(&contests, &mut report);
    report.say("## Summary\n");
    report.say(&summary::text(&contests));
    report.say("## To reach\n");
    let text = goals::text(&report.goals);
    report.say(&text);
    report.end(&settings)
}

/// What is printed, which is also written to a file, and what is to be known at the end.
#[derive(Default)]
struct Report {
    text: String,
    goals: Vec<Goal>,
    differences: Vec<String>,
}

impl Report {
    fn say(&mut self, text: &str) {
        println!("{text}");
        self.text.push_str(text);
        self.text.push('\n');
    }

    /// Answers that differ fail the run; a goal that is missed does not.
    fn end(mut self, settings: &Settings) -> ! {
        let differences = std::mem::take(&mut self.differences);
        for difference in &differences {
            self.say(&format!("DIFFERENCE: {difference}"));
        }
        let all_alike = differences.is_empty();
        self.say(if all_alike { "All answers agree." } else { "The answers do not agree." });
        fs::write(settings.folder.join("report.txt"), &self.text).expect("the report is written");
        exit(i32::from(!all_alike))
    }
}

fn solvers(settings: &Settings, report: &mut Report) -> Vec<Solver> {
    let starts = if settings.quick { 5 } else { 21 };
    let mut found = Vec::new();
    for (name, arguments) in SOLVERS {
        match Solver::find(name, arguments, starts) {
            Some(solver) => {
                report.say(&format!(
                    "{name}: {}; its start takes {}",
                    solver.version,
                    table::time(solver.start)
                ));
                found.push(solver);
            }
            None => report.say(&format!("{name} is not installed: going on without it")),
        }
    }
    found
}

fn contests(settings: &Settings, found: &[Solver], report: &mut Report) -> Vec<Contest> {
    report.say("\n## Comparing\n");
    let mut contests = Vec::new();
    for family in Family::ALL {
        let drawn = corpus::draw(family, settings.seed, settings.pairs);
        let mut contest = contest::run(&drawn, found, settings);
        report.say(&table::contest(&contest));
        report.goals.extend(goals::faster_than_cvc5(&contest));
        report.differences.append(&mut contest.differences);
        contests.push(contest);
    }
    report.goals.push(goals::no_long_pair(&contests));
    contests
}

fn judge(settings: &Settings, report: &mut Report) {
    report.say("## Judgements a second\n");
    let rates = judging::run(settings.seed);
    report.say(&judging::text(&rates));
    report.goals.extend(goals::judging_no_slower(&rates));
    report.differences.extend(rates.into_iter().flat_map(|rates| rates.differences));
}

/// Policies in the JSON form: how fast they are read, and how the time grows with the text.
fn read(settings: &Settings, report: &mut Report) {
    report.say("## Reading JSON\n");
    match python::version() {
        Some(version) => report.say(&format!("python3: {version}\n")),
        None => report.say("python3 is not installed: going on without it\n"),
    }
    report.say("megabytes a second");
    let rates = reading::run(settings.seed, settings.policies);
    report.say(&reading::text(&rates));
    report.goals.extend(goals::reading_no_slower(&rates));
    report.differences.extend(rates.into_iter().flat_map(|rates| rates.differences));
    report.say("nanoseconds a byte\n");
    for kind in &corpus::texts::ALL {
        let lengths = lengths::run(kind, settings);
        report.say(&lengths::text(&lengths));
        report.goals.push(goals::linear_reading(&lengths));
        report.differences.extend(lengths.differences);
    }
}

fn grow(settings: &Settings, found: &[Solver], report: &mut Report) {
    report.say("## Growth\n");
    let series = corpus::growth::all(settings.seed);
    let grown: Vec<growth::Grown> = series.iter().map(|one| growth::run(one, found, settings)).collect();
    for one in &grown {
        report.say(&growth::text(one));
    }
    fs::write(settings.folder.join("growth.svg"), plot::picture(&grown)).expect("the picture is written");
}

/// Instructions, and the stack.
fn count(settings: &Settings, report: &mut Report) {
    report.say("## Instructions and stack\n");
    let counted = |program: &Option<String>| {
        instructions::count(program.as_ref()?, worst::POSITIONS_ONE_COLUMN, &settings.folder)
    };
    let (now, before) = (counted(&settings.count), counted(&settings.count_before));
    for (name, counted) in [("now", &now), ("before, bit by bit", &before)] {
        match counted {
            Some(counted) => report.say(&instructions::text(name, worst::POSITIONS_ONE_COLUMN, counted)),
            None => report.say(&format!("{name}: not counted\n")),
        }
    }
    if let (Some(now), Some(before)) = (now, before) {
        report.goals.push(goals::fewer_instructions(before.all, now.all));
    }
    let drawn = corpus::draw(Family::Worst, settings.seed, 0);
    if let Some(used) = stack::used(&drawn.pairs) {
        report.say(&stack::text(&used));
        report.goals.push(goals::little_stack(&used));
    }
}

/// The worst cases beside what any way of comparing would have to do.
fn bound(contests: &[Contest], report: &mut Report) {
    report.say("## What the limit would be\n");
    let pairs = corpus::draw(Family::Worst, 0, 0).pairs;
    let contest =
        contests.iter().find(|contest| contest.family == Family::Worst).expect("all families were run");
    let mut rows = vec![["pair", "bytes", "positions", "states", "words", "ours", "ns a word"]
        .map(String::from)
        .to_vec()];
    for (pair, measured) in pairs.iter().zip(&contest.contestants[0].measured) {
        let bounds = bounds::of(pair);
        let time = measured.map(|measured| measured.without_start).unwrap_or_default();
        let mut row = vec![pair.name.clone()];
        row.extend(
            [bounds.bytes, bounds.positions, bounds.states, bounds.words].map(|number| number.to_string()),
        );
        row.push(table::time(time));
        row.push(table::digits(time.as_nanos() as f64 / bounds.words as f64));
        rows.push(row);
    }
    report.say(&table::aligned(&rows));
}
