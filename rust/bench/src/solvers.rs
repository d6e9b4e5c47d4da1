//! Programs run as processes with a limit of time: the two solvers, and the gap programs.

use std::io::{self, Read, Write};
use std::process::{Child, Command, Stdio};
use std::sync::mpsc::{self, Receiver, RecvTimeoutError};
use std::sync::{Arc, Mutex, MutexGuard};
use std::thread::{self, JoinHandle};
use std::time::Duration;

use crate::clock;
use crate::measure::Times;
use crate::smt;

/// What a program printed, None where it was stopped at the limit, and the processor time from its start to its end; a stopped
/// one counts as long as the limit.
pub struct Run {
    pub printed: Option<String>,
    pub time: Duration,
}

/// Runs a program, its input on standard input.
pub fn run(words: &[String], input: &[u8], limit: Duration) -> io::Result<Run> {
    let start = clock::of_programs();
    let mut child = Command::new(&words[0])
        .args(&words[1..])
        .stdin(Stdio::piped())
        .stdout(Stdio::piped())
        .stderr(Stdio::null())
        .spawn()?;
    let (mut standard_input, mut output) =
        (child.stdin.take().expect("piped"), child.stdout.take().expect("piped"));
    let child = Arc::new(Mutex::new(child));
    let (ended, watch) = mpsc::channel();
    let watcher = stop_after(limit, Arc::clone(&child), watch);
    // A program that answers before it has read everything closes the pipe; that is no fault of ours.
    let _ = standard_input.write_all(input);
    drop(standard_input);
    let mut printed = String::new();
    output.read_to_string(&mut printed)?;
    lock(&child).wait()?;
    let time = clock::of_programs() - start;
    drop(ended);
    let stopped = watcher.join().expect("the watching thread does not panic");
    if stopped {
        return Ok(Run { printed: None, time: limit });
    }
    Ok(Run { printed: Some(printed), time })
}

/// Stops the program at the limit, unless it ends before; answers whether it was stopped.
fn stop_after(limit: Duration, child: Arc<Mutex<Child>>, watch: Receiver<()>) -> JoinHandle<bool> {
    thread::spawn(move || {
        let late = watch.recv_timeout(limit) == Err(RecvTimeoutError::Timeout);
        late && lock(&child).kill().is_ok()
    })
}

fn lock(child: &Mutex<Child>) -> MutexGuard<'_, Child> {
    child.lock().expect("no thread panics with the program in its hands")
}

/// What a solver said, or that it was stopped.
#[derive(Clone, Copy, Debug, PartialEq, Eq)]
pub enum Said {
    /// There is a gap.
    Some,
    None,
    Unknown,
    TimedOut,
}

#[derive(Clone, Debug)]
pub struct Solver {
    pub name: &'static str,
    pub version: String,
    words: Vec<String>,
    /// The median time of its answer to the smallest question.
    pub start: Duration,
}

/// Both solvers, if they are installed.
pub const SOLVERS: [(&str, &[&str]); 2] =
    [("cvc5", &["--lang=smt2", "--strings-exp", "-q"]), ("z3", &["-smt2", "-in"])];

impl Solver {
    /// None where it is not installed.
    pub fn find(name: &'static str, arguments: &[&str], starts: usize) -> Option<Solver> {
        let version = Command::new(name).arg("--version").output().ok()?;
        let version = String::from_utf8_lossy(&version.stdout).lines().next().unwrap_or_default().to_string();
        let words = std::iter::once(&name).chain(arguments).map(|word| word.to_string()).collect();
        let mut solver = Solver { name, version, words, start: Duration::ZERO };
        let times = (0..starts).map(|_| solver.ask(smt::TRIVIAL, Duration::from_secs(10)).1).collect();
        solver.start = Times::new(times).percentile(50);
        Some(solver)
    }

    pub fn ask(&self, question: &str, limit: Duration) -> (Said, Duration) {
        let run = match run(&self.words, question.as_bytes(), limit) {
            Ok(run) => run,
            Err(error) => panic!("{} was not run: {error}", self.name),
        };
        let said = match run.printed.as_deref().map(str::trim) {
            Some("sat") => Said::Some,
            Some("unsat") => Said::None,
            Some("unknown") => Said::Unknown,
            Some(other) => panic!("{} answered {other:?} to\n{question}", self.name),
            None => Said::TimedOut,
        };
        (said, run.time)
    }
}
