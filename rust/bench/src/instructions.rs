//! Instructions of one comparison, counted by callgrind over the program `count`.

use std::collections::HashMap;
use std::fs;
use std::path::Path;
use std::process::{Command, Stdio};

use crate::table;

/// What one entry point executed on one pair.
#[derive(Clone, Debug, Default, PartialEq, Eq)]
pub struct Counted {
    pub all: u64,
    /// By function, what it executed itself, most first.
    pub functions: Vec<(String, u64)>,
}

/// The instructions of the verified entry point on the pair of this name; None where valgrind is not there.
pub fn count(program: &str, pair: &str, folder: &Path) -> Option<Counted> {
    let file = folder.join("callgrind.out");
    let status = Command::new("valgrind")
        .args(["--tool=callgrind", "--toggle-collect=stamenhum_gaps"])
        .arg(format!("--callgrind-out-file={}", file.display()))
        .args([program, pair])
        .stdout(Stdio::null())
        .stderr(Stdio::null())
        .status()
        .ok()?;
    if !status.success() {
        return None;
    }
    Some(read(&fs::read_to_string(file).ok()?))
}

/// Callgrind's own text: a line `fn=` names the function at hand, a line that begins with a number or a sign is its cost,
/// and the line behind `calls=` is the cost of a call, which is counted at the called function.
fn read(text: &str) -> Counted {
    let mut names = HashMap::new();
    let mut own: HashMap<String, u64> = HashMap::new();
    let (mut at_hand, mut of_call) = (String::new(), false);
    for line in text.lines() {
        if let Some(name) = line.strip_prefix("fn=") {
            at_hand = full_name(name, &mut names);
        } else if let Some(name) = line.strip_prefix("cfn=") {
            full_name(name, &mut names);
        } else if line.starts_with("calls=") {
            of_call = true;
        } else if line.starts_with(|first: char| first.is_ascii_digit() || "+-*".contains(first)) {
            let cost = line.split_whitespace().nth(1).and_then(|word| word.parse::<u64>().ok());
            if !std::mem::take(&mut of_call) {
                *own.entry(at_hand.clone()).or_default() += cost.unwrap_or(0);
            }
        }
    }
    let mut functions: Vec<(String, u64)> = own.into_iter().filter(|(_, cost)| *cost > 0).collect();
    functions.sort_by(|one, other| other.1.cmp(&one.1).then(one.0.cmp(&other.0)));
    Counted { all: functions.iter().map(|(_, cost)| cost).sum(), functions }
}

/// A name is written out once, `(3) name`, and is `(3)` from then on.
fn full_name(name: &str, names: &mut HashMap<String, String>) -> String {
    match name.split_once(' ') {
        Some((number, full)) => {
            names.insert(number.to_string(), full.to_string());
            full.to_string()
        }
        None => names.get(name).cloned().unwrap_or_else(|| name.to_string()),
    }
}

/// The whole and its five largest parts.
pub fn text(name: &str, pair: &str, counted: &Counted) -> String {
    let mut rows = vec![vec![format!("{name}, \"{pair}\""), counted.all.to_string()]];
    for (function, own) in counted.functions.iter().take(5) {
        rows.push(vec![format!("  {function}"), own.to_string()]);
    }
    table::aligned(&rows)
}

#[cfg(test)]
mod tests {
    use super::*;

    #[test]
    fn a_small_file() {
        let text = "events: Ir\nfn=(1) explore\n10 7\n+2 3\ncfn=(2) step\ncalls=5 20\n12 500\n+1 1\n\nfn=(2)\n20 500\nsummary: 511\n";
        let expected = vec![("step".to_string(), 500), ("explore".to_string(), 11)];
        assert_eq!(read(text), Counted { all: 511, functions: expected });
    }
}
