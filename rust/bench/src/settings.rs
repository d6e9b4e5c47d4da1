//! What a run is told: by words on the command line what to do, by the environment where the programs are.

use std::env;
use std::path::PathBuf;
use std::time::Duration;

#[derive(Clone, Debug)]
pub struct Settings {
    pub quick: bool,
    pub seed: u64,
    /// Where the results are written.
    pub folder: PathBuf,
    /// Pairs of each family that is drawn at random.
    pub pairs: usize,
    /// Policies of each number of statements.
    pub policies: usize,
    /// A solver is stopped after this time.
    pub limit: Duration,
    /// Once a solver has spent this on one family in one encoding, the rest of the family's pairs are left out.
    pub budget: Duration,
    /// Runs of a process, of which the median counts.
    pub repeats: usize,
    /// The words that run the verified gap program, and the oracle's.
    pub gaps: Option<Vec<String>>,
    pub oracle_gaps: Option<Vec<String>>,
    /// The counting program linked with this library, and with the one that stepped bit by bit.
    pub count: Option<String>,
    pub count_before: Option<String>,
}

impl Settings {
    pub fn read() -> Result<Settings, String> {
        let mut settings = Settings::of(false);
        let mut words = env::args().skip(1);
        while let Some(word) = words.next() {
            match word.as_str() {
                "--quick" => {
                    settings = Settings { seed: settings.seed, folder: settings.folder, ..Settings::of(true) }
                }
                "--seed" => settings.seed = number(words.next())?,
                "--folder" => settings.folder = words.next().ok_or("--folder needs a folder")?.into(),
                _ => {
                    return Err(format!(
                        "unknown word {word}: --quick, --seed NUMBER and --folder FOLDER are known"
                    ))
                }
            }
        }
        Ok(settings)
    }

    fn of(quick: bool) -> Settings {
        let milliseconds = Duration::from_millis;
        let (pairs, policies, limit, budget, repeats) = if quick {
            (4, 2, milliseconds(1_000), milliseconds(300), 1)
        } else {
            (100, 12, milliseconds(10_000), milliseconds(2_000), 3)
        };
        Settings {
            quick,
            seed: 1,
            folder: PathBuf::from("target/bench"),
            pairs,
            policies,
            limit,
            budget,
            repeats,
            gaps: words_of("BENCH_GAPS"),
            oracle_gaps: words_of("BENCH_ORACLE_GAPS"),
            count: env::var("BENCH_COUNT").ok(),
            count_before: env::var("BENCH_COUNT_BEFORE").ok(),
        }
    }
}

fn number(word: Option<String>) -> Result<u64, String> {
    word.and_then(|word| word.parse().ok()).ok_or_else(|| "--seed needs a number".to_string())
}

/// The words of a command, one to a line.
fn words_of(variable: &str) -> Option<Vec<String>> {
    let words: Vec<String> = env::var(variable).ok()?.lines().map(str::to_string).collect();
    (!words.is_empty()).then_some(words)
}
