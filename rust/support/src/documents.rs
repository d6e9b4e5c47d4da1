//! The documents of `oracle/tests/real_policies`: policies in the shapes that people write, each with what comes out of
//! it, worked out by hand.
//!
//! Beside `NAME.json` stands `NAME.hex`, its table as hex text with comments, or `NAME.refused`, a line
//! `refusal N, line L, column C`. In both `#` begins a comment.

use std::fs;
use std::path::{Path, PathBuf};

pub struct Document {
    pub name: String,
    pub json: Vec<u8>,
    pub outcome: Outcome,
}

#[derive(Clone, Debug, PartialEq, Eq)]
pub enum Outcome {
    Table(Vec<u8>),
    Refused { number: u16, line: usize, column: usize },
}

/// All documents, by name.
pub fn documents() -> Vec<Document> {
    let folder = Path::new(env!("CARGO_MANIFEST_DIR")).join("../oracle/tests/real_policies");
    let entries = fs::read_dir(&folder).unwrap_or_else(|error| panic!("{}: {error}", folder.display()));
    let mut paths: Vec<PathBuf> =
        entries.map(|entry| entry.expect("an entry of the folder").path()).collect();
    paths.retain(|path| path.extension().is_some_and(|extension| extension == "json"));
    paths.sort();
    paths.iter().map(|path| document(path)).collect()
}

fn document(path: &Path) -> Document {
    let name = path.file_stem().unwrap_or_default().to_string_lossy().into_owned();
    let json = fs::read(path).expect("a document");
    let beside = |extension| fs::read_to_string(path.with_extension(extension)).ok();
    let outcome = match (beside("hex"), beside("refused")) {
        (Some(text), None) => Outcome::Table(bytes(&text)),
        (None, Some(text)) => refusal(&text),
        _ => panic!("{name}: one of .hex and .refused must stand beside it"),
    };
    Document { name, json, outcome }
}

/// What stands before the comments.
fn without_comments(text: &str) -> String {
    text.lines().map(|line| line.split('#').next().unwrap_or_default()).collect::<Vec<_>>().join(" ")
}

fn bytes(text: &str) -> Vec<u8> {
    let byte = |digits| u8::from_str_radix(digits, 16).expect("two hex digits");
    without_comments(text).split_whitespace().map(byte).collect()
}

fn refusal(text: &str) -> Outcome {
    let text = without_comments(text).replace(',', " ");
    match text.split_whitespace().collect::<Vec<_>>()[..] {
        ["refusal", number, "line", line, "column", column] => {
            let [number, line, column] = [number, line, column].map(|word| word.parse().expect("a number"));
            Outcome::Refused { number: number as u16, line, column }
        }
        _ => panic!("a line `refusal N, line L, column C`, not {text}"),
    }
}
