//! Policies in the shapes that people write: each makes the table, or is refused as it was worked out by hand.

use oracle::{read_json, Refusal};
use support::documents::{documents, Outcome};

/// The line and column of a place, from 1: line feeds end lines, columns are characters.
fn line_and_column(json: &[u8], place: usize) -> (usize, usize) {
    let before = String::from_utf8_lossy(&json[..place]).into_owned();
    let lines: Vec<&str> = before.split('\n').collect();
    (lines.len(), 1 + lines[lines.len() - 1].chars().count())
}

#[test]
fn each_as_worked_out_by_hand() {
    let documents = documents();
    for document in &documents {
        let mut buffer = vec![0; 16_384];
        let outcome = match read_json(&document.json, &mut buffer) {
            Ok(length) => Outcome::Table(buffer[..length].to_vec()),
            Err(Refusal { number, place }) => {
                let (line, column) = line_and_column(&document.json, place);
                Outcome::Refused { number: number.into(), line, column }
            }
        };
        assert_eq!(outcome, document.outcome, "{}", document.name);
    }
    let taken = documents.iter().filter(|document| matches!(document.outcome, Outcome::Table(_))).count();
    assert!(documents.len() >= 40 && taken >= 15, "{taken} of {} are taken", documents.len());
}
