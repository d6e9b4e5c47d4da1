//! Policies in the shapes that people write, through the safe functions: each makes the table, or is refused with line
//! and column, as it was worked out by hand.

use crate::agree::asked;
use portal::{judge, Request, Table};
use support::documents::{documents, Outcome};

#[test]
fn each_as_worked_out_by_hand() {
    for document in documents() {
        let outcome = match Table::from_json(&document.json) {
            Ok(table) => Outcome::Table(table.into_bytes()),
            Err(refusal) => {
                let (line, column) = refusal.line_and_column().expect("a place in the text");
                Outcome::Refused { number: refusal.number, line, column }
            }
        };
        assert_eq!(outcome, document.outcome, "{}", document.name);
        let _ = asked(&document.json, 1_000);
    }
}

#[test]
fn each_table_is_judged() {
    let request = Request::new(b"lab-a", b"clock:Read", b"town-hall");
    for document in documents() {
        if let Outcome::Table(table) = document.outcome {
            assert!(judge(&table, &request).is_ok(), "{}", document.name);
        }
    }
}
