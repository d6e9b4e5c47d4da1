//! Another reader of JSON beside ours: python3's, where it is installed. What it refuses is 20 here, and what is 20 here it
//! refuses, except for the escapes and the depth that are left out.

use std::io::Write;
use std::process::{Command, Stdio};
use std::thread;

use crate::agree::asked;
use crate::bytes::TEXTS;
use oracle::Refusal;
use support::documents::documents;
use support::policies;
use support::random::Random;

/// Reads texts, each behind its length in four bytes, and writes for each whether it is JSON. Numbers stay texts, since
/// python bounds their digits; its names for what is no number are refused.
const PROGRAM: &str = r#"
import json, sys

def no_number(name):
    raise ValueError(name)

def is_json(text):
    try:
        json.loads(text.decode("utf-8"), parse_int=str, parse_float=str, parse_constant=no_number)
        return True
    except ValueError:
        return False

texts = sys.stdin.buffer.read()
at = 0
while at < len(texts):
    length = int.from_bytes(texts[at:at + 4], "big")
    at += 4 + length
    sys.stdout.write("y" if is_json(texts[at - length:at]) else "n")
"#;

/// What python3 says of each text, or nothing where there is none.
fn read_by_python(texts: &[Vec<u8>]) -> Option<Vec<bool>> {
    let mut command = Command::new("python3");
    command.args(["-c", PROGRAM]).stdin(Stdio::piped()).stdout(Stdio::piped());
    let Ok(mut python) = command.spawn() else {
        eprintln!("python3 is not installed: nothing to hold the texts against");
        return None;
    };
    let mut input = Vec::new();
    for text in texts {
        input.extend((text.len() as u32).to_be_bytes());
        input.extend(text);
    }
    let mut stdin = python.stdin.take().expect("its standard input");
    let writer = thread::spawn(move || stdin.write_all(&input));
    let output = python.wait_with_output().expect("its answers");
    writer.join().expect("the writer").expect("its standard input taken whole");
    assert!(output.status.success() && output.stdout.len() == texts.len(), "{}", output.status);
    Some(output.stdout.iter().map(|&answer| answer == b'y').collect())
}

/// Whether the place is that of an escape, or of a ninth bracket.
fn is_left_out(text: &[u8], place: usize) -> bool {
    let in_escape = |back: usize| {
        let escape = place.checked_sub(back).map(|from| &text[from..place]);
        escape.is_some_and(|escape| escape[0] == b'\\' && (back == 1 || escape[1] == b'u'))
    };
    let is_bracket = matches!(text[place], b'{' | b'[');
    (1..=4).any(in_escape) || is_bracket && open_brackets(&text[..place]) == 8
}

/// Brackets outside of strings that are not closed.
fn open_brackets(text: &[u8]) -> usize {
    let (mut open, mut in_string, mut is_escaped) = (0, false, false);
    for byte in text {
        match byte {
            b'"' if !is_escaped => in_string = !in_string,
            b'{' | b'[' if !in_string => open += 1,
            b'}' | b']' if !in_string => open -= 1,
            _ => {}
        }
        is_escaped = *byte == b'\\' && !is_escaped;
    }
    open
}

/// Holds python's answers against ours. How often both take, both refuse, and only python takes a text.
fn held_against_python(texts: &[Vec<u8>]) -> Option<[usize; 3]> {
    let mut seen = [0; 3];
    for (text, is_json) in texts.iter().zip(read_by_python(texts)?) {
        let place = match asked(text, 0) {
            Err(Refusal { number: 20, place }) => Some(place),
            _ => None,
        };
        match (is_json, place) {
            (true, None) => seen[0] += 1,
            (false, Some(_)) => seen[1] += 1,
            (true, Some(place)) => {
                assert!(is_left_out(text, place), "20 at {place}, python3 takes it: {}", text.escape_ascii());
                seen[2] += 1;
            }
            (false, None) => panic!("python3 refuses it, and it is not 20: {}", text.escape_ascii()),
        }
    }
    Some(seen)
}

#[test]
fn drawn_texts() {
    let mut random = Random::new(111);
    let draw = |case: usize| match case % 8 {
        0 => policies::right(&mut random).0,
        1 => policies::damaged(&mut random),
        2 | 3 => policies::garbage(&mut random),
        _ => policies::spoilt(&mut random),
    };
    let texts: Vec<Vec<u8>> = (0..30_000).map(draw).collect();
    if let Some(seen) = held_against_python(&texts) {
        assert!(seen[0] > 5_000 && seen[1] > 10_000 && seen[2] > 200, "{seen:?}");
    }
}

#[test]
fn every_byte_at_every_place() {
    let mut texts = Vec::new();
    for text in TEXTS {
        for at in 0..text.len() {
            let (before, after) = text.as_bytes().split_at(at);
            texts.push(before.to_vec());
            for byte in 0..=255 {
                texts.push([before, &[byte], &after[1..]].concat());
            }
        }
    }
    if let Some(seen) = held_against_python(&texts) {
        assert!(seen.iter().all(|&times| times > 100), "{seen:?}");
    }
}

#[test]
fn real_policies() {
    let texts: Vec<Vec<u8>> = documents().into_iter().map(|document| document.json).collect();
    if let Some(seen) = held_against_python(&texts) {
        assert!(seen[0] >= 40, "{seen:?}");
    }
}
