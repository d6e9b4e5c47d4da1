//! The program that runs the cases of policies: each line `NAME: TEXT` of its input read as a policy, then one policy into buffers
//! of every length around its table's.

use crate::json::read_json;
use crate::limits;
use crate::table::Refusal;

/// The longest of the buffers.
const LONGEST: usize = 20;
const SMALL_POLICY: &str = concat!(
    r#"{"Version":"2012-10-17","Statement":"#,
    r#"{"Effect":"Allow","Principal":"*","Action":"a*","Resource":"r"}}"#
);

/// What the program prints for its whole input.
pub fn policy_cases(input: &[u8]) -> String {
    let mut printed = String::new();
    for (name, text) in cases(input) {
        printed.push_str(&line(&name, &text, limits::TABLE_BYTES));
    }
    for length in 0..=LONGEST {
        printed.push_str(&line(&format!("buffer of {length}"), SMALL_POLICY.as_bytes(), length));
    }
    printed
}

/// Name and text of each case. A line with `#` in front, or without a colon, is none.
pub fn cases(input: &[u8]) -> Vec<(String, Vec<u8>)> {
    input.split(|&byte| byte == b'\n').filter(|line| !line.starts_with(b"#")).filter_map(case).collect()
}

fn case(line: &[u8]) -> Option<(String, Vec<u8>)> {
    let colon = line.iter().position(|&byte| byte == b':')?;
    let name = String::from_utf8_lossy(&line[..colon]).into_owned();
    Some((name, laid(line.get(colon + 2..).unwrap_or_default())))
}

/// The bytes that a text stands for: words between backquotes, and all else for itself.
fn laid(text: &[u8]) -> Vec<u8> {
    let mut bytes = Vec::new();
    for (at, part) in text.split(|&byte| byte == b'`').enumerate() {
        if at % 2 == 0 {
            bytes.extend(part);
            continue;
        }
        for word in part.split(|&byte| byte == b' ').filter(|word| !word.is_empty()) {
            lay_word(word, &mut bytes);
        }
    }
    bytes
}

/// `61` is a byte, in capitals where it has letters; `61*128` is the same byte 128 times, with at most five digits.
fn lay_word(word: &[u8], bytes: &mut Vec<u8>) {
    let word = String::from_utf8_lossy(word);
    let (byte, times) = word.split_once('*').unwrap_or((&word, "1"));
    let is_capital = |digit: char| digit.is_ascii_hexdigit() && !digit.is_ascii_lowercase();
    assert!(byte.len() == 2 && byte.chars().all(is_capital) && times.len() <= 5, "no word: {word}");
    let byte = u8::from_str_radix(byte, 16).expect("two hex digits");
    let times: usize = times.parse().unwrap_or_else(|_| panic!("a number of times, not {word}"));
    bytes.resize(bytes.len() + times, byte);
}

fn line(name: &str, text: &[u8], length: usize) -> String {
    let mut table = vec![0; length];
    match read_json(text, &mut table) {
        Ok(size) => {
            let bytes: String = table[..size].iter().map(|byte| format!(" {byte:02x}")).collect();
            format!("{name} written {size}:{bytes}\n")
        }
        Err(Refusal { number, place }) => format!("{name} refused {number} {place}\n"),
    }
}
