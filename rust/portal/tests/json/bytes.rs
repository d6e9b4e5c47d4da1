//! Every cut, and every byte at every place, of a few short texts that have every sort of token between them.

use crate::agree::{asked, Seen};
use support::policies::snippets;

pub const TEXTS: [&str; 3] = [
    // Names and values with escapes and characters of one to four bytes.
    r#"{"Version":"2012-10-17", "Statement":[{"Sid":"\"\\\/\u0041\u007f é€🕰", "Effect":"Allow","Principal":{"AWS":["p"]},"NotAction":"a*","Resource":"r","Condition":{"IpAddress":{"aws:SourceIp":"10.0.0.0/8"}}}]}"#,
    // Numbers and words; eight open at once.
    r#"[[[[[[[[-10.5e+3,0,0.0E-0],true],false],null],{"":{}}],[]],""], 1]"#,
    r#"{"a":{"b":{"c":{"d":{"e":{"f":{"g":{"h":-0}}}}}}}}"#,
];

#[test]
fn every_cut() {
    for text in TEXTS {
        let mut seen = Seen::default();
        for length in 0..text.len() {
            seen.add(asked(&text.as_bytes()[..length], 300));
        }
        seen.each_at_least(text.len(), &[20]);
    }
}

#[test]
fn every_byte_at_every_place() {
    let mut seen = Seen::default();
    for text in TEXTS {
        for at in 0..=text.len() {
            for byte in 0..=255 {
                let (before, after) = text.as_bytes().split_at(at);
                seen.add(asked(&[before, &[byte], after].concat(), 100));
                if let Some(after) = after.get(1..) {
                    seen.add(asked(&[before, &[byte], after].concat(), 100));
                }
            }
        }
    }
    seen.each_at_least(500, &[0, 3, 8, 20, 21, 22]);
}

/// Characters well and badly formed, escapes, numbers, words and nests: put in at every place, and in place of a byte.
#[test]
fn every_snippet_at_every_place() {
    let mut seen = Seen::default();
    for snippet in snippets() {
        for text in TEXTS {
            for at in 0..=text.len() {
                let (before, after) = text.as_bytes().split_at(at);
                seen.add(asked(&[before, &snippet, after].concat(), 100));
                if let Some(after) = after.get(1..) {
                    seen.add(asked(&[before, &snippet, after].concat(), 100));
                }
            }
        }
    }
    seen.each_at_least(100, &[0, 20, 21, 22]);
}

#[test]
fn every_stretch_left_out() {
    for text in TEXTS {
        for from in 0..text.len() {
            for to in from + 1..=text.len() {
                let _ = asked(&[&text.as_bytes()[..from], &text.as_bytes()[to..]].concat(), 100);
            }
        }
    }
}

/// Texts and buffers anywhere in memory, whatever stands around them.
#[test]
fn slices_at_any_place() {
    for offset in 0..9 {
        for around in [0x00, b' ', b'"', b'}', 0xFF] {
            let text = TEXTS[0].as_bytes();
            let laid = [&vec![around; offset][..], text, &[around; 9]].concat();
            let mut buffer = vec![around; 300];
            let answer = portal::ffi::read_json(&laid[offset..][..text.len()], &mut buffer[offset..200]);
            let length = asked(text, 200).unwrap();
            assert_eq!(answer, length as u64);
            assert!(buffer[..offset].iter().chain(&buffer[offset + length..]).all(|&byte| byte == around));
        }
    }
}

#[test]
fn empty_slices() {
    assert_eq!(portal::ffi::read_json(&[], &mut []), 20 << 56);
    assert_eq!(asked(br#"{"Version":"2012-10-17","Statement":[]}"#, 0).unwrap_err().number, 14);
}
