//! Requests have no upper length, and shown values may be long.

use crate::agree::{compared, judged};
use crate::draw::{self, Shape};
use portal::{compare, Request, Verdict};
use support::build::*;
use support::random::Random;

/// Values of up to 128 bytes with many wildcards against strings of thousands of bytes made from them.
#[test]
fn strings_of_thousands_of_bytes_judge_alike() {
    const LONG: Shape = Shape { statements: 0, conditions: 0, listed: 1, length: 100, bytes: b"aaabbAB*?" };
    let mut random = Random::new(41);
    let mut seen = [0; 3];
    for _ in 0..250 {
        let column = random.below(6) + 1;
        let mut listed = draw::drawn_value(&mut random, &LONG, false);
        listed.extend(b"*ab");
        let listed = String::from_utf8(listed).unwrap();
        let row = allow_in_column(column, &[&listed, "b*b*b*A*A*A*b"]);
        let string = Some(long_instance(&mut random, listed.as_bytes()));
        let mut asked = draw::Drawn::default();
        for string in &mut asked.strings[..3] {
            *string = Some(b"a".to_vec());
        }
        asked.strings[column] = string;
        let verdict = judged(&table(&[row]), &asked.request()).unwrap();
        seen[verdict as usize] += 1;
    }
    assert!(seen[Verdict::Allowed as usize] > 50 && seen[Verdict::NotMentioned as usize] > 50, "{seen:?}");
}

/// Each run of the value made hundreds of bytes long, and sometimes a byte more at the end.
fn long_instance(random: &mut Random, value: &[u8]) -> Vec<u8> {
    let mut string = Vec::new();
    for &byte in value {
        match byte {
            b'*' => {
                let run = random.below(700);
                string.extend((0..run).map(|_| random.pick(b"abAB")));
            }
            b'?' => string.push(random.pick(b"ab!~")),
            _ => string.push(byte),
        }
    }
    if random.once_in(2) {
        string.push(b'z');
    }
    string
}

#[test]
fn a_fault_in_the_last_of_many_bytes_is_found() {
    let everything = table(&[allow_when(&[])]);
    let mut string = vec![b'a'; 100_000];
    let answer =
        judged(&everything, &Request { keys: [Some(&string); 4], ..Request::new(&string, &string, &string) });
    assert_eq!(answer, Ok(Verdict::Allowed));
    string.push(0x7F);
    let answer = judged(&everything, &Request::new(b"p", b"a", &string));
    assert_eq!(answer.map_err(|refusal| (refusal.number, refusal.place)), Err((9, 2)));
}

/// The shortest string that matches both values is 254 bytes long.
#[test]
fn a_long_value_is_shown_whole() {
    let (begin, end) = ("a".repeat(127), "b".repeat(127));
    for key in 0..4 {
        let (begins, ends) = (format!("{begin}*"), format!("*{end}"));
        let both = [strings(STRING_LIKE, key, &[&begins]), strings(STRING_LIKE, key, &[&ends])];
        let first = table(&[allow_when(&both)]);
        assert_eq!(compared(&first, &NOTHING, 2), Ok(1));
        let gap = compare(&first, &NOTHING).unwrap().get(0).unwrap();
        assert_eq!(gap.keys[key as usize], Some(format!("{begin}{end}").into_bytes()));
    }
}
