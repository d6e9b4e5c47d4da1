//! Judging: verdicts, operators, absence and refusal 9.

use crate::build::*;
use oracle::{judge, Refusal, Request, Verdict};

fn refused(number: u8, place: usize) -> Result<Verdict, Refusal> {
    Err(Refusal { number, place })
}

#[test]
fn a_deny_that_applies_decides() {
    let allow = simple(ALLOW, "*", "*", "*");
    let deny = simple(DENY, "p", "*", "*");
    for rows in [[allow.clone(), deny.clone()], [deny.clone(), allow.clone()]] {
        assert_eq!(judge(&table(&rows), &request("p", "a", "r")), Ok(Verdict::DeniedByRule));
        assert_eq!(judge(&table(&rows), &request("q", "a", "r")), Ok(Verdict::Allowed));
    }
    assert_eq!(judge(&table(&[deny]), &request("q", "a", "r")), Ok(Verdict::NotMentioned));
    assert_eq!(judge(&NOTHING, &request("q", "a", "r")), Ok(Verdict::NotMentioned));
}

#[test]
fn elements_and_not_forms() {
    let with = |code: u8| {
        let listed: &[&str] = &["a", "b"];
        let lists = [0, 1, 2].map(|plain| match plain == code & 0x0F {
            true => element(code, listed),
            false => element(plain, &["*"]),
        });
        table(&[Statement { effect: ALLOW, lists: lists.to_vec() }])
    };
    for plain in 0..3 {
        for (string, holds) in [("a", true), ("b", true), ("c", false)] {
            let verdict = |holds: bool| Ok(if holds { Verdict::Allowed } else { Verdict::NotMentioned });
            let mut columns = ["x"; 3];
            columns[plain as usize] = string;
            let asked = request(columns[0], columns[1], columns[2]);
            assert_eq!(judge(&with(plain), &asked), verdict(holds));
            assert_eq!(judge(&with(0x10 + plain), &asked), verdict(!holds));
        }
    }
}

/// Every operator code on a matching, an unmatched and an absent key.
#[test]
fn operators() {
    let allowed = |conditions: &[List], asked: &Request| {
        judge(&table(&[allow_when(conditions)]), asked) == Ok(Verdict::Allowed)
    };
    for operator in 1..=4u8 {
        for key in 0..4u8 {
            let negated = operator % 2 == 0;
            let with = |string: Option<&str>| {
                let mut asked = request("p", "a", "r");
                asked.keys[key as usize] = string.map(|string| string.as_bytes().to_vec());
                asked
            };
            for form in [operator, operator + 0x10] {
                let condition = [strings(form, key, &["m", "n"])];
                assert_eq!(allowed(&condition, &with(Some("n"))), !negated);
                assert_eq!(allowed(&condition, &with(Some("o"))), negated);
                assert_eq!(allowed(&condition, &with(Some(""))), negated);
                assert_eq!(allowed(&condition, &with(None)), form != operator);
            }
        }
    }
    for (operator, negated) in [(5u8, false), (6, true)] {
        let with = |address: Option<u32>| Request { address, ..request("p", "a", "r") };
        for form in [operator, operator + 0x10] {
            let condition = [networks(form, &[([1, 0, 0, 0], 8), ([9, 9, 9, 9], 32)])];
            assert_eq!(allowed(&condition, &with(Some(0x0102_0304))), !negated);
            assert_eq!(allowed(&condition, &with(Some(0x0909_0909))), !negated);
            assert_eq!(allowed(&condition, &with(Some(0x0909_0908))), negated);
            assert_eq!(allowed(&condition, &with(None)), form != operator);
        }
    }
}

#[test]
fn all_conditions_must_hold_also_on_one_key() {
    let both = table(&[allow_when(&[strings(3, 0, &["a*"]), strings(4, 0, &["*b"])])]);
    let asked = |key: &str| {
        let keys = [Some(key.into()), None, None, None];
        judge(&both, &Request { keys, ..request("p", "a", "r") })
    };
    assert_eq!(asked("ac"), Ok(Verdict::Allowed));
    assert_eq!(asked("ab"), Ok(Verdict::NotMentioned));
    assert_eq!(asked("cc"), Ok(Verdict::NotMentioned));
}

#[test]
fn refusal_9_by_column_behind_the_table() {
    let good = request("p", "a", "r");
    assert_eq!(judge(&[1, 0], &request("", "a", "r")), refused(2, 2));
    assert_eq!(judge(&NOTHING, &request("", "", "")), refused(9, 0));
    assert_eq!(judge(&NOTHING, &request("p", "", "r ")), refused(9, 1));
    assert_eq!(judge(&NOTHING, &request("p", "a", "r ")), refused(9, 2));
    for key in 0..4 {
        let with = |string: &[u8]| {
            let mut asked = good.clone();
            asked.keys[key] = Some(string.to_vec());
            asked
        };
        assert_eq!(judge(&NOTHING, &with(b"")), Ok(Verdict::NotMentioned));
        assert_eq!(judge(&NOTHING, &with(&[0x21, 0x7E])), Ok(Verdict::NotMentioned));
        assert_eq!(judge(&NOTHING, &with(&[0x20])), refused(9, 3 + key));
        assert_eq!(judge(&NOTHING, &with(&[0x21, 0x7F])), refused(9, 3 + key));
        assert_eq!(judge(&NOTHING, &with(&[0x80])), refused(9, 3 + key));
    }
}

#[test]
fn wild_bytes_of_a_request_are_ordinary() {
    assert_eq!(judge(&resources(&["ab"]), &request("p", "a", "a*")), Ok(Verdict::NotMentioned));
    assert_eq!(judge(&resources(&["a?"]), &request("p", "a", "a*")), Ok(Verdict::Allowed));
}
