//! Source 002, section III: a value with one or two stars by `prefixof`, `suffixof` and `contains`.
//!
//! The source takes regular expressions where these three do not say the same: for `?`, for three stars and more, and here
//! also where the middle of two stars can overlap what stands before or behind it.

use super::formula::{all, literal};

/// None where the value needs a regular expression.
pub fn matches(variable: &str, value: &[u8]) -> Option<String> {
    if value.contains(&b'?') {
        return None;
    }
    let pieces = pieces(value);
    match pieces.as_slice() {
        [before, behind] => Some(one_star(variable, before, behind)),
        [before, middle, behind] if !can_overlap(before, middle, behind) => {
            let mut parts = ends(variable, before, behind);
            parts.push(format!("(str.contains {variable} {})", literal(middle)));
            Some(all(parts))
        }
        _ => None,
    }
}

/// What stands before, between and behind the stars; several stars in a row are one.
fn pieces(value: &[u8]) -> Vec<Vec<u8>> {
    let mut pieces = vec![Vec::new()];
    for (at, &byte) in value.iter().enumerate() {
        if byte != b'*' {
            pieces.last_mut().expect("never empty").push(byte);
        } else if at == 0 || value[at - 1] != b'*' {
            pieces.push(Vec::new());
        }
    }
    pieces
}

/// "When different parts of a pattern can overlap, we disallow the possible overlaps."
fn one_star(variable: &str, before: &[u8], behind: &[u8]) -> String {
    let mut parts = ends(variable, before, behind);
    for shared in 1..=before.len().min(behind.len()) {
        if before.ends_with(&behind[..shared]) {
            let overlapped = [before, &behind[shared..]].concat();
            parts.push(format!("(not (= {variable} {}))", literal(&overlapped)));
        }
    }
    all(parts)
}

fn ends(variable: &str, before: &[u8], behind: &[u8]) -> Vec<String> {
    let mut parts = Vec::new();
    if !before.is_empty() {
        parts.push(format!("(str.prefixof {} {variable})", literal(before)));
    }
    if !behind.is_empty() {
        parts.push(format!("(str.suffixof {} {variable})", literal(behind)));
    }
    parts
}

/// Whether the middle can occur in a string so that it shares a byte with what the string begins or ends with.
fn can_overlap(before: &[u8], middle: &[u8], behind: &[u8]) -> bool {
    let turned = |bytes: &[u8]| bytes.iter().rev().copied().collect::<Vec<u8>>();
    begins_inside(before, middle) || begins_inside(&turned(behind), &turned(middle))
}

/// Whether some string begins with the first and has the second from a byte of the first on.
fn begins_inside(first: &[u8], second: &[u8]) -> bool {
    (0..first.len()).any(|from| first[from..].iter().zip(second).all(|(one, other)| one == other))
}

#[cfg(test)]
mod tests {
    use super::*;

    #[test]
    fn values() {
        assert_eq!(matches("r", b"cs240/*").unwrap(), r#"(str.prefixof "cs240/" r)"#);
        assert_eq!(
            matches("r", b"cs2*/Exam*").unwrap(),
            r#"(and (str.prefixof "cs2" r) (str.contains r "/Exam"))"#
        );
        assert_eq!(
            matches("r", b"ab*bc").unwrap(),
            r#"(and (str.prefixof "ab" r) (str.suffixof "bc" r) (not (= r "abc")))"#
        );
        assert_eq!(matches("r", b"a**").unwrap(), r#"(str.prefixof "a" r)"#);
        assert_eq!(
            matches("r", b"b*ab*cd").unwrap(),
            r#"(and (str.prefixof "b" r) (str.suffixof "cd" r) (str.contains r "ab"))"#
        );
    }

    #[test]
    fn values_that_need_a_regular_expression() {
        for value in ["a?c*", "a*b*b*b", "ab*b*", "*ab*b", "*b*abc", "a*a*"] {
            assert_eq!(matches("r", value.as_bytes()), None, "{value}");
        }
    }
}
