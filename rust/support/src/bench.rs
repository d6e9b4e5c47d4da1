//! The bench list (RULES 10): what goes in, and what must come out.

use crate::build::*;

/// A value, a string, and whether the one takes the other.
pub const VALUES: [(&str, &str, bool); 8] = [
    ("s*s*s*s", "ss", false),
    ("s*s*s*s", "ssss", true),
    ("*", "", true),
    ("?*", "", false),
    ("a?c", "abc", true),
    ("?", "ab", false),
    ("a*b*b*b", "abbb", true),
    ("ab*b*b*b", "abbb", false),
];

/// Two tables, and what the gap program prints for them.
pub struct Compared {
    pub first: Vec<u8>,
    pub second: Vec<u8>,
    pub printed: String,
}

fn compared(first: Vec<u8>, second: Vec<u8>, printed: &str) -> Compared {
    Compared { first, second, printed: printed.into() }
}

/// Every comparison of the list, and the sample of "The gap program" before them.
pub fn comparisons() -> Vec<Compared> {
    [sample(), runs(), stars(), networks_inside(), states(), sums(), rows()].into_iter().flatten().collect()
}

fn sample() -> Vec<Compared> {
    let first = vec![1, 1, 2, 1, 3, 0, 0x40, 0x2A, 3, 1, 0x41, 0x61, 0x2A, 3, 2, 0x40, 0x72, 5];
    let second = vec![1, 1, 2, 1, 3, 0, 0x40, 0x2A, 3, 1, 0x41, 0x61, 0x62, 3, 2, 0x40, 0x72, 5];
    vec![compared(first, second, "gaps 1\n0 p=! a=A r=r\n")]
}

/// Resource `ab*b*b*b` against `a*b*b*b`, and turned round.
fn runs() -> Vec<Compared> {
    let (narrow, wide) = (resources(&["ab*b*b*b"]), resources(&["a*b*b*b"]));
    vec![
        compared(narrow.clone(), wide.clone(), "gaps 0\n"),
        compared(wide, narrow, "gaps 1\n0 p=! a=! r=abbb\n"),
    ]
}

/// `*` against `?*`: as action, and as `s3:prefix`, which may be empty.
fn stars() -> Vec<Compared> {
    let only = |column, value| table(&[allow_in_column(column, &[value])]);
    vec![
        compared(only(1, "*"), only(1, "?*"), "gaps 0\n"),
        compared(only(1, "?*"), only(1, "*"), "gaps 0\n"),
        compared(only(4, "*"), only(4, "?*"), "gaps 1\n0 p=! a=! r=! k1=\n"),
        compared(only(4, "?*"), only(4, "*"), "gaps 0\n"),
    ]
}

/// 11.22.0.0/16 against 11.22.33.0/24.
fn networks_inside() -> Vec<Compared> {
    let network = |address, length| table(&[allow_when(&[networks(IP_ADDRESS, &[(address, length)])])]);
    let (wide, narrow) = (network([11, 22, 0, 0], 16), network([11, 22, 33, 0], 24));
    vec![
        compared(wide.clone(), narrow.clone(), "gaps 1\n0 p=! a=! r=! ip=11.22.0.0\n"),
        compared(narrow, wide, "gaps 0\n"),
    ]
}

/// A resource with 257 states, and one with 513.
pub const SEVEN: &str = "*a???????";
pub const EIGHT: &str = "*a????????";

fn states() -> Vec<Compared> {
    vec![
        compared(resources(&[SEVEN]), NOTHING.to_vec(), "gaps 1\n0 p=! a=! r=a!!!!!!!\n"),
        compared(resources(&[EIGHT]), NOTHING.to_vec(), "refused 11 0 2\n"),
        compared(NOTHING.to_vec(), resources(&[EIGHT]), "refused 11 0 2\n"),
    ]
}

/// Four resource values of 127 bytes, both tables together; and one made 128.
fn sums() -> Vec<Compared> {
    let [a, b, c, d] = ["a", "b", "c", "d"].map(|letter| letter.repeat(127));
    let three = resources(&[&a, &b, &c]);
    let shown = format!("gaps 1\n0 p=! a=! r={a}\n");
    vec![
        compared(three.clone(), resources(&[&d]), &shown),
        compared(three, resources(&[&"d".repeat(128)]), "refused 10 0 2\n"),
    ]
}

/// The byte of row `number` of those that have bytes of their own, also after folding, and no `*` or `?`.
fn own_byte(number: usize) -> String {
    let is_own = |byte: &u8| !byte.is_ascii_lowercase() && *byte != b'*' && *byte != b'?';
    let byte = (0x21..=0x7E).filter(is_own).nth(number).expect("at most 66 rows");
    (byte as char).to_string()
}

/// Rows numbered from `from`, each with its own one-byte principal, action, resource and StringEquals on key 0.
pub fn own_rows(from: usize, to: usize) -> Vec<Statement> {
    let row = |number| {
        let own = own_byte(number);
        simple(ALLOW, &own, &own, &own).when(&[strings(STRING_EQUALS, 0, &[&own])])
    };
    (from..to).map(row).collect()
}

/// 63 rows in all, and 64.
fn rows() -> Vec<Compared> {
    let mut printed = String::from("gaps 32\n");
    for k in 0..16 {
        let own = own_byte(k);
        printed += &format!("{k} p={own} a={own} r={own} k0={own}\n");
    }
    let first = table(&own_rows(0, 32));
    vec![
        compared(first.clone(), table(&own_rows(32, 63)), &printed),
        compared(first, table(&own_rows(32, 64)), "refused 12 0 0\n"),
    ]
}
