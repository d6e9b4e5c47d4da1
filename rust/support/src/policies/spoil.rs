//! Faults among the bytes of a text: every sort of 20. Some changes are none, and leave the text JSON.

use crate::random::Random;

/// Bytes that JSON tells apart, and their neighbours.
const BORDERS: &[u8] = b"\x00\x08\x09\x0A\x0B\x0C\x0D\x0E\x1F\x20\x21\"'+,-./0189:;<=AEFGZ[\\]^aefghntuz{|}~\x7F\x80\x8F\x90\x9F\xA0\xBB\xBF\xC0\xC1\xC2\xDF\xE0\xED\xEF\xF0\xF4\xF5\xFE\xFF";

/// Well and badly formed UTF-8.
const CHARACTERS: [&[u8]; 22] = [
    b"\xC2\x80",
    b"\xDF\xBF",
    b"\xE0\xA0\x80",
    b"\xED\x9F\xBF",
    b"\xEE\x80\x80",
    b"\xEF\xBB\xBF",
    b"\xF0\x90\x80\x80",
    b"\xF4\x8F\xBF\xBF",
    b"\x80",
    b"\xC0\x80",
    b"\xC1\xBF",
    b"\xC2",
    b"\xE0\x9F\xBF",
    b"\xE0\xA0",
    b"\xED\xA0\x80",
    b"\xE2\x82\x41",
    b"\xF0\x8F\xBF\xBF",
    b"\xF0\x90\x80",
    b"\xF4\x90\x80\x80",
    b"\xF5\x80\x80\x80",
    b"\xF1\x80\x80\xC0",
    b"\xFF",
];

const ESCAPES: [&str; 22] = [
    "\\\"",
    "\\\\",
    "\\/",
    "\\u0041",
    "\\u007F",
    "\\u001f",
    "\\u0000",
    "\\n",
    "\\t",
    "\\b",
    "\\x41",
    "\\'",
    "\\u00e9",
    "\\u0080",
    "\\u0100",
    "\\u1000",
    "\\ud83d\\ude00",
    "\\uD800",
    "\\u004",
    "\\u",
    "\\",
    "\\U0041",
];

/// Stand where a value may.
const VALUES: [&str; 34] = [
    "0",
    "-0",
    "10",
    "1.5",
    "1e5",
    "-1.5E-07",
    "true",
    "false",
    "null",
    "\"x\"",
    "[]",
    "{}",
    "01",
    "-",
    "-a",
    "1.",
    ".5",
    "1.e5",
    "1e",
    "1e+",
    "+1",
    "0x1",
    "1_0",
    "tru",
    "True",
    "nul",
    "NaN",
    "Infinity",
    "-Infinity",
    "'x'",
    "x",
    "[,]",
    "{,}",
    "[1,]",
];

/// Every character, escape and value of the lists above, and nests of eight and nine lists.
pub fn snippets() -> Vec<Vec<u8>> {
    let texts = ESCAPES.iter().chain(&VALUES).map(|snippet| snippet.as_bytes().to_vec());
    let nests = [8, 9].map(|depth| [b"[".repeat(depth), b"]".repeat(depth)].concat());
    CHARACTERS.iter().map(|snippet| snippet.to_vec()).chain(texts).chain(nests).collect()
}

/// One change somewhere in the text.
pub fn spoil(random: &mut Random, text: &mut Vec<u8>) {
    let at = random.below(text.len() + 1);
    match random.below(14) {
        0 => text.truncate(at),
        1 => put(text, at, &[random.pick(BORDERS)], 1),
        2 => put(text, at, &[random.byte()], 1),
        3 => put(text, at, &[random.pick(BORDERS)], 0),
        4 => put(text, at, b"", random.up_to(3)),
        5 => put(text, at, random.pick(&CHARACTERS), 0),
        6 => put(text, at, random.pick(&ESCAPES).as_bytes(), 0),
        7 => {
            let at = behind_one_of(random, text, b"\"");
            let inside =
                if random.once_in(2) { random.pick(&CHARACTERS) } else { random.pick(&ESCAPES).as_bytes() };
            put(text, at, inside, 0);
        }
        8 => {
            let at = behind_one_of(random, text, b":[,");
            let value = random.pick(&VALUES);
            put(text, at, format!("{value},").as_bytes(), 0);
        }
        9 => {
            let at = behind_one_of(random, text, b":[,");
            nest(random, text, at);
        }
        10 => {
            let at = behind_one_of(random, text, b"]}\"").saturating_sub(1);
            put(text, at, random.pick(&[&b","[..], b":", b"0", b"\"\"", b",,", b"}", b"]"]), 0);
        }
        11 => {
            let at = behind_one_of(random, text, b"{}[]:,\"").saturating_sub(1);
            put(text, at, random.pick(&[&b""[..], b"{", b"}", b"[", b"]", b":", b",", b"\"", b" "]), 1);
        }
        12 => put(
            text,
            0,
            random.pick(&[&b"\xEF\xBB\xBF"[..], b"\xFE\xFF", b"\xEF\xBB", b"\x0B", b"[", b"/**/"]),
            0,
        ),
        _ => {
            let end = text.len();
            put(
                text,
                end,
                random.pick(&[&b"x"[..], b"{}", b",", b"\0", b"]", b"}", b"\"", b"0", b"\n", b"\xC2\xA0"]),
                0,
            );
        }
    }
}

/// Some bytes in place of so many at `at`, as far as there are.
fn put(text: &mut Vec<u8>, at: usize, bytes: &[u8], taken_out: usize) {
    let to = (at + taken_out).min(text.len());
    text.splice(at..to, bytes.iter().copied());
}

/// The place behind one of these bytes, or the end where there is none.
fn behind_one_of(random: &mut Random, text: &[u8], bytes: &[u8]) -> usize {
    let places: Vec<usize> = (1..=text.len()).filter(|&at| bytes.contains(&text[at - 1])).collect();
    if places.is_empty() {
        return text.len();
    }
    random.pick(&places)
}

/// A nest of lists and objects, closed or not, about as deep as may be.
fn nest(random: &mut Random, text: &mut Vec<u8>, at: usize) {
    let (mut nest, mut closing) = (Vec::new(), Vec::new());
    for _ in 0..3 + random.below(7) {
        let is_list = random.once_in(2);
        nest.extend_from_slice(if is_list { b"[" } else { b"{\"a\":" });
        closing.push(if is_list { b']' } else { b'}' });
    }
    nest.push(b'0');
    if !random.once_in(4) {
        nest.extend(closing.into_iter().rev());
        nest.push(b',');
    }
    put(text, at, &nest, 0);
}

/// Bytes that never were a policy: of any value, or of JSON's own.
pub fn garbage(random: &mut Random) -> Vec<u8> {
    let length = random.below(16);
    if random.once_in(4) {
        return (0..length).map(|_| random.byte()).collect();
    }
    let pieces: [&[u8]; 20] = [
        b"{",
        b"}",
        b"[",
        b"]",
        b":",
        b",",
        b"\"",
        b"\"\"",
        b"\"a\":",
        b"0",
        b"-",
        b"1.5",
        b"e",
        b"true",
        b"null",
        b" ",
        b"\\",
        b"\\u0041",
        b"\xC3\xA9",
        b"\n",
    ];
    (0..length).flat_map(|_| random.pick(&pieces).to_vec()).collect()
}
