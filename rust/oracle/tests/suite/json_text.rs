//! JSON texts: what is free of 20, and the place of each 20.

use oracle::{read_json, Refusal};

/// The place of 20, if the text is refused by it.
pub fn fault(text: &[u8]) -> Option<usize> {
    match read_json(text, &mut []) {
        Err(Refusal { number: 20, place }) => Some(place),
        _ => None,
    }
}

/// Each text is refused by 20 between its two halves.
fn faults_between(texts: &[(&str, &str)]) {
    for (before, after) in texts {
        assert_eq!(fault([*before, *after].concat().as_bytes()), Some(before.len()), "{before}|{after}");
    }
}

fn free_of_20(texts: &[&str]) {
    for text in texts {
        assert_eq!(fault(text.as_bytes()), None, "{text}");
    }
}

#[test]
fn the_examples_of_the_rule() {
    faults_between(&[(r#""\u00"#, r#"e9""#), ("0", "1"), ("[1,", "]"), ("", "")]);
}

#[test]
fn one_value_and_blanks() {
    free_of_20(&["0", " 0", "0 ", "\t\n\r 0 \t\n\r", "[]", "{}", "\"\"", "null", "true", "false"]);
    faults_between(&[
        (" \t\n\r", ""),
        ("0 ", "0"),
        ("[] ", "[]"),
        ("{}", ","),
        ("", "\x0B0"),
        ("", "\x0C0"),
        ("0", "\u{A0}"),
        ("", "\u{A0}0"),
        ("0", "\0"),
        ("", "'a'"),
        ("", "/* */ 0"),
        ("", "+1"),
        ("", ".5"),
        ("", "NaN"),
        ("", "Infinity"),
        ("-", "Infinity"),
        ("", "]"),
        ("", "}"),
        ("", ","),
        ("", ":"),
    ]);
}

#[test]
fn a_byte_order_mark_is_20_at_0() {
    faults_between(&[("", "\u{FEFF}{}"), ("", "\u{FEFF}"), ("{}", "\u{FEFF}"), ("[", "\u{FEFF}]")]);
    free_of_20(&["\"\u{FEFF}\""]);
    assert_eq!(fault(b"\xFF\xFE[\0]\0"), Some(0));
}

#[test]
fn lists_and_objects() {
    free_of_20(&[
        "[ ]",
        "{ }",
        "[0,0]",
        " [ 0 , [ ] , { } ] ",
        r#"{"a":0}"#,
        r#"{ "a" : 0 , "a" : 0 , "" : { } }"#,
        "[true,false,null,-1.5e+3,\"\"]",
    ]);
    faults_between(&[
        ("[", ""),
        ("[0", ""),
        ("[0,", ""),
        ("[0, ", ""),
        ("[", ",0]"),
        ("[0,", ",0]"),
        ("[0 ", "0]"),
        ("[0", "}"),
        ("[", "}"),
        ("[", ":0]"),
        (r#"["a""#, r#":0]"#),
        ("{", ""),
        ("{", "]"),
        ("{", ","),
        ("{", "0:0}"),
        ("{", "a:0}"),
        ("{", "'a':0}"),
        (r#"{"a"#, ""),
        (r#"{"a""#, ""),
        (r#"{"a" "#, ""),
        (r#"{"a""#, "}"),
        (r#"{"a""#, ",0}"),
        (r#"{"a""#, r#""b":0}"#),
        (r#"{"a":"#, ""),
        (r#"{"a": "#, "}"),
        (r#"{"a":"#, ":0}"),
        (r#"{"a":0"#, ""),
        (r#"{"a":0"#, "]"),
        (r#"{"a":0"#, ":0}"),
        (r#"{"a":0,"#, ""),
        (r#"{"a":0, "#, "}"),
        (r#"{"a":0,"#, ",}"),
        (r#"{"a":0,"#, "0}"),
        (r#"{"a":0 "#, r#""b":0}"#),
    ]);
}

#[test]
fn words() {
    faults_between(&[
        ("t", ""),
        ("tr", ""),
        ("tru", ""),
        ("tru", "E"),
        ("true", "e"),
        ("", "True"),
        ("fals", ""),
        ("f", "lase"),
        ("n", "one"),
        ("nul", " "),
        ("null", "0"),
        ("[null", "null]"),
    ]);
}

#[test]
fn numbers() {
    free_of_20(&[
        "-0",
        "10",
        "0.0",
        "-1.50",
        "0e0",
        "0E0",
        "1e+0",
        "1e-09",
        "1.5E007",
        "[0]",
        "[0,1]",
        "0\n",
        "123456789012345678901234567890",
        "1e999999",
    ]);
    faults_between(&[
        ("-", ""),
        ("-", "-"),
        ("-", "a"),
        ("-", ".5"),
        ("0", "0"),
        ("-0", "1"),
        ("0", "x10"),
        ("1", "a"),
        ("1.", ""),
        ("1.", "e1"),
        ("1.", "]"),
        ("1.0", ".0"),
        ("1e", ""),
        ("1e", "e"),
        ("1e", ".5"),
        ("1e+", ""),
        ("1e+", "-1"),
        ("1e1", ".0"),
        ("1e1", "e1"),
        ("[1", "_000]"),
        ("1 ", ".5"),
    ]);
}

#[test]
fn strings() {
    free_of_20(&["\"\x7F\"", "\" ~/'\"", "\"\u{80}\u{7FF}\u{800}\u{FFFF}\u{10000}\u{10FFFF}\""]);
    faults_between(&[("\"", ""), ("\"a", ""), ("\"a\"", "\""), ("\"a\"", "a")]);
    for low in 0..0x20 {
        assert_eq!(fault(&[b'"', b'a', low, b'"']), Some(2), "{low:02X}");
    }
}

#[test]
fn escapes() {
    free_of_20(&[
        r#""\"\\\/""#,
        r#""\u0000\u001f\u001F\u0022\u005c\u007f\u007F""#,
        r#""\u004a\u004A""#,
        r#""\\u00e9""#,
    ]);
    for byte in 0..=255u8 {
        if !b"\"\\/u".contains(&byte) {
            assert_eq!(fault(&[b'"', b'\\', byte, b'"']), Some(2), "{byte:02X}");
        }
    }
    faults_between(&[
        (r#""\"#, ""),
        (r#""\"#, "n\""),
        (r#""\"#, "U0041\""),
        (r#""\""#, ""),
        (r#""\u"#, ""),
        (r#""\u"#, "\""),
        (r#""\u0"#, ""),
        (r#""\u0"#, "x"),
        (r#""\u00"#, "\""),
        (r#""\u004"#, ""),
        (r#""\u004"#, "g\""),
        (r#""\u004"#, "\""),
        (r#""\u0041"#, ""),
        (r#""\u"#, "1041\""),
        (r#""\u"#, "f041\""),
        (r#""\u"#, "F041\""),
        (r#""\u0"#, "100\""),
        (r#""\u00"#, "80\""),
        (r#""\u00"#, "A0\""),
        (r#""\u00"#, "ff\""),
        (r#""\u"#, "d83d\\ude00\""),
        (r#"{"\u00"#, r#"e9": 0}"#),
    ]);
}

/// Each lead byte of RFC 3629 and what may stand behind it.
#[test]
fn utf_8() {
    let cases: [(&[u8], &[u8]); 24] = [
        (b"\"", b"\x80\""),
        (b"\"", b"\xBF\""),
        (b"\"", b"\xC0\x80\""),
        (b"\"", b"\xC1\xBF\""),
        (b"\"\xC2", b"\x7F\""),
        (b"\"\xC2", b"\xC0\""),
        (b"\"\xDF", b"\""),
        (b"\"\xE0", b"\x9F\xBF\""),
        (b"\"\xE0\xA0", b"\x7F\""),
        (b"\"\xE1", b"\x7F\""),
        (b"\"\xE1\x80", b"\xC0\""),
        (b"\"\xED", b"\xA0\x80\""),
        (b"\"\xED\x9F", b"\""),
        (b"\"\xEF", b"\xC0\x80\""),
        (b"\"\xF0", b"\x8F\xBF\xBF\""),
        (b"\"\xF0\x90", b"\xC0\x80\""),
        (b"\"\xF0\x90\x80", b"\""),
        (b"\"\xF3\xBF\xBF", b"\xC0\""),
        (b"\"\xF4", b"\x90\x80\x80\""),
        (b"\"\xF4\x8F\xBF", b"\x7F\""),
        (b"\"", b"\xF5\x80\x80\x80\""),
        (b"\"", b"\xFF\""),
        (b"\"\xE2\x82", b""),
        (b"[0", b"\xC2\xA0]"),
    ];
    for (before, after) in cases {
        assert_eq!(fault(&[before, after].concat()), Some(before.len()), "{before:02X?} {after:02X?}");
    }
}

#[test]
fn depth() {
    let nested = |opening: &str, inside: &str, closing: &str, depth| {
        [opening.repeat(depth), inside.into(), closing.repeat(depth)].concat()
    };
    free_of_20(&[
        &nested("[", "", "]", 8),
        &nested("[", "0", "]", 8),
        &nested("{\"a\":", "0", "}", 8),
        &nested("[{\"a\":", "\"[[[{{{\"", "}]", 4),
        &nested("[", "[],{},[]", "]", 7),
    ]);
    assert_eq!(fault(nested("[", "", "]", 9).as_bytes()), Some(8));
    assert_eq!(fault(nested("[", "0", "]", 50).as_bytes()), Some(8));
    assert_eq!(fault(nested("{\"a\":", "0", "}", 9).as_bytes()), Some(40));
    assert_eq!(fault(nested("[", "{}", "]", 8).as_bytes()), Some(8));
    assert_eq!(fault(nested("[", "0, [0]", "]", 8).as_bytes()), Some(11));
    assert_eq!(fault(nested("[", "", "", 9).as_bytes()), Some(8));
    assert_eq!(fault(nested("[", "", "", 8).as_bytes()), Some(8));
    // What is closed no longer counts.
    assert_eq!(fault(nested("[[],", "0", "]", 8).as_bytes()), Some(29));
    assert_eq!(fault(nested("[[],", "0", "]", 7).as_bytes()), None);
}

#[test]
fn the_first_fault_decides() {
    faults_between(&[("[", "x, y]"), (r#"{"a" "#, r#"1, "\n": 01}"#), ("[0", r#"1, "\u00e9"]"#)]);
}
