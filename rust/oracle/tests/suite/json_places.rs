//! The place of 20 by its definition: the length of the longest beginning that some text free of 20 has too.

use crate::json_text::fault;
use support::strings::all_strings;

/// Of each text: the beginning before its fault can be completed by one of the endings, the one with the
/// next byte by none.
fn places_by_definition(texts: &[Vec<u8>], endings: &[Vec<u8>]) {
    let is_beginning = |text: &[u8]| endings.iter().any(|ending| fault(&[text, ending].concat()).is_none());
    let mut faults = 0;
    for text in texts {
        if let Some(place) = fault(text) {
            assert!(is_beginning(&text[..place]), "{text:02X?} at {place}");
            assert!(place == text.len() || !is_beginning(&text[..=place]), "{text:02X?} at {place}");
            faults += 1;
        }
    }
    assert!(faults > texts.len() / 2, "{faults}");
}

/// All rows of at most so many pieces.
fn rows_of(pieces: &[&str], most: usize) -> Vec<Vec<u8>> {
    let numbers: Vec<u8> = (0..pieces.len() as u8).collect();
    let row = |row: &Vec<u8>| row.iter().flat_map(|&number| pieces[number as usize].bytes()).collect();
    all_strings(&numbers, most).iter().map(row).collect()
}

#[test]
fn places_by_definition_in_structure() {
    places_by_definition(&all_strings(b"[]{}:,\"0", 4), &rows_of(&["\"", ":0", "0", "}", "]"], 5));
}

#[test]
fn places_by_definition_in_numbers_and_words() {
    places_by_definition(&all_strings(b"-01.eE+ ", 5), &rows_of(&["0"], 1));
    let endings = rows_of(&["null", "rue", "ue", "alse", "lse", "se", "e", "ull", "ll", "l"], 1);
    places_by_definition(&all_strings(b"tfnrule", 5), &endings);
}

#[test]
fn places_by_definition_in_escapes() {
    places_by_definition(&all_strings(b"\"\\u078e", 5), &rows_of(&["\"", "0"], 6));
}

#[test]
fn places_by_definition_in_utf_8() {
    let borders = b"\x1F\x7F\x80\x8F\x90\x9F\xA0\xBF\xC1\xC2\xE0\xED\xEF\xF0\xF4\xF5";
    let tails = all_strings(b"\x80\x90\xA0", 3);
    let strings = all_strings(borders, 4);
    let quoted = |string: &Vec<u8>| [b"\"", &string[..], b"\""].concat();
    for string in &strings {
        let is_text = std::str::from_utf8(string).is_ok() && !string.contains(&0x1F);
        assert_eq!(fault(&quoted(string)).is_none(), is_text, "{string:02X?}");
    }
    let texts: Vec<Vec<u8>> = strings.iter().map(quoted).collect();
    places_by_definition(&texts, &tails.iter().map(|tail| [&tail[..], b"\""].concat()).collect::<Vec<_>>());
}
