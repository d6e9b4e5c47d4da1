//! What stands at a place of a text, short enough for a message.

/// The most characters that are shown of a string.
const SHOWN: usize = 40;

/// The string, number or word that begins at the place, or the one character there.
pub fn excerpt(text: &[u8], place: usize) -> String {
    let rest = &text[place.min(text.len())..];
    match rest.first() {
        None => "the text's end".into(),
        Some(b'"') => shortened(string(rest)),
        Some(byte) if is_part_of_word(byte) => {
            let length = rest.iter().take_while(|byte| is_part_of_word(byte)).count();
            shortened(&rest[..length])
        }
        Some(byte @ 0x21..=0x7E) => (*byte as char).to_string(),
        Some(b'\n' | b'\r') => "the line's end".into(),
        Some(byte) => character(rest).map_or_else(|| format!("the byte {byte:02X}"), |c| c.to_string()),
    }
}

fn is_part_of_word(byte: &u8) -> bool {
    byte.is_ascii_alphanumeric() || b"+-._".contains(byte)
}

/// A string with both quotes, as it is written; up to the end where it is not closed.
pub fn string(rest: &[u8]) -> &[u8] {
    let mut at = 1;
    while at < rest.len() && rest[at] != b'"' {
        at += if rest[at] == b'\\' { 2 } else { 1 };
    }
    &rest[..(at + 1).min(rest.len())]
}

/// A printable character outside ASCII.
fn character(rest: &[u8]) -> Option<char> {
    let lengths = 2..=rest.len().min(4);
    let first =
        lengths.filter_map(|length| std::str::from_utf8(&rest[..length]).ok()).next()?.chars().next()?;
    (!first.is_control() && !first.is_whitespace() && first != '\u{FEFF}').then_some(first)
}

fn shortened(bytes: &[u8]) -> String {
    let text: String = String::from_utf8_lossy(bytes).chars().map(printable).collect();
    if text.chars().count() <= SHOWN {
        return text;
    }
    text.chars().take(SHOWN).chain("...".chars()).collect()
}

fn printable(character: char) -> char {
    if character.is_control() {
        char::REPLACEMENT_CHARACTER
    } else {
        character
    }
}

#[cfg(test)]
mod tests {
    use super::excerpt;

    #[test]
    fn tokens() {
        let text = br#"{"a\"b": -1.5e+3, "c": true}"#;
        assert_eq!(excerpt(text, 0), "{");
        assert_eq!(excerpt(text, 1), r#""a\"b""#);
        assert_eq!(excerpt(text, 9), "-1.5e+3");
        assert_eq!(excerpt(text, 23), "true");
        assert_eq!(excerpt(text, 27), "}");
        assert_eq!(excerpt(text, 28), "the text's end");
    }

    #[test]
    fn long_strings_are_cut() {
        let long = format!("\"{}\"", "é".repeat(60));
        assert_eq!(excerpt(long.as_bytes(), 0), format!("\"{}...", "é".repeat(39)));
        assert_eq!(excerpt(br#""not closed"#, 0), r#""not closed"#);
        assert_eq!(excerpt(br#""\"#, 0), r#""\"#);
    }

    #[test]
    fn bytes_that_cannot_be_shown() {
        assert_eq!(excerpt(b"\x00", 0), "the byte 00");
        assert_eq!(excerpt(b"\xEF\xBB\xBF{}", 0), "the byte EF");
        assert_eq!(excerpt(b"\xC3(", 0), "the byte C3");
        assert_eq!(excerpt("é".as_bytes(), 0), "é");
        assert_eq!(excerpt(b"\r\n", 0), "the line's end");
    }
}
