//! Lines and columns, as an editor counts them.

/// The line and column of a byte, both from 1. A line ends with its line feed, or with carriage return and line feed; a
/// column is a character, the one that the byte is part of.
pub fn line_and_column(text: &[u8], place: usize) -> (usize, usize) {
    let before = &text[..place.min(text.len())];
    let line = 1 + before.iter().filter(|&&byte| byte == b'\n').count();
    let from = before.iter().rposition(|&byte| byte == b'\n').map_or(0, |at| at + 1);
    (line, 1 + whole_characters(&before[from..]))
}

/// The number of characters before the first that is not whole.
fn whole_characters(line: &[u8]) -> usize {
    let whole = match std::str::from_utf8(line) {
        Ok(whole) => whole,
        Err(error) => std::str::from_utf8(&line[..error.valid_up_to()]).unwrap_or_default(),
    };
    whole.chars().count()
}

#[cfg(test)]
mod tests {
    use super::line_and_column;

    #[test]
    fn the_first_line() {
        assert_eq!(line_and_column(b"", 0), (1, 1));
        assert_eq!(line_and_column(b"{}", 0), (1, 1));
        assert_eq!(line_and_column(b"{}", 1), (1, 2));
        assert_eq!(line_and_column(b"{}", 2), (1, 3));
    }

    #[test]
    fn line_feeds() {
        let text = b"{\n\n  x\n";
        assert_eq!(line_and_column(text, 1), (1, 2));
        assert_eq!(line_and_column(text, 2), (2, 1));
        assert_eq!(line_and_column(text, 3), (3, 1));
        assert_eq!(line_and_column(text, 5), (3, 3));
        assert_eq!(line_and_column(text, 6), (3, 4));
        assert_eq!(line_and_column(text, 7), (4, 1));
    }

    #[test]
    fn carriage_returns() {
        let text = b"{\r\n x\r\n";
        assert_eq!(line_and_column(text, 1), (1, 2));
        assert_eq!(line_and_column(text, 2), (1, 3));
        assert_eq!(line_and_column(text, 3), (2, 1));
        assert_eq!(line_and_column(text, 4), (2, 2));
        assert_eq!(line_and_column(text, 7), (3, 1));
        // Alone it ends no line.
        assert_eq!(line_and_column(b"{\rx", 2), (1, 3));
    }

    #[test]
    fn the_end_of_the_text() {
        assert_eq!(line_and_column(b"[1,", 3), (1, 4));
        assert_eq!(line_and_column(b"[1,\n", 4), (2, 1));
        assert_eq!(line_and_column(b"[1,\r\n", 5), (2, 1));
        assert_eq!(line_and_column(b"[1,", 30), (1, 4));
    }

    #[test]
    fn characters_of_several_bytes() {
        let text = "[\"é€🕰\",]".as_bytes();
        assert_eq!(line_and_column(text, 1), (1, 2));
        assert_eq!(line_and_column(text, 4), (1, 4));
        assert_eq!(line_and_column(text, 7), (1, 5));
        assert_eq!(line_and_column(text, 13), (1, 8));
        // In the middle of one, whole or not: that one.
        assert_eq!(line_and_column(text, 5), (1, 4));
        assert_eq!(line_and_column(b"\"a\xE2\x82\"", 4), (1, 3));
    }
}
