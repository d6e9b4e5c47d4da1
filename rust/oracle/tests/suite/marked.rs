//! Policies as the tests write them: the place of a refusal is marked in the text itself.

use oracle::{read_json, Refusal};

/// Stands right before the byte at which a refusal is expected, and is no part of the text.
const MARK: char = '¦';

/// The text without its mark, and the place of the mark.
pub fn unmarked(text: &str) -> (String, usize) {
    let place = text.find(MARK).expect("a mark");
    (text.replacen(MARK, "", 1), place)
}

/// Sees that the text is refused by this number at its mark, and that no byte of the buffer changes.
pub fn refused(number: u8, text: &str) {
    let (json, place) = unmarked(text);
    for length in [0, 3, 20_000] {
        let mut buffer = vec![0xEE; length];
        assert_eq!(read_json(json.as_bytes(), &mut buffer), Err(Refusal { number, place }), "{text}");
        assert!(buffer == vec![0xEE; length], "{text}");
    }
}

/// The table of a policy. It is the same in a buffer that just holds it; in a longer one, what stood behind it stays;
/// one byte less is 14.
pub fn table(json: &str) -> Vec<u8> {
    let mut buffer = vec![0xEE; 20_000];
    let length =
        read_json(json.as_bytes(), &mut buffer).unwrap_or_else(|refusal| panic!("{refusal:?}: {json}"));
    assert!(buffer[length..].iter().all(|&byte| byte == 0xEE));
    buffer.truncate(length);
    let mut enough = vec![0xEE; length];
    assert_eq!((read_json(json.as_bytes(), &mut enough), &enough), (Ok(length), &buffer));
    let mut short = vec![0xEE; length - 1];
    assert_eq!(read_json(json.as_bytes(), &mut short), Err(Refusal { number: 14, place: 0 }));
    assert_eq!(short, vec![0xEE; length - 1]);
    buffer
}
