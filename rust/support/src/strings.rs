//! Short strings, all of them.

/// All strings over an alphabet of at most this length, the shorter first.
pub fn all_strings(alphabet: &[u8], longest: usize) -> Vec<Vec<u8>> {
    let mut strings = vec![vec![]];
    let mut at = 0;
    while at < strings.len() && strings[at].len() < longest {
        for &byte in alphabet {
            strings.push([&strings[at][..], &[byte]].concat());
        }
        at += 1;
    }
    strings
}

/// Strings over the bytes that drawn values have; `!` stands for all bytes that occur in no value.
pub fn short_strings(longest: usize) -> Vec<Vec<u8>> {
    all_strings(b"!*?ABab", longest)
}
