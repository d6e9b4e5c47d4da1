//! Where a place stands: in which objects and lists, under which members, and behind what. The text before the place is
//! the beginning of some JSON text, since the library placed its refusal there.

use super::excerpt::string;

/// What the last token before the place was.
#[derive(Clone, Copy, Debug, PartialEq, Eq)]
pub enum Behind {
    Nothing,
    Opening,
    Comma,
    Colon,
    Name,
    Value,
    /// A number or word that the place may be part of.
    Word,
    /// The place is in a string, behind a backslash and so many bytes, if it is in an escape.
    InString(Option<usize>),
}

/// An object or a list that is open.
#[derive(Clone, Debug, PartialEq, Eq)]
pub struct Open {
    pub is_object: bool,
    /// The names met so far, read; the last is that of the member at hand.
    pub names: Vec<Vec<u8>>,
}

#[derive(Clone, Debug, PartialEq, Eq)]
pub struct Around {
    pub open: Vec<Open>,
    pub behind: Behind,
}

/// The sort of object that a policy has at some depth.
#[derive(Clone, Copy, Debug, PartialEq, Eq)]
pub enum Sort {
    Policy,
    Statement,
    Principal,
    Condition,
    Operator,
}

impl Around {
    pub fn place(text: &[u8], place: usize) -> Around {
        let before = &text[..place.min(text.len())];
        let mut around = Around { open: Vec::new(), behind: Behind::Nothing };
        let mut at = 0;
        while at < before.len() {
            at += around.pass(&before[at..]);
        }
        around
    }

    /// Passes over one token or blank at the start of `rest`, and answers its length.
    fn pass(&mut self, rest: &[u8]) -> usize {
        match rest[0] {
            b' ' | b'\t' | b'\n' | b'\r' => self.end_word(),
            b'{' | b'[' => {
                self.open.push(Open { is_object: rest[0] == b'{', names: Vec::new() });
                self.behind = Behind::Opening;
            }
            b'}' | b']' => {
                self.open.pop();
                self.behind = Behind::Value;
            }
            b',' => self.behind = Behind::Comma,
            b':' => self.behind = Behind::Colon,
            b'"' => return self.pass_string(rest),
            _ => self.behind = Behind::Word,
        }
        1
    }

    fn end_word(&mut self) {
        if self.behind == Behind::Word {
            self.behind = Behind::Value;
        }
    }

    fn pass_string(&mut self, rest: &[u8]) -> usize {
        let written = string(rest);
        if !is_closed(written) {
            self.behind = Behind::InString(open_escape(written));
            return rest.len();
        }
        let is_name = matches!(self.behind, Behind::Opening | Behind::Comma);
        match self.open.last_mut() {
            Some(Open { is_object: true, names }) if is_name => {
                names.push(read(written));
                self.behind = Behind::Name;
            }
            _ => self.behind = Behind::Value,
        }
        written.len()
    }

    /// The names from the top down to the value at the place.
    pub fn path(&self) -> Vec<&[u8]> {
        self.open.iter().filter_map(|open| open.names.last()).map(Vec::as_slice).collect()
    }

    /// The sort of the innermost object, where a policy has one there.
    pub fn sort(&self) -> Option<Sort> {
        let (_, outside) = self.open.split_last()?;
        let names: Vec<&[u8]> =
            outside.iter().filter_map(|open| open.names.last()).map(Vec::as_slice).collect();
        match names[..] {
            [] => Some(Sort::Policy),
            [_] => Some(Sort::Statement),
            [_, b"Principal" | b"NotPrincipal"] => Some(Sort::Principal),
            [_, b"Condition"] => Some(Sort::Condition),
            [_, b"Condition", _] => Some(Sort::Operator),
            _ => None,
        }
    }
}

fn is_closed(written: &[u8]) -> bool {
    written.len() > 1 && written.ends_with(b"\"") && open_escape(&written[..written.len() - 1]).is_none()
}

/// The number of bytes behind the backslash of an escape that is not ended.
fn open_escape(written: &[u8]) -> Option<usize> {
    let mut at = 1;
    while at < written.len() {
        let length = match (written[at], written.get(at + 1)) {
            (b'\\', Some(b'u')) => 6,
            (b'\\', _) => 2,
            _ => 1,
        };
        if at + length > written.len() {
            return Some(written.len() - at - 1);
        }
        at += length;
    }
    None
}

/// The bytes of a string of JSON, its escapes read.
pub fn read(written: &[u8]) -> Vec<u8> {
    let inside = written.strip_prefix(b"\"").unwrap_or(written);
    let inside = inside.strip_suffix(b"\"").unwrap_or(inside);
    let mut bytes = Vec::new();
    let mut at = 0;
    while at < inside.len() {
        let length = match &inside[at..] {
            [b'\\', b'u', code @ ..] if code.len() >= 4 => {
                let code = std::str::from_utf8(&code[..4]).ok();
                bytes.extend(code.and_then(|code| u8::from_str_radix(code, 16).ok()));
                6
            }
            [b'\\', escaped, ..] => {
                bytes.push(*escaped);
                2
            }
            rest => {
                bytes.push(rest[0]);
                1
            }
        };
        at += length;
    }
    bytes
}

#[cfg(test)]
mod tests {
    use super::*;

    fn behind(text: &str) -> Behind {
        Around::place(text.as_bytes(), text.len()).behind
    }

    #[test]
    fn what_stands_before() {
        assert_eq!(behind(" "), Behind::Nothing);
        assert_eq!(behind("{"), Behind::Opening);
        assert_eq!(behind("{\"a\""), Behind::Name);
        assert_eq!(behind("{\"a\" :"), Behind::Colon);
        assert_eq!(behind("{\"a\": \"b\""), Behind::Value);
        assert_eq!(behind("[\"a\""), Behind::Value);
        assert_eq!(behind("[1"), Behind::Word);
        assert_eq!(behind("[1 "), Behind::Value);
        assert_eq!(behind("[1,"), Behind::Comma);
        assert_eq!(behind("[[]"), Behind::Value);
    }

    #[test]
    fn strings_and_escapes() {
        assert_eq!(behind(r#"""#), Behind::InString(None));
        assert_eq!(behind(r#""a"#), Behind::InString(None));
        assert_eq!(behind(r#""\"#), Behind::InString(Some(0)));
        assert_eq!(behind(r#""\u"#), Behind::InString(Some(1)));
        assert_eq!(behind(r#""\u00"#), Behind::InString(Some(3)));
        assert_eq!(behind(r#""\u0041"#), Behind::InString(None));
        assert_eq!(behind(r#""\\"#), Behind::InString(None));
        assert_eq!(behind(r#""\""#), Behind::InString(None));
        assert_eq!(behind(r#""\\""#), Behind::Value);
        assert_eq!(read(br#""\u0041\"\\\/b""#), b"A\"\\/b");
    }

    #[test]
    fn ways_and_sorts() {
        let text = r#"{"Version": "x", "Statement": [{"Sid": 1, "Condition": {"Bool": {"a": ["#;
        let around = Around::place(text.as_bytes(), text.len());
        assert_eq!(around.path(), [&b"Statement"[..], b"Condition", b"Bool", b"a"]);
        let sort = |text: &str| Around::place(text.as_bytes(), text.len()).sort();
        assert_eq!(sort(r#"{"Statement": 1, "#), Some(Sort::Policy));
        assert_eq!(sort(r#"{"Statement": {"#), Some(Sort::Statement));
        assert_eq!(sort(r#"{"Statement": [{}, {"a": 1"#), Some(Sort::Statement));
        assert_eq!(sort(r#"{"Statement": {"NotPrincipal": {"#), Some(Sort::Principal));
        assert_eq!(sort(r#"{"Statement": {"Condition": {"#), Some(Sort::Condition));
        assert_eq!(sort(r#"{"Statement": {"Condition": {"Bool": {"#), Some(Sort::Operator));
        assert_eq!(sort(""), None);
    }
}
