//! The text as a tree with places, or the place of its 20. The parser goes from left to right and takes no byte that
//! could not be completed to a whole text, so that it always stands at the place of the fault when it meets one.

/// A value and the place of its first byte.
#[derive(Debug)]
pub struct Node {
    pub place: usize,
    pub value: Value,
}

#[derive(Debug)]
pub enum Value {
    /// `end` is the place of the closing brace.
    Object {
        members: Vec<Member>,
        end: usize,
    },
    List(Vec<Node>),
    /// The bytes of a string, its escapes read.
    String(Vec<u8>),
    /// A number, `true`, `false` or `null`: never of the right type, so nothing else is kept.
    Other,
}

/// A member of an object; its place is that of the opening quote of its name.
#[derive(Debug)]
pub struct Member {
    pub place: usize,
    pub name: Vec<u8>,
    pub value: Node,
}

/// `{` and `[` that may be open at once.
const DEEPEST: usize = 8;

/// The one value of the text, or the place of 20.
pub fn parse(json: &[u8]) -> Result<Node, usize> {
    let mut parser = Parser { json, at: 0 };
    let node = parser.value(0)?;
    parser.skip_blanks();
    if parser.at < json.len() {
        return Err(parser.at);
    }
    Ok(node)
}

struct Parser<'a> {
    json: &'a [u8],
    at: usize,
}

impl Parser<'_> {
    fn peek(&self) -> Option<u8> {
        self.json.get(self.at).copied()
    }

    /// Passes over the next byte if it is a wanted one. Else, and at the end, the fault is here.
    fn take(&mut self, is_wanted: impl Fn(u8) -> bool) -> Result<u8, usize> {
        match self.peek() {
            Some(byte) if is_wanted(byte) => {
                self.at += 1;
                Ok(byte)
            }
            _ => Err(self.at),
        }
    }

    fn take_byte(&mut self, wanted: u8) -> Result<u8, usize> {
        self.take(|byte| byte == wanted)
    }

    fn skip_blanks(&mut self) {
        while self.take(|byte| b" \t\n\r".contains(&byte)).is_ok() {}
    }

    /// A value behind any blanks, with so many `{` and `[` open around it.
    fn value(&mut self, depth: usize) -> Result<Node, usize> {
        self.skip_blanks();
        let place = self.at;
        let value = match self.peek() {
            Some(b'{') if depth < DEEPEST => self.object(depth + 1)?,
            Some(b'[') if depth < DEEPEST => self.list(depth + 1)?,
            Some(b'"') => Value::String(self.string()?),
            Some(b'-' | b'0'..=b'9') => self.number()?,
            Some(b't') => self.word(b"true")?,
            Some(b'f') => self.word(b"false")?,
            Some(b'n') => self.word(b"null")?,
            _ => return Err(place),
        };
        Ok(Node { place, value })
    }

    fn object(&mut self, depth: usize) -> Result<Value, usize> {
        self.take_byte(b'{')?;
        self.skip_blanks();
        let mut members = Vec::new();
        if self.peek() != Some(b'}') {
            members.push(self.member(depth)?);
            while self.goes_on_before(b'}')? {
                members.push(self.member(depth)?);
            }
        }
        let end = self.at;
        self.take_byte(b'}')?;
        Ok(Value::Object { members, end })
    }

    fn member(&mut self, depth: usize) -> Result<Member, usize> {
        self.skip_blanks();
        let place = self.at;
        let name = self.string()?;
        self.skip_blanks();
        self.take_byte(b':')?;
        Ok(Member { place, name, value: self.value(depth)? })
    }

    fn list(&mut self, depth: usize) -> Result<Value, usize> {
        self.take_byte(b'[')?;
        self.skip_blanks();
        let mut elements = Vec::new();
        if self.peek() != Some(b']') {
            elements.push(self.value(depth)?);
            while self.goes_on_before(b']')? {
                elements.push(self.value(depth)?);
            }
        }
        self.take_byte(b']')?;
        Ok(Value::List(elements))
    }

    /// Behind a member or an element: passes over a comma, or stands before the closing byte.
    fn goes_on_before(&mut self, closing: u8) -> Result<bool, usize> {
        self.skip_blanks();
        if self.peek() == Some(closing) {
            return Ok(false);
        }
        self.take_byte(b',')?;
        Ok(true)
    }

    fn word(&mut self, word: &[u8]) -> Result<Value, usize> {
        for &letter in word {
            self.take_byte(letter)?;
        }
        Ok(Value::Other)
    }

    /// RFC 8259, section 6.
    fn number(&mut self) -> Result<Value, usize> {
        let _ = self.take_byte(b'-');
        if self.take_byte(b'0').is_err() {
            self.digits()?;
        }
        if self.take_byte(b'.').is_ok() {
            self.digits()?;
        }
        if self.take(|byte| b"eE".contains(&byte)).is_ok() {
            let _ = self.take(|byte| b"+-".contains(&byte));
            self.digits()?;
        }
        Ok(Value::Other)
    }

    /// One digit or more.
    fn digits(&mut self) -> Result<(), usize> {
        self.take(|byte| byte.is_ascii_digit())?;
        while self.take(|byte| byte.is_ascii_digit()).is_ok() {}
        Ok(())
    }

    fn string(&mut self) -> Result<Vec<u8>, usize> {
        self.take_byte(b'"')?;
        let mut bytes = Vec::new();
        loop {
            match self.take(|byte| byte >= 0x20)? {
                b'"' => return Ok(bytes),
                b'\\' => bytes.push(self.escaped()?),
                first @ 0x00..=0x7F => bytes.push(first),
                first => {
                    self.at -= 1;
                    let from = self.at;
                    self.wide_character(first)?;
                    bytes.extend_from_slice(&self.json[from..self.at]);
                }
            }
        }
    }

    /// What stands behind a backslash. A code below 80 begins with two zeros and a digit below 8.
    fn escaped(&mut self) -> Result<u8, usize> {
        match self.take(|byte| b"\"\\/u".contains(&byte))? {
            b'u' => {
                self.take_byte(b'0')?;
                self.take_byte(b'0')?;
                let high = self.take(|byte| (b'0'..=b'7').contains(&byte))?;
                let low = self.take(|byte| byte.is_ascii_hexdigit())?;
                Ok(16 * hex_digit(high) + hex_digit(low))
            }
            plain => Ok(plain),
        }
    }

    /// A character of two to four bytes: the rows of RFC 3629, section 4.
    fn wide_character(&mut self, first: u8) -> Result<(), usize> {
        let (second, more) = match first {
            0xC2..=0xDF => (0x80..=0xBF, 0),
            0xE0 => (0xA0..=0xBF, 1),
            0xE1..=0xEC | 0xEE..=0xEF => (0x80..=0xBF, 1),
            0xED => (0x80..=0x9F, 1),
            0xF0 => (0x90..=0xBF, 2),
            0xF1..=0xF3 => (0x80..=0xBF, 2),
            0xF4 => (0x80..=0x8F, 2),
            _ => return Err(self.at),
        };
        self.take_byte(first)?;
        self.take(|byte| second.contains(&byte))?;
        for _ in 0..more {
            self.take(|byte| (0x80..=0xBF).contains(&byte))?;
        }
        Ok(())
    }
}

fn hex_digit(digit: u8) -> u8 {
    match digit {
        b'0'..=b'9' => digit - b'0',
        _ => digit.to_ascii_lowercase() - b'a' + 10,
    }
}
