//! Printing JSON: blanks wherever they may stand, and each byte of a string in every way it may be written.

use super::tree::Tree;
use crate::random::Random;

/// How a text looks: blanks once in so many places, escapes for one in so many bytes that need none; 0 for never.
#[derive(Clone, Copy, Debug)]
pub struct Style {
    pub blanks: usize,
    pub escapes: usize,
}

impl Style {
    pub const PLAIN: Style = Style { blanks: 0, escapes: 0 };

    pub fn draw(random: &mut Random) -> Style {
        Style { blanks: random.pick(&[0, 0, 1, 2, 6]), escapes: random.pick(&[0, 0, 1, 3, 20]) }
    }
}

/// With no blank, and no escape that is not needed.
pub fn plainly(tree: &Tree) -> Vec<u8> {
    print(&mut Random::new(0), Style::PLAIN, tree)
}

pub fn print(random: &mut Random, style: Style, tree: &Tree) -> Vec<u8> {
    let mut printer = Printer { random, style, out: Vec::new() };
    printer.blanks();
    printer.value(tree);
    printer.blanks();
    printer.out
}

struct Printer<'a> {
    random: &'a mut Random,
    style: Style,
    out: Vec<u8>,
}

impl Printer<'_> {
    fn happens(&mut self, once_in: usize) -> bool {
        once_in > 0 && self.random.once_in(once_in)
    }

    fn blanks(&mut self) {
        if self.happens(self.style.blanks) {
            for _ in 0..self.random.up_to(3) {
                self.out.push(self.random.pick(b" \t\n\r"));
            }
        }
    }

    fn token(&mut self, token: &[u8]) {
        self.blanks();
        self.out.extend_from_slice(token);
        self.blanks();
    }

    fn value(&mut self, tree: &Tree) {
        match tree {
            Tree::Object(members) => {
                self.token(b"{");
                for (number, (name, value)) in members.iter().enumerate() {
                    self.comma(number);
                    self.string(name);
                    self.token(b":");
                    self.value(value);
                }
                self.token(b"}");
            }
            Tree::List(elements) => {
                self.token(b"[");
                for (number, element) in elements.iter().enumerate() {
                    self.comma(number);
                    self.value(element);
                }
                self.token(b"]");
            }
            Tree::Text(bytes) => self.string(bytes),
            Tree::Word(word) => self.token(word.as_bytes()),
        }
    }

    fn comma(&mut self, number: usize) {
        if number > 0 {
            self.token(b",");
        }
    }

    fn string(&mut self, bytes: &[u8]) {
        self.out.push(b'"');
        for &byte in bytes {
            let is_needed = byte < 0x20 || byte == b'"' || byte == b'\\';
            if byte < 0x80 && (is_needed || self.happens(self.style.escapes)) {
                self.escape(byte);
            } else {
                self.out.push(byte);
            }
        }
        self.out.push(b'"');
    }

    fn escape(&mut self, byte: u8) {
        if b"\"\\/".contains(&byte) && !self.random.once_in(3) {
            return self.out.extend([b'\\', byte]);
        }
        let code = if self.random.once_in(2) { format!("\\u{byte:04x}") } else { format!("\\u{byte:04X}") };
        self.out.extend(code.bytes());
    }
}
