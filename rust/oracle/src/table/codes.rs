//! The codes inside records: effects, columns, operators and keys.

#[derive(Clone, Copy, Debug, PartialEq, Eq, Hash)]
pub enum Effect {
    Deny,
    Allow,
}

/// The columns that every statement restricts by an element.
#[derive(Clone, Copy, Debug, PartialEq, Eq, Hash)]
pub enum ElementColumn {
    Principal = 0,
    Action = 1,
    Resource = 2,
}

/// What an operator asks of one listed value or network.
#[derive(Clone, Copy, Debug, PartialEq, Eq, Hash)]
pub enum Test {
    StringEquals,
    StringLike,
    IpAddress,
}

#[derive(Clone, Copy, Debug, PartialEq, Eq, Hash)]
pub struct Operator {
    pub test: Test,
    pub negated: bool,
    pub if_exists: bool,
}

#[derive(Clone, Copy, Debug, PartialEq, Eq, Hash)]
pub enum Key {
    SourceVpc = 0,
    Prefix = 1,
    SourceVpce = 2,
    Referer = 3,
    SourceIp = 4,
}

/// "The same plus hex 10 is the IfExists form"; the same distance parts a column from its Not-form.
const SECOND_FORM: u8 = 0x10;

impl Effect {
    pub fn from_code(code: u8) -> Option<Effect> {
        match code {
            0 => Some(Effect::Deny),
            1 => Some(Effect::Allow),
            _ => None,
        }
    }

    pub fn code(self) -> u8 {
        match self {
            Effect::Deny => 0,
            Effect::Allow => 1,
        }
    }
}

impl ElementColumn {
    pub const ALL: [ElementColumn; 3] =
        [ElementColumn::Principal, ElementColumn::Action, ElementColumn::Resource];

    /// The column and whether it is the Not-form.
    pub fn from_code(code: u8) -> Option<(ElementColumn, bool)> {
        let negated = code >= SECOND_FORM;
        let plain = if negated { code - SECOND_FORM } else { code };
        let column = *ElementColumn::ALL.get(plain as usize)?;
        Some((column, negated))
    }

    pub fn code(self, negated: bool) -> u8 {
        self as u8 + if negated { SECOND_FORM } else { 0 }
    }
}

impl Operator {
    pub fn from_code(code: u8) -> Option<Operator> {
        let if_exists = code >= SECOND_FORM;
        let (test, negated) = match if if_exists { code - SECOND_FORM } else { code } {
            1 => (Test::StringEquals, false),
            2 => (Test::StringEquals, true),
            3 => (Test::StringLike, false),
            4 => (Test::StringLike, true),
            5 => (Test::IpAddress, false),
            6 => (Test::IpAddress, true),
            _ => return None,
        };
        Some(Operator { test, negated, if_exists })
    }

    pub fn code(self) -> u8 {
        let positive = match self.test {
            Test::StringEquals => 1,
            Test::StringLike => 3,
            Test::IpAddress => 5,
        };
        positive + u8::from(self.negated) + if self.if_exists { SECOND_FORM } else { 0 }
    }

    /// "1 to 4 go with keys 0 to 3 and values, 5 and 6 with key 4 and networks."
    pub fn takes_networks(self) -> bool {
        self.test == Test::IpAddress
    }
}

impl Key {
    pub const ALL: [Key; 5] = [Key::SourceVpc, Key::Prefix, Key::SourceVpce, Key::Referer, Key::SourceIp];

    pub fn from_code(code: u8) -> Option<Key> {
        Key::ALL.get(code as usize).copied()
    }

    pub fn code(self) -> u8 {
        self as u8
    }

    pub fn column(self) -> usize {
        3 + self as usize
    }

    pub fn is_address(self) -> bool {
        self == Key::SourceIp
    }
}
