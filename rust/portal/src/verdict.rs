//! What judging answers.

use std::fmt;

/// The answer of one table to one request.
#[derive(Clone, Copy, Debug, PartialEq, Eq, Hash)]
pub enum Verdict {
    /// No statement applies.
    NotMentioned,
    /// Some allow statement applies, and no deny statement does.
    Allowed,
    /// Some deny statement applies.
    DeniedByRule,
}

impl Verdict {
    /// Whether the request may go ahead.
    pub fn is_allowed(self) -> bool {
        self == Verdict::Allowed
    }
}

impl fmt::Display for Verdict {
    fn fmt(&self, out: &mut fmt::Formatter) -> fmt::Result {
        out.write_str(match self {
            Verdict::NotMentioned => "not allowed: no statement of the table applies to the request",
            Verdict::Allowed => "allowed",
            Verdict::DeniedByRule => "denied: a deny statement of the table applies to the request",
        })
    }
}
