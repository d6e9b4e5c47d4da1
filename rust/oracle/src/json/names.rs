//! The names that a policy knows, and what each stands for. Only the keys ignore the case of ASCII letters.

use crate::table::{Effect, ElementColumn, Key, Operator, Test};

/// The one version of the language that is taken.
pub const VERSION: &[u8] = b"2012-10-17";
/// Everyone, as a principal outside of any object.
pub const EVERYONE: &[u8] = b"*";

/// A member of the whole policy.
#[derive(Clone, Copy, Debug, PartialEq, Eq)]
pub enum Top {
    Version,
    Statement,
}

pub fn top(name: &[u8]) -> Option<Top> {
    match name {
        b"Version" => Some(Top::Version),
        b"Statement" => Some(Top::Statement),
        _ => None,
    }
}

/// A member of a statement. A form and its Not-form are the same one.
#[derive(Clone, Copy, Debug, PartialEq, Eq)]
pub enum Part {
    Sid,
    Effect,
    Element(ElementColumn),
    Condition,
}

pub fn part(name: &[u8]) -> Option<Part> {
    match name {
        b"Sid" => Some(Part::Sid),
        b"Effect" => Some(Part::Effect),
        b"Principal" | b"NotPrincipal" => Some(Part::Element(ElementColumn::Principal)),
        b"Action" | b"NotAction" => Some(Part::Element(ElementColumn::Action)),
        b"Resource" | b"NotResource" => Some(Part::Element(ElementColumn::Resource)),
        b"Condition" => Some(Part::Condition),
        _ => None,
    }
}

/// Whether the name of an element is that of its Not-form.
pub fn is_not_form(name: &[u8]) -> bool {
    name.starts_with(b"Not")
}

/// The one member of a principal.
pub fn account(name: &[u8]) -> Option<()> {
    (name == b"AWS").then_some(())
}

pub fn effect(name: &[u8]) -> Option<Effect> {
    match name {
        b"Allow" => Some(Effect::Allow),
        b"Deny" => Some(Effect::Deny),
        _ => None,
    }
}

pub fn operator(name: &[u8]) -> Option<Operator> {
    let plain = name.strip_suffix(b"IfExists");
    let (test, negated) = match plain.unwrap_or(name) {
        b"StringEquals" => (Test::StringEquals, false),
        b"StringNotEquals" => (Test::StringEquals, true),
        b"StringLike" => (Test::StringLike, false),
        b"StringNotLike" => (Test::StringLike, true),
        b"IpAddress" => (Test::IpAddress, false),
        b"NotIpAddress" => (Test::IpAddress, true),
        _ => return None,
    };
    Some(Operator { test, negated, if_exists: plain.is_some() })
}

pub fn key(name: &[u8]) -> Option<Key> {
    match &*name.to_ascii_lowercase() {
        b"aws:sourcevpc" => Some(Key::SourceVpc),
        b"s3:prefix" => Some(Key::Prefix),
        b"aws:sourcevpce" => Some(Key::SourceVpce),
        b"aws:referer" => Some(Key::Referer),
        b"aws:sourceip" => Some(Key::SourceIp),
        _ => None,
    }
}
