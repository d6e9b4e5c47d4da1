//! What was expected at a place, in words.

use super::around::{read, Around, Behind, Sort};
use super::excerpt::string;

const DEEPEST: usize = 8;
const VALUE_BYTES: usize = 128;

/// 20: not JSON.
pub fn of_the_text(around: &Around, found: &str) -> String {
    let in_object = around.open.last().map(|open| open.is_object);
    let is_full = around.open.len() == DEEPEST && (found == "{" || found == "[");
    let expected = match (around.behind, in_object) {
        (Behind::InString(Some(0)), _) => "an escape that is taken (\\\", \\\\, \\/ or \\u)",
        (Behind::InString(Some(_)), _) => "four hex digits of a code below 0080",
        (Behind::InString(None), _) => "the rest of a string, in UTF-8 and without control characters",
        (Behind::Name, _) => "a colon",
        (Behind::Value, None) => "the text's end",
        (Behind::Word, None) => "the rest of a number or word, or the text's end",
        (Behind::Value, Some(true)) => "a comma or }",
        (Behind::Value, Some(false)) => "a comma or ]",
        (Behind::Word, Some(true)) => "the rest of a number or word, a comma or }",
        (Behind::Word, Some(false)) => "the rest of a number or word, a comma or ]",
        (Behind::Opening, Some(true)) => "a member's name in quotes or }",
        (Behind::Comma, Some(true)) => "a member's name in quotes",
        _ if is_full => "a value that is not nested deeper than eight",
        (Behind::Opening, _) => "a value or ]",
        _ => "a value",
    };
    format!("this is not JSON as it is taken here: expected {expected}, found {found}")
}

/// 21: a name that is unknown, or there already.
pub fn of_the_name(around: &Around, text: &[u8], place: usize, found: &str) -> String {
    let name = name_at(text, place);
    let met = around.open.last().map_or(&[][..], |open| &open.names);
    let is_same = |other: &Vec<u8>| same_member(around.sort(), other, &name);
    match met.iter().find(|other| is_same(other)) {
        Some(other) if is_known(around.sort(), &name) => {
            let other = String::from_utf8_lossy(other);
            format!("the member {found} is there already, as {other}")
        }
        _ => format!("the member {found} is unknown: {}", known_members(around.sort())),
    }
}

/// 22: a value of the wrong type, or a brace that closes an object too early.
pub fn of_the_type(around: &Around, text: &[u8], place: usize, found: &str) -> String {
    if text.get(place) == Some(&b'}') {
        let missing = missing_members(around).join(", ");
        return format!("the object that ends here lacks {missing}: {}", known_members(around.sort()));
    }
    let expected = match around.path()[..] {
        [] => "a policy is an object with Version and Statement",
        [b"Version"] => "Version is the string \"2012-10-17\"",
        [b"Statement"] => "Statement is an object or a list of objects",
        [_, b"Effect"] => "Effect is a string, \"Allow\" or \"Deny\"",
        [_, b"Sid"] => "Sid is a string",
        [_, b"Principal" | b"NotPrincipal"] => {
            "a principal is the string \"*\" or an object with the member AWS, such as {\"AWS\": \"name\"}"
        }
        [_, b"Condition"] => "Condition is an object of operators",
        [_, b"Condition", _] => "an operator has an object of keys",
        _ => "expected is a string or a list of strings",
    };
    format!("found {found}: {expected}")
}

/// 3 to 8: a record that no table has.
pub fn of_the_record(around: &Around, number: u16, text: &[u8], place: usize, found: &str) -> String {
    let path = around.path();
    let expected = match number {
        3 => "Effect is \"Allow\" or \"Deny\"",
        5 => "a list has one value or more",
        6 if path.len() == 1 => "a policy has at most 32 statements",
        6 if is_of_no_length(text, place) => "a value has 1 to 128 bytes",
        6 => "a statement has at most 64 values and 4 conditions",
        7 => "a value has only printable ASCII in it and no blank",
        _ => unfit(&path),
    };
    format!("found {found}: {expected}")
}

/// 1, and what never comes.
pub fn of_the_table(number: u16) -> String {
    match number {
        1 => "the policy is too long: its table would have more than 16384 bytes".into(),
        _ => "refused for an unknown reason".into(),
    }
}

/// 8, by the list that the value stands in.
fn unfit(path: &[&[u8]]) -> &'static str {
    match path {
        [_, b"Principal" | b"NotPrincipal", ..] => {
            "a principal is * alone or has neither * nor ? in it, and ${ stands in no value"
        }
        [_, b"Condition", operator, key] => match (is_of_addresses(operator), is_address(key)) {
            (true, true) => {
                "an address is four numbers from 0 to 255 with dots, perhaps with / and a length of 0 to 32 behind \
                 which no bit is set"
            }
            (false, false) => "${ stands in no value",
            (true, false) => "IpAddress and NotIpAddress go with aws:SourceIp alone",
            (false, true) => "aws:SourceIp goes with IpAddress and NotIpAddress alone",
        },
        _ => "${ stands in no value",
    }
}

fn is_of_addresses(operator: &[u8]) -> bool {
    operator.windows(9).any(|part| part == b"IpAddress")
}

fn is_address(key: &[u8]) -> bool {
    key.eq_ignore_ascii_case(b"aws:SourceIp")
}

fn name_at(text: &[u8], place: usize) -> Vec<u8> {
    read(string(&text[place.min(text.len())..]))
}

fn is_of_no_length(text: &[u8], place: usize) -> bool {
    text.get(place) == Some(&b'"') && !(1..=VALUE_BYTES).contains(&name_at(text, place).len())
}

/// Whether two names are the same member of an object.
fn same_member(sort: Option<Sort>, one: &[u8], other: &[u8]) -> bool {
    let form = |name: &[u8]| name.strip_prefix(b"Not").unwrap_or(name).to_vec();
    match sort {
        Some(Sort::Statement) => form(one) == form(other),
        Some(Sort::Operator) => one.eq_ignore_ascii_case(other),
        _ => one == other,
    }
}

const OPERATORS: [&str; 6] =
    ["StringEquals", "StringNotEquals", "StringLike", "StringNotLike", "IpAddress", "NotIpAddress"];
const KEYS: [&str; 5] = ["aws:SourceVpc", "s3:prefix", "aws:SourceVpce", "aws:Referer", "aws:SourceIp"];
const ELEMENTS: [&str; 3] = ["Principal", "Action", "Resource"];

fn is_known(sort: Option<Sort>, name: &[u8]) -> bool {
    let Ok(name) = std::str::from_utf8(name) else {
        return false;
    };
    match sort {
        Some(Sort::Policy) => ["Version", "Statement"].contains(&name),
        Some(Sort::Statement) => {
            let form = name.strip_prefix("Not").unwrap_or(name);
            ["Sid", "Effect", "Condition"].contains(&name) || ELEMENTS.contains(&form)
        }
        Some(Sort::Principal) => name == "AWS",
        Some(Sort::Condition) => OPERATORS.contains(&name.strip_suffix("IfExists").unwrap_or(name)),
        Some(Sort::Operator) => KEYS.iter().any(|key| key.eq_ignore_ascii_case(name)),
        None => false,
    }
}

fn known_members(sort: Option<Sort>) -> String {
    match sort {
        Some(Sort::Policy) => "a policy has Version and Statement".into(),
        Some(Sort::Statement) => {
            "a statement has Effect, Principal, Action and Resource or their Not-forms, and perhaps Sid and Condition"
                .into()
        }
        Some(Sort::Principal) => "a principal has the one member AWS".into(),
        Some(Sort::Condition) => {
            format!("operators are {}, and these with IfExists behind them", OPERATORS.join(", "))
        }
        Some(Sort::Operator) => format!("keys are {}", KEYS.join(", ")),
        None => "no member is known here".into(),
    }
}

fn missing_members(around: &Around) -> Vec<&'static str> {
    let needed: &[&str] = match around.sort() {
        Some(Sort::Policy) => &["Version", "Statement"],
        Some(Sort::Statement) => &["Effect", "Principal", "Action", "Resource"],
        Some(Sort::Principal) => &["AWS"],
        _ => &[],
    };
    let met = around.open.last().map_or(&[][..], |open| &open.names);
    let is_met = |name: &str| met.iter().any(|other| same_member(around.sort(), other, name.as_bytes()));
    needed.iter().copied().filter(|name| !is_met(name)).collect()
}
