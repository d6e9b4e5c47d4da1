//! The members of a policy: 21 and 22, the lowest place of any of them.

use crate::build::*;
use crate::marked::{refused, table};

/// A statement that is whole, but for its last brace.
const WHOLE: &str = r#"{"Effect": "Allow", "Principal": "*", "Action": "a", "Resource": "r""#;

/// A policy with this behind the colon of Statement.
fn policy(statement: &str) -> String {
    format!(r#"{{"Version": "2012-10-17", "Statement": {statement}}}"#)
}

/// A policy of a whole statement with this behind it, up to its brace.
fn with(more: &str) -> String {
    policy(&format!("{WHOLE}{more}}}"))
}

/// A policy whose one statement has this principal.
fn of_principal(member: &str) -> String {
    policy(&format!(r#"{{"Effect": "Allow", {member}, "Action": "a", "Resource": "r"}}"#))
}

fn under_condition(condition: &str) -> String {
    with(&format!(r#", "Condition": {condition}"#))
}

#[test]
fn the_top_is_an_object() {
    for text in ["¦[]", " ¦\"Version\"", "¦0", "¦null", "¦[{}]", "\n\t¦true", "¦-1 "] {
        refused(22, text);
    }
    refused(22, &format!("¦[{}]", policy("[]")));
}

#[test]
fn version_and_statement_once_each() {
    assert_eq!(table(&policy("[]")), NOTHING);
    assert_eq!(table(r#" { "Statement" : [ ] , "Version" : "2012-10-17" } "#), NOTHING);
    refused(22, "{¦}");
    refused(22, r#"{"Version": "2012-10-17"¦}"#);
    refused(22, r#"{"Statement": [] ¦}"#);
    refused(21, r#"{"Version": "2012-10-17", "Statement": [], ¦"Version": "2012-10-17"}"#);
    refused(21, r#"{"Version": "2012-10-17", "Statement": [], ¦"Statement": []}"#);
    refused(21, r#"{"Version": "2012-10-17", ¦"Id": "clocks", "Statement": []}"#);
    for name in ["version", "VERSION", "Version ", "", "Statements", "Effect", "Version\\u0000", "Vérsion"] {
        refused(21, &format!(r#"{{¦"{name}": "2012-10-17", "Statement": []}}"#));
    }
}

#[test]
fn version_is_one_string() {
    for version in
        ["\"2008-10-17\"", "\"\"", "\"2012-10-17 \"", "\"2012-10-1\"", "20121017", "null", "[]", "{}"]
    {
        refused(22, &format!(r#"{{"Version": ¦{version}, "Statement": []}}"#));
    }
    refused(22, r#"{"Version": ¦["2012-10-17"], "Statement": []}"#);
    assert_eq!(table(r#"{"Version": "2012\u002d10-17", "Statement": []}"#), NOTHING);
}

#[test]
fn statement_is_an_object_or_a_list_of_objects() {
    for wrong in ["\"s\"", "1", "true", "false", "null"] {
        refused(22, &policy(&format!("¦{wrong}")));
        refused(22, &policy(&format!("[{WHOLE}}}, ¦{wrong}]")));
    }
    refused(22, &policy(&format!("[¦[{WHOLE}}}]]")));
    refused(22, &policy("[¦[]]"));
    let one = table(&policy(&format!("{WHOLE}}}")));
    assert_eq!(one, support::build::table(&[simple(ALLOW, "*", "a", "r")]));
    assert_eq!(table(&policy(&format!("[{WHOLE}}}]"))), one);
}

#[test]
fn members_of_a_statement_that_are_missing() {
    refused(22, &policy("{¦}"));
    refused(22, &policy("[{¦}]"));
    refused(22, &policy(r#"{"Principal": "*", "Action": "a", "Resource": "r"¦}"#));
    refused(22, &policy(r#"{"Effect": "Allow", "Action": "a", "Resource": "r"¦}"#));
    refused(22, &policy(r#"{"Effect": "Allow", "Principal": "*", "Resource": "r" ¦}"#));
    refused(22, &policy(r#"{"Effect": "Allow", "Principal": "*", "Action": "a"¦}"#));
    refused(22, &policy(r#"{"Sid": "only", "Condition": {}¦}"#));
    // Those of the second statement are not those of the first.
    refused(22, &policy(&format!(r#"[{WHOLE}}}, {{"Effect": "Allow"¦}}]"#)));
}

#[test]
fn members_of_a_statement_that_are_twice_or_unknown() {
    for name in ["Effect", "Principal", "Action", "Resource", "NotPrincipal", "NotAction", "NotResource"] {
        refused(21, &with(&format!(r#", ¦"{name}": "*""#)));
    }
    refused(21, &with(r#", "Sid": "", ¦"Sid": """#));
    refused(21, &with(r#", "Condition": {}, ¦"Condition": {}"#));
    for name in
        ["sid", "effect", "NotEffect", "NotSid", "Version", "Statement", "AWS", "Not", "", "StringLike", "Id"]
    {
        refused(21, &with(&format!(r#", ¦"{name}": "*""#)));
    }
    let not_first =
        r#"{"Effect": "Allow", "NotAction": "a", ¦"Action": "a", "Principal": "*", "Resource": "r"}"#;
    refused(21, &policy(not_first));
    // Read after their escapes.
    refused(21, &with(r#", ¦"\u0045ffect": "Allow""#));
    refused(21, &with(r#", "Sid": "", ¦"S\u0069d": """#));
}

#[test]
fn names_with_escapes_and_in_any_order() {
    let json = r#"{"\u0053tatement": {"Resou\u0072ce": "r", "\u0041ction": "a", "Sid": "\"\\\/",
        "Pri\u006Ecipal": "\u002a", "Effect": "\u0041llow"}, "Versio\u006e": "2012-10-1\u0037"}"#;
    assert_eq!(table(json), support::build::table(&[simple(ALLOW, "*", "a", "r")]));
}

#[test]
fn sid_and_effect_are_strings() {
    let plain = table(&policy(&format!("{WHOLE}}}")));
    for sid in ["", "a b", "é\u{10FFFF}\x7F", "\\u0000", "${x}", &"s".repeat(1_000)] {
        assert_eq!(table(&with(&format!(r#", "Sid": "{sid}""#))), plain);
    }
    for wrong in ["1", "true", "null", "[]", "{}", "[\"s\"]"] {
        refused(22, &with(&format!(r#", "Sid": ¦{wrong}"#)));
        refused(
            22,
            &policy(&format!(r#"{{"Effect": ¦{wrong}, "Principal": "*", "Action": "a", "Resource": "r"}}"#)),
        );
    }
}

#[test]
fn principal() {
    let everyone = table(&policy(&format!("{WHOLE}}}")));
    for member in [r#""Principal": "*""#, r#""Principal": {"AWS": "*"}"#, r#""Principal": {"AWS": ["*"]}"#] {
        assert_eq!(table(&of_principal(member)), everyone);
    }
    assert_eq!(table(&of_principal(r#""Principal": {"\u0041WS": "\u002A"}"#)), everyone);
    for name in ["Principal", "NotPrincipal"] {
        let member = |value: &str| of_principal(&format!(r#""{name}": {value}"#));
        for wrong in
            ["\"arn:clock\"", "\"\"", "\"**\"", "\" *\"", "1", "null", "true", "[]", "[\"*\"]", "[{}]"]
        {
            refused(22, &member(&format!("¦{wrong}")));
        }
        refused(22, &member("{¦}"));
        for wrong in ["1", "null", "{}", "{\"AWS\": \"*\"}"] {
            refused(22, &member(&format!(r#"{{"AWS": ¦{wrong}}}"#)));
            refused(22, &member(&format!(r#"{{"AWS": ["*", ¦{wrong}, 0]}}"#)));
        }
        refused(22, &member(r#"{"AWS": [¦["*"]]}"#));
        refused(21, &member(r#"{"AWS": "*", ¦"AWS": "*"}"#));
        for other in ["Service", "Federated", "CanonicalUser", "aws", "AWS ", "", "Principal"] {
            refused(21, &member(&format!(r#"{{¦"{other}": "*"}}"#)));
            refused(21, &member(&format!(r#"{{"AWS": "*", ¦"{other}": "*"}}"#)));
        }
    }
}

#[test]
fn actions_and_resources_are_strings_or_lists_of_strings() {
    for wrong in ["1", "null", "{}", "{\"AWS\": \"*\"}"] {
        refused(
            22,
            &policy(&format!(
                r#"{{"Effect": "Allow", "Principal": "*", "Action": ¦{wrong}, "Resource": "r"}}"#
            )),
        );
        refused(
            22,
            &policy(&format!(
                r#"{{"Effect": "Allow", "Principal": "*", "Action": "a", "NotResource": ["r", ¦{wrong}]}}"#
            )),
        );
    }
    refused(22, &policy(r#"{"Effect": "Allow", "Principal": "*", "NotAction": [¦[]], "Resource": "r"}"#));
}

#[test]
fn conditions_that_make_nothing() {
    let plain = table(&policy(&format!("{WHOLE}}}")));
    assert_eq!(table(&under_condition("{}")), plain);
    assert_eq!(table(&under_condition(r#"{"StringEquals": {}}"#)), plain);
    assert_eq!(table(&under_condition(r#"{"StringEquals": {}, "IpAddressIfExists": { } }"#)), plain);
}

#[test]
fn operators() {
    for wrong in ["\"StringLike\"", "1", "null", "[]", "[{}]"] {
        refused(22, &under_condition(&format!("¦{wrong}")));
        refused(22, &under_condition(&format!(r#"{{"StringLike": ¦{wrong}}}"#)));
    }
    let unknown = [
        "stringequals",
        "STRINGEQUALS",
        "StringEqualsIgnoreCase",
        "NumericEquals",
        "DateLessThan",
        "Bool",
        "Null",
        "ArnLike",
        "IfExists",
        "StringEqualsIfexists",
        "StringLikeIfExistsIfExists",
        "ForAnyValue:StringLike",
        "",
        "StringNotIpAddress",
        "NotStringEquals",
        "IpNotAddress",
    ];
    for name in unknown {
        refused(21, &under_condition(&format!(r#"{{¦"{name}": {{}}}}"#)));
    }
    refused(21, &under_condition(r#"{"StringLike": {}, "StringLikeIfExists": {}, ¦"StringLike": {}}"#));
    refused(21, &under_condition(r#"{"StringLike": {}, ¦"\u0053tringLike": {}}"#));
}

#[test]
fn keys() {
    let under = |keys: &str| under_condition(&format!(r#"{{"StringEquals": {keys}}}"#));
    for wrong in ["1", "true", "null", "{}"] {
        refused(22, &under(&format!(r#"{{"s3:prefix": ¦{wrong}}}"#)));
        refused(22, &under(&format!(r#"{{"s3:prefix": ["p", ¦{wrong}]}}"#)));
    }
    for name in
        ["s3:max-keys", "aws:username", "prefix", "s3:prefix ", "", "aws:SourceVpcs", "s3:pr\u{E9}fix"]
    {
        refused(21, &under(&format!(r#"{{¦"{name}": "p"}}"#)));
    }
    // A letter outside ASCII has no case here: the Kelvin sign is no k, the long s no s.
    refused(21, &under("{¦\"\u{17F}3:prefix\": \"p\"}"));
    refused(21, &under(r#"{"s3:prefix": "p", ¦"s3:prefix": "p"}"#));
    refused(21, &under(r#"{"s3:prefix": "p", "aws:Referer": "p", ¦"S3:PREFIX": "p"}"#));
    refused(21, &under(r#"{"aws:SourceVpc": "p", "aws:SourceVpce": "p", ¦"\u0041WS:sourcevpc": "p"}"#));
    // The same key under another operator is another condition.
    let twice = r#"{"StringEquals": {"s3:prefix": "p"}, "StringLike": {"S3:Prefix": "p"}}"#;
    let conditions = [strings(STRING_EQUALS, 1, &["p"]), strings(STRING_LIKE, 1, &["p"])];
    let expected = support::build::table(&[simple(ALLOW, "*", "a", "r").when(&conditions)]);
    assert_eq!(table(&under_condition(twice)), expected);
}

#[test]
fn twenty_comes_before() {
    refused(20, r#"{"Nothing": 1, "Nothing": [1,¦]}"#);
    refused(20, &format!("{}¦x", policy("1")));
}

#[test]
fn the_lowest_place_decides() {
    // Wrong types before and behind an unknown name.
    refused(22, r#"{"Version": ¦1, "Id": 1, "Statement": 1}"#);
    refused(21, r#"{¦"Id": 1, "Version": 1, "Statement": 1}"#);
    // A missing member is placed at the brace, behind all that stands in its object and before all that follows.
    refused(22, r#"{"Statement": {"Effect": ¦1, "Principal": "*"}}"#);
    refused(22, r#"{"Statement": {"Effect": "Allow"¦}, "Version": 1, "Id": 1}"#);
    refused(21, r#"{"Statement": {"Effect": "Allow", ¦"Id": 1}, "Version": 1}"#);
    refused(22, r#"{"Statement": [{"Effect": "Allow"¦}, 1], "Id": 1}"#);
    // Inside of what is unknown, twice or of the wrong type nothing is looked at, being behind it.
    refused(21, r#"{¦"Statements": {"Effect": 1}}"#);
    refused(22, &of_principal(r#""Principal": ¦["x", 1]"#));
    refused(21, &under_condition(r#"{"StringLike": {"s3:prefix": "p", ¦"s3:prefix": 1}, "Bool": 1}"#));
    // Within one condition.
    refused(22, &under_condition(r#"{"StringLike": {"s3:prefix": ¦1}, "Bool": {}}"#));
    refused(22, &under_condition(r#"{"StringLike": ¦1, "Bool": {}}"#));
    refused(21, &under_condition(r#"{¦"Bool": 1, "StringLike": 1}"#));
}

#[test]
fn members_come_before_records() {
    // 3, 5, 6 and 8 in front of a 22.
    let faulty = r#""Effect": "No", "Principal": {"AWS": []}, "Action": "", "Resource": "${""#;
    refused(22, &policy(&format!(r#"{{{faulty}, "Sid": ¦1}}"#)));
    refused(22, r#"{"Statement": {"Effect": "No", "Principal": "*", "Action": "", "Resource": "r"}¦}"#);
}
