//! The records that a policy makes: their order, 3 to 8 with their places, then 1, then 14.

use crate::build::*;
use crate::marked::{refused, table};
use oracle::{read_json, Refusal};

fn policy(statements: &str) -> String {
    format!(r#"{{"Version": "2012-10-17", "Statement": {statements}}}"#)
}

/// A policy of one statement with everything allowed under a condition.
pub fn under(condition: &str) -> String {
    policy(&format!(
        r#"{{"Effect": "Allow", "Principal": "*", "Action": "a", "Resource": "r", "Condition": {condition}}}"#
    ))
}

/// A policy of one statement with this as the value of Action.
fn of_action(action: &str) -> String {
    policy(&format!(r#"{{"Effect": "Allow", "Principal": "*", "Action": {action}, "Resource": "r"}}"#))
}

/// The same for an object of principals.
fn of_principal(listed: &str) -> String {
    policy(&format!(
        r#"{{"Effect": "Allow", "Principal": {{"AWS": {listed}}}, "Action": "a", "Resource": "r"}}"#
    ))
}

/// A list of so many strings, `"v"` each, without its brackets.
fn many(number: usize) -> String {
    vec![r#""v""#; number].join(",")
}

#[test]
fn a_table_by_hand() {
    let json = r#"{
        "Version": "2012-10-17",
        "Statement": [
            {
                "Sid": "Öffentlich",
                "Effect": "Allow",
                "Principal": "*",
                "Action": ["s3:Get*", "s3:List*"],
                "Resource": "arn:x",
                "Condition": {
                    "IpAddress": {"aws:SourceIp": ["11.22.33.0/24", "1.2.3.4"]},
                    "StringLikeIfExists": {"S3:Prefix": "a/*", "aws:sourceVPC": ["v"]}
                }
            },
            {"NotResource": ["q"], "NotAction": "b", "NotPrincipal": {"AWS": ["p", "p"]}, "Effect": "Deny"}
        ]
    }"#;
    let expected: &[&[u8]] = &[
        b"\x01\x02",
        b"\x02\x01\x03\x00\x40*",
        b"\x03\x01\x46s3:Get*\x47s3:List*",
        b"\x03\x02\x44arn:x",
        b"\x04\x05\x04\x06\x0B\x16\x21\x00\x18\x06\x01\x02\x03\x04\x20",
        b"\x04\x13\x01\x42a/*",
        b"\x04\x13\x00\x40v",
        b"\x02\x00\x03\x10\x40p\x40p\x03\x11\x40b\x03\x12\x40q",
        b"\x05",
    ];
    assert_eq!(table(json), expected.concat());
}

#[test]
fn every_operator_and_key() {
    let operators = [
        ("StringEquals", 1),
        ("StringNotEquals", 2),
        ("StringLike", 3),
        ("StringNotLike", 4),
        ("StringEqualsIfExists", 0x11),
        ("StringNotEqualsIfExists", 0x12),
        ("StringLikeIfExists", 0x13),
        ("StringNotLikeIfExists", 0x14),
    ];
    let keys = [("aws:SourceVpc", 0), ("s3:prefix", 1), ("aws:SourceVpce", 2), ("aws:Referer", 3)];
    for (operator, operator_code) in operators {
        for (key, key_code) in keys {
            for key in [key.to_string(), key.to_uppercase(), key.to_lowercase()] {
                let condition = strings(operator_code, key_code, &["v"]);
                let expected = support::build::table(&[simple(ALLOW, "*", "a", "r").when(&[condition])]);
                assert_eq!(table(&under(&format!(r#"{{"{operator}": {{"{key}": "v"}}}}"#))), expected);
            }
            // An address operator does not go with it, nor this operator with the address.
            refused(8, &under(&format!(r#"{{"IpAddress": {{"{key}": ¦"1.2.3.4"}}}}"#)));
        }
        refused(8, &under(&format!(r#"{{"{operator}": {{"aws:SourceIp": ¦["1.2.3.4"]}}}}"#)));
    }
    for (operator, code) in
        [("IpAddress", 5), ("NotIpAddress", 6), ("IpAddressIfExists", 0x15), ("NotIpAddressIfExists", 0x16)]
    {
        for key in ["aws:SourceIp", "AWS:SOURCEIP", "aws:sourceip"] {
            let condition = networks(code, &[([10, 0, 0, 0], 8)]);
            let expected = support::build::table(&[simple(ALLOW, "*", "a", "r").when(&[condition])]);
            assert_eq!(table(&under(&format!(r#"{{"{operator}": {{"{key}": "10.0.0.0/8"}}}}"#))), expected);
        }
    }
}

#[test]
fn effects() {
    for effect in ["allow", "ALLOW", "Allow ", "", "Permit", "*", "All\\u006Fw ", "Ällow"] {
        refused(
            3,
            &policy(&format!(r#"{{"Action": "", "Resource": "", "Principal": "*", "Effect": ¦"{effect}"}}"#)),
        );
    }
    let deny = policy(r#"{"Effect": "D\u0065ny", "Principal": "*", "Action": "a", "Resource": "r"}"#);
    assert_eq!(table(&deny), support::build::table(&[simple(DENY, "*", "a", "r")]));
}

#[test]
fn empty_lists() {
    refused(5, &of_action("¦[]"));
    refused(5, &of_action("¦[ \n ]"));
    refused(5, &of_principal("¦[]"));
    refused(5, &under(r#"{"StringLike": {"s3:prefix": ¦[]}}"#));
    refused(5, &under(r#"{"IpAddress": {"aws:SourceIp": ¦[]}}"#));
    // The condition itself is asked before its first value is due.
    refused(8, &under(r#"{"IpAddress": {"s3:prefix": ¦[]}}"#));
}

#[test]
fn statements_up_to_32() {
    let one = r#"{"Effect": "Allow", "Principal": "*", "Action": "a", "Resource": "r"}"#;
    let most = policy(&format!("[{}]", vec![one; 32].join(",")));
    assert_eq!(table(&most), support::build::table(&vec![simple(ALLOW, "*", "a", "r"); 32]));
    for number in [33, 34, 255, 256, 257, 288, 512] {
        refused(6, &policy(&format!("¦[{}]", vec![one; number].join(","))));
    }
    // Before anything of the statements.
    let faulty = r#"{"Effect": "No", "Principal": "*", "Action": [], "Resource": ""}"#;
    refused(6, &policy(&format!("¦[{}]", vec![faulty; 33].join(","))));
}

#[test]
fn bytes_of_a_value_1_to_128() {
    let long = "x".repeat(128);
    for action in
        [format!(r#""{long}""#), format!(r#""{}""#, "\\u0078".repeat(128)), format!(r#"["a", "{long}"]"#)]
    {
        table(&of_action(&action));
    }
    refused(6, &of_action(r#"¦"""#));
    refused(6, &of_action(r#"["a", ¦"", "a a"]"#));
    refused(6, &of_action(&format!(r#"¦"{long}x""#)));
    refused(6, &of_action(&format!(r#"¦"{long}\u0078""#)));
    // Before 7 and 8, and before the 65th, which is 6 too.
    refused(6, &of_action(&format!(r#"¦"{long} ""#)));
    refused(6, &of_action(&format!(r#"¦"{}${{""#, "x".repeat(127))));
    // Two bytes of one letter count twice.
    refused(6, &of_action(&format!(r#"¦"{}""#, "é".repeat(65))));
    refused(7, &of_action(&format!(r#"¦"{}""#, "é".repeat(64))));
    refused(6, &of_principal(r#"["p", ¦""]"#));
    refused(6, &under(r#"{"StringLike": {"s3:prefix": ¦""}}"#));
}

#[test]
fn values_of_a_statement_up_to_64() {
    // The principal and the resource leave 62 for the action.
    table(&of_action(&format!("[{}]", many(62))));
    refused(
        6,
        &policy(&format!(
            r#"{{"Resource": ¦"r", "Effect": "Allow", "Principal": "*", "Action": [{}]}}"#,
            many(63)
        )),
    );
    refused(6, &of_action(&format!(r#"[{}, ¦"v"]"#, many(63))));
    refused(6, &of_action(&format!(r#"[{}, ¦" "]"#, many(63))));
    // In a condition, and in one of networks, whatever the text is.
    let full = format!(r#""StringEquals": {{"aws:Referer": [{}]}}"#, many(61));
    table(&under(&format!("{{{full}}}")));
    refused(6, &under(&format!(r#"{{{full}, "StringLike": {{"s3:prefix": ¦"v"}}}}"#)));
    for network in ["1.2.3.4", "1.2.3.4/33", "no network", "é", ""] {
        refused(6, &under(&format!(r#"{{{full}, "IpAddress": {{"aws:SourceIp": [¦"{network}", "x"]}}}}"#)));
    }
    // An empty list behind 64 values is 5.
    refused(5, &under(&format!(r#"{{{full}, "IpAddress": {{"aws:SourceIp": ¦[]}}}}"#)));
    // The next statement counts anew.
    let one =
        format!(r#"{{"Effect": "Allow", "Principal": "*", "Action": [{}], "Resource": "r"}}"#, many(62));
    table(&policy(&format!("[{one}, {one}]")));
}

#[test]
fn conditions_up_to_4() {
    let four = r#""StringLike": {"s3:prefix": "v", "aws:Referer": "v"}, "StringEquals": {"s3:prefix": "v", "aws:Referer": "v"}"#;
    table(&under(&format!("{{{four}}}")));
    table(&under(&format!(r#"{{{four}, "IpAddress": {{}}}}"#)));
    refused(6, &under(&format!(r#"{{{four}, "IpAddress": {{"aws:SourceIp": ¦"10.0.0.0/8"}}}}"#)));
    // Before 5 and 8 of the fifth itself.
    refused(6, &under(&format!(r#"{{{four}, "IpAddress": {{"aws:SourceIp": ¦[]}}}}"#)));
    refused(6, &under(&format!(r#"{{{four}, "IpAddress": {{"s3:prefix": ¦"v"}}}}"#)));
    refused(6, &under(&format!(r#"{{{four}, "NotIpAddress": {{}}, "IpAddress": {{"s3:prefix": ¦[""]}}}}"#)));
}

#[test]
fn bytes_outside_21_to_7e() {
    for value in ["a b", " ", "\x7F", "é", "\u{10FFFF}", "\\u0000", "\\u0020", "\\u007f", "*é", "${ "] {
        refused(7, &of_action(&format!(r#"["a", ¦"{value}"]"#)));
        refused(7, &of_principal(&format!(r#"["a", ¦"{value}"]"#)));
        refused(7, &under(&format!(r#"{{"StringEquals": {{"aws:Referer": ["v", ¦"{value}"]}}}}"#)));
    }
    table(&of_action(r#""!\u0021~\u007e\"\\\/\u0022\u005c""#));
}

#[test]
fn values_that_do_not_fit() {
    for value in ["a*", "**", "?", "\\u002a*", "arn:?"] {
        refused(8, &of_principal(&format!(r#"["p", ¦"{value}"]"#)));
        table(&of_action(&format!(r#""{value}""#)));
    }
    table(&of_principal(r#"["*", "p", "\u002a"]"#));
    for value in ["${aws:username}", "a/${", "\\u0024{", "$\\u007b", "$${"] {
        refused(8, &of_action(&format!(r#"["$", "{{", "$}}{{", ¦"{value}"]"#)));
        refused(8, &of_principal(&format!(r#"¦"{value}""#)));
        refused(8, &under(&format!(r#"{{"StringLike": {{"s3:prefix": ¦"{value}"}}}}"#)));
    }
}

/// In the order of the table, not of the text.
#[test]
fn the_first_record_decides() {
    let resource_first = r#"{"Resource": "", "Action": ["a", ¦" "], "Principal": "*", "Effect": "Allow"}"#;
    refused(7, &policy(resource_first));
    refused(8, &policy(r#"{"Resource": "", "Action": " ", "Principal": {"AWS": ¦"p*"}, "Effect": "Allow"}"#));
    refused(3, &policy(r#"{"Resource": "", "Action": " ", "Principal": {"AWS": "p*"}, "Effect": ¦"No"}"#));
    refused(
        5,
        &policy(
            r#"{"Condition": {"IpAddress": {"s3:prefix": "p"}}, "Effect": "Deny",
        "Resource": ¦[], "Action": "a", "Principal": "*"}"#,
        ),
    );
    // Of two statements the first, though its fault stands further in.
    let good = r#"{"Effect": "Allow", "Principal": "*", "Action": "a", "Resource": "r"}"#;
    refused(
        6,
        &policy(&format!(
            r#"[{good}, {{"Action": "a", "Effect": "Deny", "Principal": "*", "Resource": ¦""}},
        {{"Action": "a", "Effect": "No", "Principal": "*", "Resource": ""}}]"#
        )),
    );
    // Conditions and their values as they stand.
    refused(
        8,
        &under(
            r#"{"StringLike": {"s3:prefix": "v", "aws:SourceIp": ¦"1.2.3.4"}, "StringEquals": {"s3:prefix": []}}"#,
        ),
    );
    refused(5, &under(r#"{"StringEquals": {"s3:prefix": ¦[]}, "StringLike": {"aws:SourceIp": "1.2.3.4"}}"#));
    refused(7, &under(r#"{"StringEquals": {"s3:prefix": ["v", ¦" ", ""]}}"#));
}

#[test]
fn version_and_blanks_around_do_not_move_the_record() {
    refused(3, "\r\n {\t\"Statement\" : {\"Effect\":\n¦\"x\",\"Principal\":\"*\",\"Action\":\"a\",\"Resource\":\"r\"}\n,\"Version\":\"2012-10-17\"}\n");
}

/// Three statements of which the last ends with these conditions. Two of them have 63 values of 128 bytes and a
/// principal of one: 10 + 63 * 129 = 8,137 bytes each. The last has 13 bytes and its resource. With the 3 bytes of
/// start and end that makes 16,290 bytes and the resource's.
fn long_policy(resource: usize, conditions: &str) -> String {
    let value = format!(r#""{}""#, "v".repeat(128));
    let long = format!(
        r#"{{"Effect": "Allow", "Principal": "*", "Action": [{}], "Resource": {value}}}"#,
        vec![&value[..]; 62].join(",")
    );
    let resource = "r".repeat(resource);
    let last = r#"{"Effect": "Allow", "Principal": "*", "Action": "a", "Resource": "#;
    policy(&format!(r#"[{long}, {long}, {last}"{resource}", "Condition": {{{conditions}}}}}]"#))
}

#[test]
fn bytes_of_a_table_up_to_16384() {
    assert_eq!(table(&long_policy(94, "")).len(), 16_384);
    for (resource, conditions) in [(95, ""), (128, ""), (94, r#""StringLike": {"s3:prefix": "p"}"#)] {
        for length in [0, 16_383, 16_384, 16_385, 20_000] {
            let mut buffer = vec![0xEE; length];
            let answer = read_json(long_policy(resource, conditions).as_bytes(), &mut buffer);
            assert_eq!(answer, Err(Refusal { number: 1, place: 16_384 }));
            assert!(buffer == vec![0xEE; length]);
        }
    }
    // A record that is refused comes before, though it would begin behind byte 16,384.
    refused(7, &long_policy(128, r#""StringLike": {"s3:prefix": ["p", ¦" "]}"#));
    refused(8, &long_policy(128, r#""StringLike": {"aws:SourceIp": ¦"p"}"#));
}

#[test]
fn number_14_leaves_the_buffer() {
    let json = policy("[]");
    for length in 0..3 {
        let mut buffer = vec![0xEE; length];
        assert_eq!(read_json(json.as_bytes(), &mut buffer), Err(Refusal { number: 14, place: 0 }));
        assert_eq!(buffer, vec![0xEE; length]);
    }
    assert_eq!(read_json(json.as_bytes(), &mut [0; 3]), Ok(3));
}
