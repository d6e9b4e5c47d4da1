//! Tables of policies, and the texts of refusals.

use portal::{compare, judge, Refusal, Request, Table, Verdict};
use support::policies;
use support::random::Random;

fn refused(json: &str) -> Refusal {
    Table::from_json(json.as_bytes()).expect_err("a refusal")
}

fn said(json: &str) -> String {
    refused(json).to_string()
}

/// A statement that is right, with one part of it replaced.
fn with(part: &str, by: &str) -> String {
    let whole = r#"{
  "Version": "2012-10-17",
  "Statement": [
    {
      "Effect": "Allow",
      "Principal": {"AWS": "laboratory"},
      "Action": "clock:Read",
      "Resource": "*",
      "Condition": {"StringLike": {"s3:prefix": "a*"}}
    }
  ]
}
"#;
    assert!(whole.contains(part));
    whole.replacen(part, by, 1)
}

#[test]
fn a_table_stands_for_its_bytes() {
    let table = Table::from_json(with("laboratory", "l").as_bytes()).unwrap();
    assert_eq!(&table[..4], [1, 1, 2, 1]);
    assert_eq!((table.as_bytes(), table.as_ref()), (&table[..], &table[..]));
    let request = Request::new(b"l", b"clock:read", b"x").with_key(portal::Key::Prefix, b"abc");
    assert_eq!(judge(&table, &request), Ok(Verdict::Allowed));
    let other = Table::from_json(with("Allow", "Deny").as_bytes()).unwrap();
    assert_eq!(compare(&table, &other).map(|gaps| gaps.len()), Ok(1));
    assert_eq!(table.clone().into_bytes(), table.as_bytes());
}

#[test]
fn not_json() {
    let start = "this is not JSON as it is taken here: expected";
    let trailing = with(r#""*","#, r#""*",,"#);
    assert_eq!(
        said(&trailing),
        format!("line 8, column 23: {start} a member's name in quotes, found , (refusal 20)")
    );
    assert_eq!(said(""), format!("line 1, column 1: {start} a value, found the text's end (refusal 20)"));
    assert_eq!(said("[1,]"), format!("line 1, column 4: {start} a value, found ] (refusal 20)"));
    assert_eq!(
        said("{\r\n\"a\": \"é\\n\"}"),
        format!("line 2, column 9: {start} an escape that is taken (\\\", \\\\, \\/ or \\u), found n (refusal 20)")
    );
    assert_eq!(
        said(r#"["\u00e9"]"#),
        format!("line 1, column 7: {start} four hex digits of a code below 0080, found e9 (refusal 20)")
    );
    assert_eq!(
        said("[[[[[[[[[]]]]]]]]]"),
        format!(
            "line 1, column 9: {start} a value that is not nested deeper than eight, found [ (refusal 20)"
        )
    );
    assert_eq!(
        said("\u{FEFF}{}"),
        format!("line 1, column 1: {start} a value, found the byte EF (refusal 20)")
    );
    assert_eq!(said("{} x"), format!("line 1, column 4: {start} the text's end, found x (refusal 20)"));
    assert_eq!(said("{\"a\" 1}"), format!("line 1, column 6: {start} a colon, found 1 (refusal 20)"));
}

#[test]
fn members() {
    assert_eq!(
        said(&with("Resource", "Ressource")),
        "line 8, column 7: the member \"Ressource\" is unknown: a statement has Effect, Principal, Action and Resource or \
         their Not-forms, and perhaps Sid and Condition (refusal 21)"
    );
    assert_eq!(
        said(&with("\"Effect\"", "\"NotAction\"")),
        "line 7, column 7: the member \"Action\" is there already, as NotAction (refusal 21)"
    );
    assert_eq!(
        said(&with("\"AWS\"", "\"Service\"")),
        "line 6, column 21: the member \"Service\" is unknown: a principal has the one member AWS (refusal 21)"
    );
    assert_eq!(
        said(&with("StringLike", "Bool")),
        "line 9, column 21: the member \"Bool\" is unknown: operators are StringEquals, StringNotEquals, StringLike, \
         StringNotLike, IpAddress, NotIpAddress, and these with IfExists behind them (refusal 21)"
    );
    assert_eq!(
        said(&with("\"a*\"", "\"a*\", \"S3:Prefix\": 1")),
        "line 9, column 55: the member \"S3:Prefix\" is there already, as s3:prefix (refusal 21)"
    );
    assert_eq!(
        said(&with("      \"Effect\": \"Allow\",\n", "")),
        "line 9, column 5: the object that ends here lacks Effect: a statement has Effect, Principal, Action and Resource \
         or their Not-forms, and perhaps Sid and Condition (refusal 22)"
    );
    assert_eq!(said("{}"), "line 1, column 2: the object that ends here lacks Version, Statement: a policy has Version and Statement (refusal 22)");
}

#[test]
fn types() {
    assert_eq!(
        said(&with("{\"AWS\": \"laboratory\"}", "\"arn:laboratory\"")),
        "line 6, column 20: found \"arn:laboratory\": a principal is the string \"*\" or an object with the member AWS, \
         such as {\"AWS\": \"name\"} (refusal 22)"
    );
    assert_eq!(
        said(&with("2012-10-17", "2008-10-17")),
        "line 2, column 14: found \"2008-10-17\": Version is the string \"2012-10-17\" (refusal 22)"
    );
    assert_eq!(
        said(&with("\"clock:Read\"", "[\"clock:Read\", 5]")),
        "line 7, column 32: found 5: expected is a string or a list of strings (refusal 22)"
    );
    assert_eq!(
        said("[]"),
        "line 1, column 1: found [: a policy is an object with Version and Statement (refusal 22)"
    );
}

#[test]
fn records() {
    let cases = [
        ("\"Allow\"", "\"allow\"", "line 5, column 17: found \"allow\": Effect is \"Allow\" or \"Deny\" (refusal 3)"),
        ("\"clock:Read\"", "[]", "line 7, column 17: found [: a list has one value or more (refusal 5)"),
        ("\"clock:Read\"", "\"\"", "line 7, column 17: found \"\": a value has 1 to 128 bytes (refusal 6)"),
        ("\"*\"", "\"two words\"", "line 8, column 19: found \"two words\": a value has only printable ASCII in it and no blank (refusal 7)"),
        ("\"a*\"", "\"${aws:username}\"", "line 9, column 49: found \"${aws:username}\": ${ stands in no value (refusal 8)"),
        ("s3:prefix", "aws:SourceIp", "line 9, column 52: found \"a*\": aws:SourceIp goes with IpAddress and NotIpAddress alone (refusal 8)"),
    ];
    for (part, by, expected) in cases {
        assert_eq!(said(&with(part, by)), expected);
    }
    let network =
        with("\"StringLike\": {\"s3:prefix\": \"a*\"}", "\"IpAddress\": {\"aws:SourceIp\": \"10.0.0.1/8\"}");
    assert!(said(&network).starts_with("line 9, column 51: found \"10.0.0.1/8\": an address is four numbers"));
    let one = r#"{"Effect":"Deny","Principal":"*","Action":"a","Resource":"r"}"#;
    let many = format!(r#"{{"Version":"2012-10-17","Statement":[{}]}}"#, vec![one; 33].join(","));
    assert_eq!(said(&many), "line 1, column 37: found [: a policy has at most 32 statements (refusal 6)");
}

#[test]
fn a_table_that_would_be_too_long() {
    let mut random = Random::new(101);
    let (tree, _) =
        (0..).map(|_| policies::near_16384(&mut random)).find(|(_, bytes)| *bytes > 16_384).unwrap();
    let refusal = Table::from_json(&policies::plainly(&tree)).unwrap_err();
    assert_eq!((refusal.number, refusal.place, refusal.line_and_column()), (1, 16_384, None));
    assert_eq!(
        refusal.to_string(),
        "the policy is too long: its table would have more than 16384 bytes (refusal 1)"
    );
}

/// Every refusal has words, whatever the text is.
#[test]
fn every_refusal_can_be_said() {
    let mut random = Random::new(102);
    for case in 0..20_000 {
        let json = match case % 3 {
            0 => policies::damaged(&mut random),
            1 => policies::spoilt(&mut random),
            _ => policies::garbage(&mut random),
        };
        if let Err(refusal) = Table::from_json(&json) {
            let said = refusal.to_string();
            assert!(said.ends_with(&format!(" (refusal {})", refusal.number)), "{said}");
            assert!(said.starts_with("line ") && said.len() < 450, "{said}");
            assert!(
                !said.contains("unknown reason") && !said.contains("known here"),
                "{said}: {}",
                json.escape_ascii()
            );
        }
    }
}
