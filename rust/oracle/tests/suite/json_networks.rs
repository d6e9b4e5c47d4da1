//! Networks as texts: those that are taken, and 8 or 6 for the others, never 7.

use crate::build::*;
use crate::json_records::under;
use crate::marked::{refused, table};

#[test]
fn networks_as_texts() {
    let of = |text: &str| under(&format!(r#"{{"IpAddress": {{"aws:SourceIp": {text}}}}}"#));
    let taken: [(&str, [u8; 4], u8); 9] = [
        ("0.0.0.0/0", [0, 0, 0, 0], 0),
        ("0.0.0.0", [0, 0, 0, 0], 32),
        ("255.255.255.255", [255; 4], 32),
        ("255.255.255.254/31", [255, 255, 255, 254], 31),
        ("128.0.0.0/1", [128, 0, 0, 0], 1),
        ("10.0.0.0/8", [10, 0, 0, 0], 8),
        ("1.20.255.4/32", [1, 20, 255, 4], 32),
        ("192.0.2.0\\/24", [192, 0, 2, 0], 24),
        ("19\\u0032.0.2.0/2\\u0034", [192, 0, 2, 0], 24),
    ];
    for (text, address, length) in taken {
        let condition = networks(IP_ADDRESS, &[(address, length)]);
        let expected = support::build::table(&[simple(ALLOW, "*", "a", "r").when(&[condition])]);
        assert_eq!(table(&of(&format!(r#""{text}""#))), expected, "{text}");
    }
    let none = [
        "1.2.3",
        "1.2.3.",
        ".1.2.3",
        "1..2.3",
        "1.2.3.4.",
        "1.2.3.4.5",
        "1.2.3.256",
        "256.0.0.0",
        "1.2.3.1000",
        "01.2.3.4",
        "1.2.3.04",
        "1.2.3.00",
        "+1.2.3.4",
        "-1.2.3.4",
        "1.2.3.-4",
        " 1.2.3.4",
        "1.2.3.4 ",
        "1.2.3. 4",
        "1.2.3.4/",
        "/8",
        "/",
        ".",
        "...",
        "1.2.3.4/a",
        "1.2.3.4/+8",
        "10.0.0.0/08",
        "10.0.0.0/8/8",
        "10.0.0.0/8.0",
        "10/8",
        "10.0/16",
        "0x0A.0.0.0",
        "1.2.3.4/33",
        "0.0.0.0/33",
        "0.0.0.0/255",
        "0.0.0.0/256",
        "0.0.0.0/4294967296",
        "0.0.0.0/-0",
        "0.0.0.0/00",
        "10.0.0.1/8",
        "1.2.3.5/31",
        "0.0.0.1/0",
        "128.0.0.0/0",
        "::1",
        "2001:db8::/32",
        "clock",
        "*",
        "${aws:SourceIp}",
        "é",
        "\\u0000",
        "1.2.3.٤",
        "1\\u0000.2.3.4",
    ];
    for text in none {
        refused(8, &of(&format!(r#"¦"{text}""#)));
        refused(8, &of(&format!(r#"["1.2.3.4", ¦"{text}"]"#)));
    }
    refused(6, &of(r#"¦"""#));
    refused(6, &of(&format!(r#"¦"{}""#, "1".repeat(129))));
    refused(6, &of(&format!(r#"¦"1.2.3.4/{}""#, "0".repeat(121))));
    refused(8, &of(&format!(r#"¦"1.2.3.4/{}""#, "0".repeat(120))));
    refused(6, &of(&format!(r#"¦"{}""#, "é".repeat(65))));
    refused(8, &of(&format!(r#"¦"{}""#, "é".repeat(64))));
}
