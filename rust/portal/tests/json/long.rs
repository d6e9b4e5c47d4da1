//! Long texts: where a policy may be long without a long table, and where it may not.

use crate::agree::asked;
use oracle::Refusal;

fn refused(json: &str) -> (u8, usize) {
    let Refusal { number, place } = asked(json.as_bytes(), 16_384).unwrap_err();
    (number, place)
}

fn policy(statement: &str) -> String {
    format!(r#"{{"Version":"2012-10-17","Statement":{statement}}}"#)
}

const STATEMENT: &str = r#"{"Effect":"Allow","Principal":"*","Action":"a","Resource":"r"}"#;
const MANY: usize = 100_000;

#[test]
fn long_sids_and_blanks() {
    for sid in ["s", "é", "€", "🕰", r"\u0041", r"\\"] {
        let statement = STATEMENT.replacen('{', &format!(r#"{{"Sid":"{}","#, sid.repeat(MANY)), 1);
        assert_eq!(asked(policy(&statement).as_bytes(), 100), Ok(17));
    }
    for blank in [" ", "\n", "\r\n", "\t"] {
        let blanks = blank.repeat(MANY);
        let json = policy(STATEMENT).replace(',', &format!("{blanks},{blanks}"));
        assert_eq!(asked(json.as_bytes(), 100), Ok(17));
        assert_eq!(refused(&blanks), (20, blanks.len()));
    }
}

#[test]
fn long_names_numbers_and_lists() {
    let long = "x".repeat(MANY);
    assert_eq!(refused(&format!(r#"{{"{long}":0}}"#)), (21, 1));
    assert_eq!(refused(&format!(r#"{{"Version{long}":0}}"#)), (21, 1));
    assert_eq!(refused(&format!(r#"{{"Version":"2012-10-17{long}"}}"#)), (22, 11));
    assert_eq!(refused(&"1".repeat(MANY)), (22, 0));
    assert_eq!(refused(&format!("-0.{}e+{}", "0".repeat(MANY), "9".repeat(MANY))), (22, 0));
    assert_eq!(refused(&"[".repeat(MANY)), (20, 8));
    assert_eq!(refused(&policy(&format!("[{}]", vec![STATEMENT; 2_000].join(",")))), (6, 36));
    let values = vec![r#""v""#; MANY].join(",");
    let many_values = policy(&STATEMENT.replace(r#""a""#, &format!("[{values}]")));
    let before = policy(STATEMENT).find(r#""a""#).unwrap() + 1;
    assert_eq!(refused(&many_values), (6, before + 4 * 63));
    let long_value = policy(&STATEMENT.replace(r#""r""#, &format!(r#""{long}""#)));
    assert_eq!(refused(&long_value), (6, policy(STATEMENT).find(r#""r""#).unwrap()));
}

/// The same unknown name over and over.
#[test]
fn many_members() {
    let members = vec![r#""Sid":0"#; MANY].join(",");
    assert_eq!(refused(&format!("{{{members}}}")), (21, 1));
    let statement = STATEMENT.replacen('{', &format!("{{{members},"), 1);
    assert_eq!(refused(&policy(&statement)), (22, 36 + 7));
}
