//! Texts in which one part grows with the length: blanks, a Sid, values, statements.

const HEAD: &str = r#"{"Version":"2012-10-17","Statement":"#;
const STATEMENT: &str = r#"{"Effect":"Allow","Principal":"*","Action":"a","Resource":"r"}"#;
/// Values of one list and of a table, so that neither 64 in a statement nor 16,384 bytes are passed.
const VALUES_IN_LIST: usize = 62;
const VALUES_IN_TABLE: usize = 124;
const VALUE_BYTES: usize = 128;
const ESCAPED: &str = r"\u0061";

/// What grows, and the text of about so many bytes; none where a text that is so long is past a limit.
pub struct Kind {
    pub name: &'static str,
    pub text: fn(usize) -> Option<Vec<u8>>,
}

pub const ALL: [Kind; 6] = [
    Kind { name: "blanks", text: blanks },
    Kind { name: "a Sid", text: |size| Some(with_sid(&["s"], size)) },
    Kind {
        name: "a Sid in escapes and characters",
        text: |size| Some(with_sid(&[r"\u0041", "\u{E9}", "\u{20AC}", "\u{1F570}", r"\/"], size)),
    },
    Kind { name: "values in escapes", text: values },
    Kind { name: "values, 6 at the 65th", text: |size| Some(many_values(size)) },
    Kind { name: "statements, 21 at the last member", text: |size| Some(many_statements(size)) },
];

fn policy(statement: &str) -> String {
    format!("{HEAD}{statement}}}")
}

/// A policy of one statement with a line behind each of its commas, indented far.
fn blanks(size: usize) -> Option<Vec<u8>> {
    let small = policy(STATEMENT);
    let commas = small.matches(',').count();
    let line = format!(",\n{}", " ".repeat(size.saturating_sub(small.len()) / commas));
    Some(small.replace(',', &line).into())
}

/// A Sid of some pieces over and over.
fn with_sid(pieces: &[&str], size: usize) -> Vec<u8> {
    let round = pieces.concat();
    let sid = round.repeat(size.saturating_sub(policy(STATEMENT).len()) / round.len());
    policy(&STATEMENT.replacen('{', &format!(r#"{{"Sid":"{sid}","#), 1)).into()
}

fn with_actions(values: &[String]) -> String {
    STATEMENT.replace(r#""a""#, &format!("[{}]", values.join(",")))
}

/// Values of 128 bytes, each byte an escape, as many as a table holds.
fn values(size: usize) -> Option<Vec<u8>> {
    let value = format!(r#""{}""#, ESCAPED.repeat(VALUE_BYTES));
    let number = size / (value.len() + 1);
    // What is asked for may be a little above what a table holds.
    if number > VALUES_IN_TABLE + VALUES_IN_TABLE / 8 {
        return None;
    }
    let all = vec![value; number.min(VALUES_IN_TABLE)];
    let statements: Vec<String> = all.chunks(VALUES_IN_LIST).map(with_actions).collect();
    Some(policy(&format!("[{}]", statements.join(","))).into())
}

fn many_values(size: usize) -> Vec<u8> {
    let value = r#""s3:GetObject""#.to_string();
    let number = size / (value.len() + 1);
    policy(&with_actions(&vec![value; number])).into()
}

/// Far more statements than are taken, which is asked only after all members.
fn many_statements(size: usize) -> Vec<u8> {
    let number = (size / (STATEMENT.len() + 1)).max(1);
    let mut statements = vec![STATEMENT.to_string(); number];
    statements[number - 1] = STATEMENT.replace('}', r#","Last":0}"#);
    policy(&format!("[{}]", statements.join(","))).into()
}

#[cfg(test)]
mod tests {
    use super::*;
    use oracle::Refusal;

    const SIZES: [usize; 3] = [10_000, 100_000, 1_000_000];

    #[test]
    fn about_as_long_as_asked_for() {
        for kind in ALL {
            for size in SIZES {
                let Some(text) = (kind.text)(size) else { continue };
                assert!(
                    text.len() * 10 > size * 9 && text.len() * 10 < size * 11,
                    "{} {}",
                    kind.name,
                    text.len()
                );
            }
        }
    }

    #[test]
    fn read_as_their_names_say() {
        for kind in ALL {
            for text in SIZES.into_iter().filter_map(kind.text) {
                let answer = oracle::read_json(&text, &mut [0; 16_384]);
                let number = answer.err().map(|Refusal { number, .. }| number);
                let expected =
                    [(6, "6 at"), (21, "21 at")].into_iter().find(|(_, word)| kind.name.contains(word));
                assert_eq!(number, expected.map(|(number, _)| number), "{}", kind.name);
            }
        }
        assert!(values(100_000).is_some() && values(1_000_000).is_none());
    }

    #[test]
    fn the_last_member_is_at_the_end() {
        let text = many_statements(10_000);
        let Err(Refusal { number: 21, place }) = oracle::read_json(&text, &mut []) else { panic!("no 21") };
        assert_eq!(&text[place..], br#""Last":0}]}"#);
    }
}
