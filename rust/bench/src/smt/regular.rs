//! Source 001, section 2.3: a value with wildcards is the concatenation of its literal parts and of "every string".

use super::formula::literal;

pub fn matches(variable: &str, value: &[u8]) -> String {
    let parts = parts(value);
    let expression = if parts.len() == 1 { parts[0].clone() } else { format!("(re.++ {})", parts.join(" ")) };
    format!("(str.in_re {variable} {expression})")
}

fn parts(value: &[u8]) -> Vec<String> {
    let mut parts = Vec::new();
    let mut plain = Vec::new();
    for &byte in value {
        let wild = match byte {
            b'*' => "re.all",
            b'?' => "re.allchar",
            _ => {
                plain.push(byte);
                continue;
            }
        };
        close(&mut plain, &mut parts);
        // Two stars in a row are one.
        if wild != "re.all" || parts.last().map(String::as_str) != Some(wild) {
            parts.push(wild.to_string());
        }
    }
    close(&mut plain, &mut parts);
    parts
}

fn close(plain: &mut Vec<u8>, parts: &mut Vec<String>) {
    if !plain.is_empty() {
        parts.push(format!("(str.to_re {})", literal(plain)));
        plain.clear();
    }
}

#[cfg(test)]
mod tests {
    use super::*;

    #[test]
    fn values() {
        assert_eq!(matches("r", b"s3:*"), r#"(str.in_re r (re.++ (str.to_re "s3:") re.all))"#);
        assert_eq!(matches("r", b"?"), "(str.in_re r re.allchar)");
        assert_eq!(
            matches("r", b"**a?b"),
            concat!(r#"(str.in_re r (re.++ re.all (str.to_re "a") "#, r#"re.allchar (str.to_re "b")))"#)
        );
    }
}
