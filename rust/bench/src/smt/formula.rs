//! Formulas as text, with what decides them taken out where it is plain.

/// A string literal: only `"` and the escape's own `\` are written otherwise than they are.
pub fn literal(bytes: &[u8]) -> String {
    let mut text = String::from("\"");
    for &byte in bytes {
        match byte {
            b'"' => text.push_str("\"\""),
            b'\\' => text.push_str("\\u{5c}"),
            _ => text.push(byte as char),
        }
    }
    text.push('"');
    text
}

pub fn not(formula: String) -> String {
    match formula.as_str() {
        "true" => "false".to_string(),
        "false" => "true".to_string(),
        _ => format!("(not {formula})"),
    }
}

pub fn any(parts: Vec<String>) -> String {
    joined("or", "false", "true", parts)
}

pub fn all(parts: Vec<String>) -> String {
    joined("and", "true", "false", parts)
}

/// `nothing` adds nothing to the others, `decides` makes them idle.
fn joined(operator: &str, nothing: &str, decides: &str, mut parts: Vec<String>) -> String {
    if parts.iter().any(|part| part == decides) {
        return decides.to_string();
    }
    parts.retain(|part| part != nothing);
    match parts.len() {
        0 => nothing.to_string(),
        1 => parts.remove(0),
        _ => format!("({operator} {})", parts.join(" ")),
    }
}
