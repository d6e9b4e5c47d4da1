//! The machine that a run was made on, in words.

use std::fs;

pub fn text() -> String {
    let processors = fs::read_to_string("/proc/cpuinfo").unwrap_or_default();
    let model = field(&processors, "model name").unwrap_or_else(|| "unknown processor".to_string());
    let number = processors.lines().filter(|line| line.starts_with("processor")).count();
    let memory = field(&fs::read_to_string("/proc/meminfo").unwrap_or_default(), "MemTotal");
    let gibibytes = memory.and_then(|words| Some(words.split(' ').next()?.parse::<u64>().ok()? >> 20));
    let system = field_by(&fs::read_to_string("/etc/os-release").unwrap_or_default(), "PRETTY_NAME", '=');
    format!(
        "{model}, {number} processors, {} GiB of memory, {}",
        gibibytes.map_or("unknown".to_string(), |number| number.to_string()),
        system.unwrap_or_else(|| "unknown system".to_string()).trim_matches('"')
    )
}

fn field(text: &str, name: &str) -> Option<String> {
    field_by(text, name, ':')
}

/// What stands behind a name and a sign on the first line that has both.
fn field_by(text: &str, name: &str, sign: char) -> Option<String> {
    let line = text.lines().find(|line| line.starts_with(name))?;
    Some(line.split_once(sign)?.1.trim().to_string())
}
