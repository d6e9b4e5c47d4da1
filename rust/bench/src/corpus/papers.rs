//! The examples that the two papers print, each compared both ways where that says something.

use super::build::*;
use super::Pair;
use oracle::table::{Key, Statement};
use oracle::Table;

pub fn pairs() -> Vec<Pair> {
    let mut pairs = Vec::new();
    for (name, first, second) in examples() {
        pairs.push(Pair::of(&name, first.clone(), second.clone()));
        pairs.push(Pair::of(&format!("{name}, turned round"), second, first));
    }
    pairs
}

fn examples() -> Vec<(String, Table, Table)> {
    let mut examples = Vec::new();
    let mut add = |name: &str, first: Vec<Statement>, second: Vec<Statement>| {
        examples.push((name.to_string(), table(&first), table(&second)));
    };
    add("002 figure 2", students_and_assistants(), everybody_but_students());
    add("002 figure 9 over figure 2", everybody_but_students(), only_from_our_network());
    add("002 figure 9 over figure 4", vec![two_conditions()], only_from_our_network());
    add("002 figure 6", vec![uploads(STRING_EQUALS)], vec![uploads(STRING_LIKE)]);
    add("002 equation 7", vec![from_network([11, 22, 33, 0], 24)], vec![from_network([11, 22, 0, 0], 16)]);
    add("002 equation 8", vec![from_vpc(STRING_EQUALS)], vec![from_vpc(STRING_EQUALS + IF_EXISTS)]);
    for [narrow, wide] in PATTERNS {
        add(&format!("{narrow} against {wide}"), vec![on(narrow)], vec![on(wide)]);
    }
    add("001 listing 1", example_policy(), vec![doing(&["action*"])]);
    add("001 listing 2, first two", vec![doing(&["s3:GetObject"])], vec![doing(&["s3:*", "log:*"])]);
    add("001 listing 2, third", vec![doing(&["s3:GetObject"])], vec![not_doing(GET_AND_PUT)]);
    add("001 listing 3, second", implicit_and_explicit(), vec![doing_on("action1", "resource1")]);
    add("001 listing 3, third", implicit_and_explicit(), vec![doing_on("action2", "resource2")]);
    add("001 listing 3, fourth", implicit_and_explicit(), vec![doing_on("action3", "resource3")]);
    add("001 listing 4, first two", vec![not_doing(EVERYTHING)], vec![doing(EVERYTHING)]);
    add("001 listing 4, third", vec![doing(EVERYTHING)], vec![doing_on("action1", "resource1")]);
    add("001 listing 5", vec![doing(GET_AND_PUT)], vec![doing(&["s3:Get*"])]);
    examples
}

const GET_AND_PUT: &[&str] = &["s3:GetObject", "s3:PutObject"];

/// Resource patterns of 002, section III and IV, and of 001, section 2.3.
const PATTERNS: [[&str; 2]; 7] = [
    ["cs240/Exam*", "cs2*/Exam*"],
    ["cs2*/Exam", "cs2*/*Exam"],
    ["*240*/Exam", "*/Exam"],
    ["abc", "ab*bc"],
    ["cs???/Exam*", "cs*/Exam*"],
    ["cs2*/Exam*/Results*", "cs2*/Exam*"],
    ["ab*b*b*b", "a*b*b*b"],
];

fn students_and_assistants() -> Vec<Statement> {
    vec![
        allow(&["students"], &["getObject"], &["cs240/Exam.pdf"]),
        allow(&["tas"], &["getObject"], &["cs240/Exam.pdf", "cs240/Answer.pdf"]),
    ]
}

fn everybody_but_students() -> Vec<Statement> {
    vec![
        allow(EVERYTHING, &["getObject"], &["cs240/*"]),
        deny(&["students"], &["getObject"], &["cs240/Answer.pdf"]),
    ]
}

fn only_from_our_network() -> Vec<Statement> {
    let vpc = strings(STRING_EQUALS, Key::SourceVpc, &["vpc-111bbb222"]);
    vec![
        when(allow(EVERYTHING, &["getObject"], EVERYTHING), vpc),
        allow(EVERYTHING, &["putObject", "listBucket"], EVERYTHING),
    ]
}

fn two_conditions() -> Statement {
    let vpc = strings(STRING_EQUALS, Key::SourceVpc, &["vpc-111bbb222"]);
    let prefix = strings(STRING_LIKE, Key::Prefix, &["cs240/Exam*"]);
    when(when(allow(EVERYTHING, &["getObject"], &["cs240"]), vpc), prefix)
}

fn uploads(operator: u8) -> Statement {
    when(allow(EVERYTHING, &["listBucket"], EVERYTHING), strings(operator, Key::Prefix, &["Uploads"]))
}

fn from_network(address: [u8; 4], length: u8) -> Statement {
    when(allow(EVERYTHING, EVERYTHING, EVERYTHING), networks(IP_ADDRESS, &[(address, length)]))
}

fn from_vpc(operator: u8) -> Statement {
    let vpc = strings(operator, Key::SourceVpc, &["vpc-111bbb222"]);
    when(allow(EVERYTHING, EVERYTHING, EVERYTHING), vpc)
}

fn on(resource: &str) -> Statement {
    allow(EVERYTHING, EVERYTHING, &[resource])
}

fn doing(actions: &[&str]) -> Statement {
    allow(EVERYTHING, actions, EVERYTHING)
}

fn not_doing(actions: &[&str]) -> Statement {
    deny(EVERYTHING, actions, EVERYTHING)
}

fn doing_on(action: &str, resource: &str) -> Statement {
    allow(EVERYTHING, &[action], &[resource])
}

fn example_policy() -> Vec<Statement> {
    vec![
        allow(&["principal1", "principal2"], &["action*"], &["resource*"]),
        deny(EVERYTHING, &["action2"], &["resource2"]),
    ]
}

fn implicit_and_explicit() -> Vec<Statement> {
    vec![
        doing_on("action1", "resource1"),
        deny(EVERYTHING, &["action1"], &["resource1"]),
        doing_on("action2", "resource2"),
    ]
}
