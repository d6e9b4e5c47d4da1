//! Policies at each limit and past it.

use super::tree::{member, text, Member, Tree};
use crate::random::Random;

fn statement(principals: Tree, actions: Tree, resources: Tree, conditions: Vec<Member>) -> Tree {
    Tree::Object(vec![
        member("Effect", text("Allow")),
        member("Principal", Tree::Object(vec![member("AWS", principals)])),
        member("Action", actions),
        member("Resource", resources),
        member("Condition", Tree::Object(conditions)),
    ])
}

fn policy(statement: Tree) -> Tree {
    Tree::Object(vec![member("Version", text("2012-10-17")), member("Statement", statement)])
}

fn list(number: usize, element: &Tree) -> Tree {
    Tree::List(vec![element.clone(); number])
}

/// 31 to 34 statements, 63 to 66 values in each list, 3 to 6 conditions, values of 0, 1 and 126 to 130 bytes in each list.
pub fn at_the_limits() -> Vec<Tree> {
    let mut policies = Vec::new();
    let one = text("v");
    let small = statement(one.clone(), one.clone(), one.clone(), vec![]);
    policies.extend((0..=70).chain([255, 256, 257, 300]).map(|number| policy(list(number, &small))));
    for number in 58..=66 {
        policies.extend(in_each_list(&list(number, &one), &list(number, &text("1.2.3.4"))));
    }
    for number in 0..=12 {
        policies.push(policy(statement(one.clone(), one.clone(), one.clone(), conditions(number))));
    }
    for length in [0, 1, 2, 126, 127, 128, 129, 130, 255, 256, 257, 1_000] {
        for byte in ["v", " ", "*", "1", "\u{E9}"] {
            let long = text(&byte.repeat(length));
            let network = text(&format!("1.2.3.4/{}", "0".repeat(length)));
            policies.extend(in_each_list(&long, &long));
            policies.extend(in_each_list(&list(1, &long), &network));
        }
    }
    policies
}

/// Policies of one statement with these values in one list of each sort, one value in the others.
fn in_each_list(values: &Tree, networks: &Tree) -> Vec<Tree> {
    let one = text("v");
    let under = |operator: &str, key: &str, listed: &Tree| {
        vec![member(operator, Tree::Object(vec![member(key, listed.clone())]))]
    };
    let with = |principals: &Tree, actions: &Tree, resources: &Tree, conditions| {
        policy(statement(principals.clone(), actions.clone(), resources.clone(), conditions))
    };
    vec![
        with(values, &one, &one, vec![]),
        with(&one, values, &one, vec![]),
        with(&one, &one, values, vec![]),
        with(&one, &one, &one, under("StringEquals", "aws:Referer", values)),
        with(&one, &one, &one, under("IpAddress", "aws:SourceIp", networks)),
    ]
}

/// So many conditions under as few operators as may be.
fn conditions(number: usize) -> Vec<Member> {
    let keys = ["s3:prefix", "aws:Referer", "aws:SourceVpc", "aws:SourceVpce"];
    let mut operators = Vec::new();
    for (at, operator) in ["StringLike", "StringEquals", "StringNotLike"].into_iter().enumerate() {
        let here = number.saturating_sub(4 * at).min(4);
        let under = keys[..here].iter().map(|key| member(key, text("v"))).collect();
        operators.push(member(operator, Tree::Object(under)));
    }
    operators
}

/// A policy whose table has 16,380 to 16,389 bytes, and their number. Start and end have 3 of them.
pub fn near_16384(random: &mut Random) -> (Tree, usize) {
    let bytes = 16_380 + random.below(10);
    let mut left = bytes - 3;
    let mut statements = Vec::new();
    while left > 0 {
        let most = 2_000 + random.below(3_000);
        let (added, statement) = long_statement(random, if left < 6_000 { left } else { most });
        left -= added;
        statements.push(statement);
    }
    (policy(Tree::List(statements)), bytes)
}

/// A statement of just so many bytes, at least 1,000 and at most 6,000: a principal and a resource of one byte, and
/// actions of at most 128.
fn long_statement(random: &mut Random, bytes: usize) -> (usize, Tree) {
    // 02 and its effect, three times 03 and its column, and two values of one byte.
    let mut left = bytes - (2 + 3 * 2 + 2 * 2);
    let mut actions = Vec::new();
    while left > 0 {
        let most = 100 + random.below(30);
        // Two bytes at least are a value; so never leave a single one.
        let added = if left <= 129 { left } else { most.min(left - 2) };
        actions.push(text(&"a".repeat(added - 1)));
        left -= added;
    }
    (bytes, statement(text("p"), Tree::List(actions), text("r"), vec![]))
}
