//! One policy with every member, and all of its variants: each member missing, twice, unknown and of every type, and the
//! members in every order.

use std::slice::from_ref;

use super::draw::MEMBERS;
use super::tree::{member, text, Member, Tree};

fn texts(listed: &[&str]) -> Tree {
    Tree::List(listed.iter().map(|listed| text(listed)).collect())
}

/// A policy with every member, both ways to list, and conditions of both sorts.
pub fn whole() -> Tree {
    let conditions = vec![
        member(
            "StringLike",
            Tree::Object(vec![member("s3:prefix", texts(&["a*", "b"])), member("aws:Referer", text("c"))]),
        ),
        member(
            "NotIpAddressIfExists",
            Tree::Object(vec![member("aws:SourceIp", texts(&["10.0.0.0/8", "1.2.3.4"]))]),
        ),
    ];
    let first = vec![
        member("Sid", text("One")),
        member("Effect", text("Allow")),
        member("Principal", Tree::Object(vec![member("AWS", texts(&["p", "q"]))])),
        member("Action", text("s3:Get*")),
        member("NotResource", texts(&["r", "t/*"])),
        member("Condition", Tree::Object(conditions)),
    ];
    let second = vec![
        member("NotPrincipal", text("*")),
        member("NotAction", texts(&["a"])),
        member("Resource", text("*")),
        member("Effect", text("Deny")),
    ];
    let statements = Tree::List(vec![Tree::Object(first), Tree::Object(second)]);
    Tree::Object(vec![member("Version", text("2012-10-17")), member("Statement", statements)])
}

/// Values of every type, and of every type inside of lists and objects.
fn types() -> Vec<Tree> {
    let words = ["0", "-1.5e+3", "true", "false", "null"].map(Tree::Word);
    let mut types = vec![Tree::Object(vec![]), Tree::List(vec![]), text(""), text("*"), texts(&["*"])];
    types.push(texts(&["*", "*"]));
    types.push(Tree::List(vec![Tree::List(vec![])]));
    types.push(Tree::List(vec![Tree::Object(vec![])]));
    types.push(Tree::List(vec![text("x"), Tree::Word("1")]));
    types.push(Tree::Object(vec![member("AWS", text("*"))]));
    types.push(Tree::Object(vec![member("StringLike", Tree::Object(vec![]))]));
    types.push(Tree::Object(vec![member("s3:prefix", text("x"))]));
    types.extend(words);
    types
}

/// Names that stand elsewhere, or nowhere.
const OTHERS: [&str; 12] = [
    "Id",
    "aws",
    "effect",
    "StringLike",
    "StringEquals",
    "IpAddress",
    "Bool",
    "s3:prefix",
    "S3:Prefix",
    "aws:SourceIp",
    "aws:SourceVpc",
    "",
];

/// The policy itself, and it with one change at one value, or at one member of one object.
pub fn variants(policy: &Tree) -> Vec<Tree> {
    let mut variants = vec![policy.clone()];
    for path in policy.paths() {
        let mut with = |node: Tree| {
            let mut changed = policy.clone();
            *changed.at(&path) = node;
            variants.push(changed);
        };
        types().into_iter().for_each(&mut with);
        match policy.clone().at(&path) {
            Tree::Object(members) => object_variants(members).into_iter().for_each(&mut with),
            Tree::List(elements) => list_variants(elements).into_iter().for_each(&mut with),
            _ => {}
        }
    }
    variants
}

/// Each member missing, twice at every place, renamed, and others put in at every place.
fn object_variants(members: &[Member]) -> Vec<Tree> {
    let mut variants = Vec::new();
    let mut with = |change: &dyn Fn(&mut Vec<Member>)| {
        let mut changed = members.to_vec();
        change(&mut changed);
        variants.push(Tree::Object(changed));
    };
    for at in 0..members.len() {
        with(&|changed| drop(changed.remove(at)));
        for name in MEMBERS.into_iter().chain(OTHERS) {
            with(&|changed| changed[at].0 = name.into());
        }
        for to in 0..=members.len() {
            with(&|changed| changed.insert(to, members[at].clone()));
            with(&|changed| changed.insert(to, (members[at].0.clone(), Tree::Word("null"))));
        }
    }
    for to in 0..=members.len() {
        for name in MEMBERS.into_iter().chain(OTHERS) {
            with(&|changed| changed.insert(to, member(name, text("*"))));
        }
    }
    variants
}

/// Each element missing, and values of every type put in at every place.
fn list_variants(elements: &[Tree]) -> Vec<Tree> {
    let mut variants = Vec::new();
    for at in 0..elements.len() {
        variants.push(Tree::List([&elements[..at], &elements[at + 1..]].concat()));
    }
    for to in 0..=elements.len() {
        for value in types() {
            variants.push(Tree::List([&elements[..to], &[value], &elements[to..]].concat()));
        }
    }
    variants
}

/// The policy with the members of its first statement in every order, and Statement before Version in half of them.
pub fn orders(policy: &Tree) -> Vec<Tree> {
    let Tree::Object(top) = policy else { return vec![] };
    let Some(Tree::List(statements)) = top.last().map(|(_, value)| value) else { return vec![] };
    let Some(Tree::Object(members)) = statements.first() else { return vec![] };
    let mut orders = Vec::new();
    for (number, members) in permutations(members).into_iter().enumerate() {
        let mut changed = policy.clone();
        *changed.at(&[top.len() - 1, 0]) = Tree::Object(members);
        if number % 2 == 1 {
            if let Tree::Object(top) = &mut changed {
                top.reverse();
            }
        }
        orders.push(changed);
    }
    orders
}

fn permutations<T: Clone>(parts: &[T]) -> Vec<Vec<T>> {
    let Some((first, rest)) = parts.split_first() else {
        return vec![vec![]];
    };
    let mut all = Vec::new();
    for rest in permutations(rest) {
        for at in 0..=rest.len() {
            all.push([&rest[..at], from_ref(first), &rest[at..]].concat());
        }
    }
    all
}
