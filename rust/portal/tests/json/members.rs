//! Each member of a policy missing, twice, unknown and of every type; the members in every order.

use crate::agree::{agreed, Seen};
use support::policies::{self, plainly, print, Style, Tree};
use support::random::Random;

/// Printed plainly, and in a drawn style.
fn in_two_styles(random: &mut Random, tree: &Tree, seen: &mut Seen) {
    let _ = agreed(random, &plainly(tree), seen);
    let style = Style::draw(random);
    let text = print(random, style, tree);
    let _ = agreed(random, &text, seen);
}

#[test]
fn every_variant() {
    let mut random = Random::new(81);
    let mut seen = Seen::default();
    for tree in policies::variants(&policies::whole()) {
        in_two_styles(&mut random, &tree, &mut seen);
    }
    seen.each_at_least(5, &[0, 3, 5, 6, 8, 14, 21, 22]);
}

/// Two changes at once: the lowest place decides.
#[test]
fn every_variant_damaged_once_more() {
    let mut random = Random::new(82);
    let mut seen = Seen::default();
    for mut tree in policies::variants(&policies::whole()) {
        policies::damage(&mut random, &mut tree);
        in_two_styles(&mut random, &tree, &mut seen);
    }
    seen.each_at_least(50, &[0, 21, 22]);
}

#[test]
fn every_order() {
    let mut random = Random::new(83);
    let mut seen = Seen::default();
    for tree in policies::orders(&policies::whole()) {
        in_two_styles(&mut random, &tree, &mut seen);
    }
    seen.each_at_least(1_440, &[0]);
}

/// Damaged and in another order: the records are asked in the order of the table.
#[test]
fn every_order_damaged() {
    let mut random = Random::new(84);
    let mut seen = Seen::default();
    for mut tree in policies::orders(&policies::whole()) {
        for _ in 0..4 {
            policies::damage(&mut random, &mut tree);
        }
        in_two_styles(&mut random, &tree, &mut seen);
    }
    seen.each_at_least(50, &[21, 22]);
}
