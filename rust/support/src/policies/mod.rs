//! Policies in the public JSON form, drawn at random: right ones with the table that each makes, and damaged ones, among
//! their members and values or among their bytes.

mod damage;
mod draw;
mod limits;
mod print;
mod spoil;
mod tree;
mod variants;

pub use damage::damage;
pub use draw::{policy, Policy};
pub use limits::{at_the_limits, near_16384};
pub use print::{plainly, print, Style};
pub use spoil::{garbage, snippets, spoil};
pub use tree::Tree;
pub use variants::{orders, variants, whole};

use crate::random::Random;

/// A right policy, printed in some style, and its table.
pub fn right(random: &mut Random) -> (Vec<u8>, Vec<u8>) {
    let Policy { tree, table } = policy(random);
    let style = Style::draw(random);
    (print(random, style, &tree), table)
}

/// A policy with one to three faults among its members and values.
pub fn damaged(random: &mut Random) -> Vec<u8> {
    let mut tree = policy(random).tree;
    for _ in 0..random.up_to(3) {
        damage(random, &mut tree);
    }
    let style = Style::draw(random);
    print(random, style, &tree)
}

/// The text of a policy, perhaps of a damaged one, with one or two faults among its bytes.
pub fn spoilt(random: &mut Random) -> Vec<u8> {
    let mut text = if random.once_in(3) { damaged(random) } else { right(random).0 };
    for _ in 0..random.up_to(2) {
        spoil(random, &mut text);
    }
    text
}
