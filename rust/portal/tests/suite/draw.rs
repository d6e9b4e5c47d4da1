//! Tables and requests drawn at random, small alphabets so that values and strings meet often.

use portal::Request;
use support::build::*;
use support::random::Random;

/// Bounds within which a table is drawn.
pub struct Shape {
    pub statements: usize,
    pub conditions: usize,
    /// Values of one list.
    pub listed: usize,
    /// Bytes of one value.
    pub length: usize,
    pub bytes: &'static [u8],
}

pub const TINY: Shape = Shape { statements: 2, conditions: 1, listed: 2, length: 2, bytes: b"ab*?" };
pub const SMALL: Shape = Shape { statements: 3, conditions: 2, listed: 2, length: 3, bytes: b"aAb*?" };
pub const MEDIUM: Shape =
    Shape { statements: 8, conditions: 4, listed: 5, length: 6, bytes: b"abAB@[`{*?**" };
pub const LARGE: Shape = Shape {
    statements: 32,
    conditions: 4,
    listed: 9,
    length: 24,
    bytes: b"!\"#%&'()*+,-./0129:;<=>?@ABYZ[\\]^_`abyz{|}~*?*?",
};

/// Networks that share borders, among them both ends of all addresses.
const NETWORKS: [(u32, u8); 14] = [
    (0, 0),
    (0, 1),
    (0x8000_0000, 1),
    (0, 30),
    (2, 31),
    (4, 32),
    (0xFFFF_FFFE, 31),
    (0xFFFF_FFFF, 32),
    (0x0B16_0000, 16),
    (0x0B16_2100, 24),
    (0x0B16_2180, 25),
    (0x0B16_21FF, 32),
    (0x7FFF_0000, 16),
    (0xC000_0000, 2),
];

pub fn statements(random: &mut Random, shape: &Shape) -> Vec<Statement> {
    let number = random.below(shape.statements + 1);
    (0..number).map(|_| statement(random, shape)).collect()
}

pub fn table(random: &mut Random, shape: &Shape) -> Vec<u8> {
    support::build::table(&statements(random, shape))
}

fn statement(random: &mut Random, shape: &Shape) -> Statement {
    let effect = if random.once_in(3) { DENY } else { ALLOW };
    let mut lists = Vec::new();
    for column in 0..3 {
        let code = if random.once_in(5) { column + 0x10 } else { column };
        lists.push(List { head: vec![0x03, code], listed: listed_values(random, shape, column == 0) });
    }
    for _ in 0..random.below(shape.conditions + 1) {
        lists.push(condition(random, shape));
    }
    Statement { effect, lists }
}

fn condition(random: &mut Random, shape: &Shape) -> List {
    let form = if random.once_in(2) { IF_EXISTS } else { 0 };
    if random.once_in(4) {
        let operator = form + IP_ADDRESS + random.below(2) as u8;
        let number = random.up_to(shape.listed);
        let listed = (0..number).map(|_| drawn_network(random)).collect();
        return List { head: vec![0x04, operator, ADDRESS_KEY], listed };
    }
    let operator = form + STRING_EQUALS + random.below(4) as u8;
    let key = random.below(4) as u8;
    List { head: vec![0x04, operator, key], listed: listed_values(random, shape, false) }
}

pub fn drawn_network(random: &mut Random) -> Vec<u8> {
    if !random.once_in(4) {
        let (address, length) = random.pick(&NETWORKS);
        return network(address, length);
    }
    let length = random.below(33) as u8;
    let host_bits = (1u64 << (32 - length)) - 1;
    network(random.word() as u32 & !(host_bits as u32), length)
}

fn listed_values(random: &mut Random, shape: &Shape, principals: bool) -> Vec<Vec<u8>> {
    let number = random.up_to(shape.listed);
    (0..number).map(|_| value(&drawn_value(random, shape, principals))).collect()
}

/// A value; a principal is `*` alone or has no wildcard.
pub fn drawn_value(random: &mut Random, shape: &Shape, principal: bool) -> Vec<u8> {
    if random.once_in(if principal { 3 } else { 12 }) {
        return b"*".to_vec();
    }
    let mut drawn: Vec<u8> = (0..random.up_to(shape.length)).map(|_| random.pick(shape.bytes)).collect();
    if principal {
        for byte in drawn.iter_mut().filter(|byte| b"*?".contains(byte)) {
            *byte = b'a';
        }
    }
    drawn
}

/// A request that owns its strings.
#[derive(Clone, Debug, Default, PartialEq, Eq)]
pub struct Drawn {
    pub strings: [Option<Vec<u8>>; 7],
    pub address: Option<u32>,
}

impl Drawn {
    pub fn request(&self) -> Request<'_> {
        let string = |column: usize| self.strings[column].as_deref();
        let element = |column: usize| string(column).unwrap_or_default();
        Request {
            principal: element(0),
            action: element(1),
            resource: element(2),
            keys: [string(3), string(4), string(5), string(6)],
            address: self.address,
        }
    }
}

/// A request made for a table: often of strings that its values match, or nearly.
pub fn request(random: &mut Random, statements: &[Statement], shape: &Shape) -> Drawn {
    let mut drawn = Drawn::default();
    for column in 0..7 {
        if column >= 3 && random.once_in(3) {
            continue;
        }
        drawn.strings[column] = Some(string(random, statements, shape, column));
    }
    if !random.once_in(3) {
        drawn.address = Some(address(random, statements));
    }
    drawn
}

fn listed_in<'a>(random: &mut Random, statements: &'a [Statement], column: usize) -> Option<&'a [u8]> {
    let lists = statements.iter().flat_map(|statement| &statement.lists);
    let listed: Vec<&Vec<u8>> =
        lists.filter(|list| list.column() == column).flat_map(|list| &list.listed).collect();
    if listed.is_empty() {
        return None;
    }
    Some(&listed[random.below(listed.len())][1..])
}

fn string(random: &mut Random, statements: &[Statement], shape: &Shape, column: usize) -> Vec<u8> {
    let mut string = Vec::new();
    match listed_in(random, statements, column) {
        Some(value) if !random.once_in(3) => {
            for &byte in value {
                push_instance(random, shape, byte, &mut string);
            }
        }
        _ => {
            let length = random.below(shape.length + 2);
            string.extend((0..length).map(|_| request_byte(random, shape)));
        }
    }
    if column < 3 && string.is_empty() {
        string.push(request_byte(random, shape));
    }
    string
}

/// What a byte of a value may stand for; now and then something else, a letter in its other case among it.
fn push_instance(random: &mut Random, shape: &Shape, byte: u8, string: &mut Vec<u8>) {
    match byte {
        b'*' => {
            let run = random.below(4);
            string.extend((0..run).map(|_| request_byte(random, shape)));
        }
        b'?' => string.push(request_byte(random, shape)),
        _ if random.once_in(12) => string.push(byte ^ 0x20),
        _ => string.push(byte),
    }
    if let Some(last) = string.last_mut() {
        *last = (*last).clamp(0x21, 0x7E);
    }
}

fn request_byte(random: &mut Random, shape: &Shape) -> u8 {
    if random.once_in(6) {
        return 0x21 + random.below(94) as u8;
    }
    random.pick(shape.bytes)
}

fn address(random: &mut Random, statements: &[Statement]) -> u32 {
    let Some(body) = listed_in(random, statements, 7) else {
        return random.word() as u32;
    };
    let low = u32::from_be_bytes([body[0], body[1], body[2], body[3]]);
    let size = 1u64 << (32 - body[4]);
    let high = low.wrapping_add((size - 1) as u32);
    let near = low | random.word() as u32;
    random.pick(&[low, high, low.wrapping_sub(1), high.wrapping_add(1), near])
}

/// The same statements with one small change.
pub fn statements_like(random: &mut Random, statements: &[Statement], shape: &Shape) -> Vec<Statement> {
    let mut changed = statements.to_vec();
    if changed.is_empty() || random.once_in(8) {
        changed.push(statement(random, shape));
        return changed;
    }
    let at = random.below(changed.len());
    match random.below(6) {
        0 => drop(changed.remove(at)),
        1 => changed[at].effect ^= 1,
        2 => {
            let other = random.below(changed.len());
            changed.swap(at, other);
        }
        3 => {
            let list = random.below(changed[at].lists.len());
            // Bit 10 hex of the code turns a column into its Not-form and an operator into its IfExists form.
            changed[at].lists[list].head[1] ^= 0x10;
        }
        _ => change_listed(random, &mut changed[at], shape),
    }
    changed
}

/// Another value or network in place of one, or beside it.
fn change_listed(random: &mut Random, statement: &mut Statement, shape: &Shape) {
    let at = random.below(statement.lists.len());
    let list = &mut statement.lists[at];
    let column = list.column();
    let drawn =
        if column == 7 { drawn_network(random) } else { value(&drawn_value(random, shape, column == 0)) };
    if random.once_in(2) {
        list.listed.push(drawn);
    } else {
        let listed = random.below(list.listed.len());
        list.listed[listed] = drawn;
    }
}
