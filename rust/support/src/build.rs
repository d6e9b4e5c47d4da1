//! Tables written out from the record table of RULES 2.1.

pub const ALLOW: u8 = 1;
pub const DENY: u8 = 0;
/// `01 00 05` is a table that allows nothing.
pub const NOTHING: [u8; 3] = [0x01, 0x00, 0x05];

/// The codes of operators that tests name.
pub const STRING_EQUALS: u8 = 1;
pub const STRING_LIKE: u8 = 3;
pub const IP_ADDRESS: u8 = 5;
pub const IF_EXISTS: u8 = 0x10;
pub const ADDRESS_KEY: u8 = 4;

/// A list: the record 03 or 04 that opens it, and the records of its values or networks.
#[derive(Clone, Debug, PartialEq, Eq)]
pub struct List {
    pub head: Vec<u8>,
    pub listed: Vec<Vec<u8>>,
}

/// A statement: three elements and then its conditions.
#[derive(Clone, Debug, PartialEq, Eq)]
pub struct Statement {
    pub effect: u8,
    pub lists: Vec<List>,
}

pub fn value(bytes: &[u8]) -> Vec<u8> {
    [&[0x3F + bytes.len() as u8], bytes].concat()
}

pub fn network(address: u32, length: u8) -> Vec<u8> {
    [&[0x06], &address.to_be_bytes()[..], &[length]].concat()
}

pub fn values(listed: &[&str]) -> Vec<Vec<u8>> {
    listed.iter().map(|bytes| value(bytes.as_bytes())).collect()
}

pub fn element(code: u8, listed: &[&str]) -> List {
    List { head: vec![0x03, code], listed: values(listed) }
}

pub fn strings(operator: u8, key: u8, listed: &[&str]) -> List {
    List { head: vec![0x04, operator, key], listed: values(listed) }
}

pub fn networks(operator: u8, listed: &[([u8; 4], u8)]) -> List {
    let record = |&(address, length): &([u8; 4], u8)| network(u32::from_be_bytes(address), length);
    List { head: vec![0x04, operator, ADDRESS_KEY], listed: listed.iter().map(record).collect() }
}

pub fn statement(effect: u8, principals: &[&str], actions: &[&str], resources: &[&str]) -> Statement {
    Statement { effect, lists: vec![element(0, principals), element(1, actions), element(2, resources)] }
}

/// A statement with one value in each element.
pub fn simple(effect: u8, principal: &str, action: &str, resource: &str) -> Statement {
    statement(effect, &[principal], &[action], &[resource])
}

/// An allow statement for everything under some conditions.
pub fn allow_when(conditions: &[List]) -> Statement {
    simple(ALLOW, "*", "*", "*").when(conditions)
}

/// An allow statement that restricts one of columns 0 to 6 alone; keys by StringLike.
pub fn allow_in_column(column: usize, listed: &[&str]) -> Statement {
    let mut statement = allow_when(&[]);
    match column {
        0..=2 => statement.lists[column] = element(column as u8, listed),
        _ => statement.lists.push(strings(STRING_LIKE, column as u8 - 3, listed)),
    }
    statement
}

/// The records of a table in order.
pub fn records(statements: &[Statement]) -> Vec<Vec<u8>> {
    let mut records = vec![vec![0x01, statements.len() as u8]];
    for statement in statements {
        records.push(vec![0x02, statement.effect]);
        for list in &statement.lists {
            records.push(list.head.clone());
            records.extend_from_slice(&list.listed);
        }
    }
    records.push(vec![0x05]);
    records
}

pub fn table(statements: &[Statement]) -> Vec<u8> {
    records(statements).concat()
}

/// A table of one allow statement that restricts the resource alone.
pub fn resources(listed: &[&str]) -> Vec<u8> {
    table(&[allow_in_column(2, listed)])
}

impl Statement {
    /// The statement with some conditions more.
    pub fn when(mut self, conditions: &[List]) -> Statement {
        self.lists.extend_from_slice(conditions);
        self
    }
}

impl List {
    /// The column of a request that the list restricts.
    pub fn column(&self) -> usize {
        match self.head[0] {
            0x03 => (self.head[1] & 0x0F) as usize,
            _ => 3 + self.head[2] as usize,
        }
    }
}
