//! Writing: refusals as the reader's, then 1, then 14; the round trip.

use oracle::table::{Effect, ElementColumn, Key, Network, Operator, Test};
use oracle::{read, read_items, Item, Refusal, Writer};
use support::random::Random;

fn column_item(column: ElementColumn) -> Item {
    Item::Column { column, negated: false }
}

fn value_item(bytes: &[u8]) -> Item {
    Item::Value(bytes.to_vec())
}

/// Everything up to a list of principals, still empty: 6 bytes.
fn opening() -> Vec<Item> {
    vec![Item::Start(1), Item::Statement(Effect::Allow), column_item(ElementColumn::Principal)]
}

/// Takes all of these, which must be accepted.
fn written(items: &[Item], buffer: &mut [u8]) -> Writer {
    let mut writer = Writer::new();
    for item in items {
        assert_eq!(writer.take(item, buffer), Ok(()), "{item:?}");
    }
    writer
}

/// Offers an item that must be refused, and sees that nothing changes.
fn refused(writer: &mut Writer, item: &Item, buffer: &mut [u8]) -> (u8, usize) {
    let before = (writer.clone(), buffer.to_vec());
    let Refusal { number, place } = writer.take(item, buffer).expect_err("a refusal");
    assert_eq!((writer.clone(), buffer.to_vec()), before);
    (number, place)
}

#[test]
fn refusals_as_the_reader_would() {
    let mut buffer = [0xEE; 200];
    let mut writer = Writer::new();
    assert_eq!(refused(&mut writer, &Item::End, &mut buffer), (4, 0));
    assert_eq!(refused(&mut writer, &Item::Start(33), &mut buffer), (6, 0));
    let mut writer = written(&opening(), &mut buffer);
    assert_eq!(refused(&mut writer, &Item::End, &mut buffer), (5, 6));
    assert_eq!(refused(&mut writer, &value_item(b""), &mut buffer), (6, 6));
    assert_eq!(refused(&mut writer, &value_item(&[b'p'; 129]), &mut buffer), (6, 6));
    assert_eq!(refused(&mut writer, &value_item(&[b' '; 129]), &mut buffer), (6, 6));
    assert_eq!(refused(&mut writer, &value_item(b"p p"), &mut buffer), (7, 6));
    assert_eq!(refused(&mut writer, &value_item(b"p*"), &mut buffer), (8, 6));
    let network = Item::Network(Network { address: 0, length: 0 });
    assert_eq!(refused(&mut writer, &network, &mut buffer), (8, 6));
    assert_eq!(writer.take(&value_item(&[b'p'; 128]), &mut buffer), Ok(()));
    let place = 6 + 129;
    assert_eq!(refused(&mut writer, &column_item(ElementColumn::Resource), &mut buffer), (4, place));
    assert_eq!(refused(&mut writer, &Item::End, &mut buffer), (4, place));
    assert_eq!(buffer[place..], [0xEE; 200 - 135]);
}

#[test]
fn a_value_out_of_turn_is_4_whatever_its_length() {
    let mut buffer = [0; 10];
    let mut writer = written(&[Item::Start(0)], &mut buffer);
    assert_eq!(refused(&mut writer, &value_item(b""), &mut buffer), (4, 2));
    assert_eq!(writer.take(&Item::End, &mut buffer), Ok(()));
    assert!(writer.is_complete());
    assert_eq!(refused(&mut writer, &value_item(b""), &mut buffer), (4, 3));
    assert_eq!(buffer, [1, 0, 5, 0, 0, 0, 0, 0, 0, 0]);
}

#[test]
fn number_14_last() {
    let mut short = [0; 7];
    let mut writer = written(&opening(), &mut short);
    assert_eq!(refused(&mut writer, &value_item(b"*p"), &mut short), (8, 6));
    assert_eq!(refused(&mut writer, &value_item(b"p"), &mut short), (14, 0));
    let mut enough = [1, 1, 2, 1, 3, 0, 0, 0];
    assert_eq!(writer.take(&value_item(b"p"), &mut enough), Ok(()));
    assert_eq!(writer.length(), 8);
}

/// A statement of 64 values of 128 bytes.
fn long_statement() -> Vec<Item> {
    let long = value_item(&[b'v'; 128]);
    let mut items = vec![Item::Statement(Effect::Deny)];
    for column in ElementColumn::ALL {
        items.push(column_item(column));
        items.push(long.clone());
    }
    items.extend(vec![long; 61]);
    items
}

#[test]
fn number_1_before_14() {
    let mut buffer = vec![0; 20_000];
    // 2 + 8,264 bytes, then 8 + 62 * 129 in the second statement: 16,272 in all, 112 below the limit.
    let items = [vec![Item::Start(2)], long_statement(), long_statement()[..66].to_vec()].concat();
    let mut writer = written(&items, &mut buffer);
    assert_eq!(writer.length(), 16_272);
    assert_eq!(refused(&mut writer, &value_item(&[b'v'; 112]), &mut buffer), (1, 16_384));
    assert_eq!(refused(&mut writer, &value_item(&[b'v'; 112]), &mut []), (1, 16_384));
    assert_eq!(refused(&mut writer, &value_item(&[b' '; 112]), &mut []), (7, 16_272));
    assert_eq!(writer.take(&value_item(&[b'v'; 111]), &mut buffer[..16_384]), Ok(()));
    assert_eq!(refused(&mut writer, &Item::End, &mut buffer), (1, 16_384));
}

#[test]
fn a_table_of_16384_bytes_is_written_and_read() {
    let mut buffer = vec![0; 16_384];
    let items = [vec![Item::Start(2)], long_statement(), long_statement()[..66].to_vec()].concat();
    let mut writer = written(&items, &mut buffer);
    assert_eq!(writer.take(&value_item(&[b'v'; 110]), &mut buffer), Ok(()));
    assert_eq!(writer.take(&Item::End, &mut buffer), Ok(()));
    assert!(read(&buffer).is_ok());
    assert_eq!(read(&[&buffer[..], &[0]].concat()), Err(Refusal { number: 1, place: 16_384 }));
}

fn random_item(random: &mut Random) -> Item {
    match random.below(9) {
        0 => Item::Start(random.below(35) as u8),
        1 => Item::Statement(random.pick(&[Effect::Deny, Effect::Allow])),
        2 => Item::Column { column: random.pick(&ElementColumn::ALL), negated: random.below(2) == 1 },
        3 => Item::Condition {
            operator: Operator {
                test: random.pick(&[Test::StringEquals, Test::StringLike, Test::IpAddress]),
                negated: random.below(2) == 1,
                if_exists: random.below(2) == 1,
            },
            key: random.pick(&Key::ALL),
        },
        4 => Item::End,
        5 => Item::Network(Network {
            address: (random.below(256) as u32) << 24,
            length: random.below(40) as u8,
        }),
        _ => value_item(random.pick(&["a", "*", "a*", "x${", "b b", "?", "long"]).as_bytes()),
    }
}

/// The writer's answer to each item is the reader's answer to the bytes so far with that record behind them.
#[test]
fn the_writer_agrees_with_the_reader() {
    let mut random = Random::new(11);
    let mut complete = 0;
    for _ in 0..5_000 {
        let mut buffer = [0; 4_096];
        let mut writer = Writer::new();
        let mut taken = Vec::new();
        for _ in 0..60 {
            let item = random_item(&mut random);
            let bytes = [&buffer[..writer.length()], &item.encode()].concat();
            match (writer.take(&item, &mut buffer), read_items(&bytes)) {
                (Ok(()), Ok(items)) => {
                    taken.push(item);
                    assert_eq!(items, taken);
                    complete += 1;
                }
                (Ok(()), Err(refusal)) => {
                    taken.push(item);
                    assert_eq!(refusal, Refusal { number: 2, place: bytes.len() });
                }
                (Err(writers), readers) => assert_eq!(readers, Err(writers)),
            }
        }
        assert_eq!(taken.iter().flat_map(Item::encode).collect::<Vec<u8>>(), buffer[..writer.length()]);
        assert_eq!(buffer[writer.length()..], vec![0; 4_096 - writer.length()]);
    }
    assert!(complete > 50, "{complete}");
}
