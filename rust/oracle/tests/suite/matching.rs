//! Matching against the rule read literally, and states against matching.

use oracle::compare::states::{explore, state_of_empty, step};
use oracle::matching::{matches, network_holds, symbols, symbols_match, Reading, Symbol};
use oracle::table::Network;
use support::random::Random;
use support::strings::all_strings;

const READINGS: [Reading; 4] = [Reading::Fold, Reading::Plain, Reading::Literal, Reading::Principal];

/// The rule as it stands: a run is tried with every length.
fn literally(value: &[Symbol], string: &[u8]) -> bool {
    match (value.first(), string.first()) {
        (None, _) => string.is_empty(),
        (Some(Symbol::Run), _) => (0..=string.len()).any(|run| literally(&value[1..], &string[run..])),
        (Some(symbol), Some(&byte)) => symbol.takes(byte) && literally(&value[1..], &string[1..]),
        (Some(_), None) => false,
    }
}

#[test]
fn every_short_value_against_every_short_string() {
    for value in all_strings(b"aB*?", 4).iter().skip(1) {
        for string in all_strings(b"abB*", 4) {
            for reading in READINGS {
                let read = symbols(value, reading);
                assert_eq!(matches(value, reading, &string), literally(&read, &string));
            }
        }
    }
}

#[test]
fn readings() {
    assert!(matches(b"*", Reading::Principal, b"anyone"));
    assert!(!matches(b"**", Reading::Principal, b"anyone"));
    assert!(matches(b"*", Reading::Literal, b"*"));
    assert!(!matches(b"*", Reading::Literal, b"a"));
    assert!(matches(b"S3:get?", Reading::Fold, b"s3:GETx"));
    assert!(!matches(b"S3:get?", Reading::Plain, b"s3:GETx"));
    assert!(matches(b"a", Reading::Plain, b"a") && !matches(b"a", Reading::Plain, b""));
}

#[test]
fn a_state_is_the_set_of_matching_beginnings() {
    let mut random = Random::new(1);
    for _ in 0..300 {
        let values: Vec<Vec<Symbol>> = (0..1 + random.below(3)).map(|_| random_value(&mut random)).collect();
        let string: Vec<u8> = (0..random.below(7)).map(|_| random.pick(b"abAB!")).collect();
        let state = string.iter().fold(state_of_empty(&values), |state, &byte| step(&values, &state, byte));
        let beginnings = values.iter().flat_map(|value| (0..=value.len()).map(|j| &value[..j]));
        let expected: Vec<bool> = beginnings.map(|beginning| symbols_match(beginning, &string)).collect();
        assert_eq!(state, expected);
    }
}

fn random_value(random: &mut Random) -> Vec<Symbol> {
    let value: Vec<u8> = (0..1 + random.below(5)).map(|_| random.pick(b"aabB**?")).collect();
    symbols(&value, random.pick(&READINGS))
}

#[test]
fn exploring_finds_the_first_string_of_each_state() {
    let mut random = Random::new(2);
    for _ in 0..60 {
        let values: Vec<Vec<Symbol>> = (0..1 + random.below(2)).map(|_| random_value(&mut random)).collect();
        let reached = explore(&values, 512).unwrap();
        let mut plain = Vec::new();
        // Every byte but these behaves as `!`, which is the smallest.
        for string in all_strings(b"!*?ABab", 4) {
            let state =
                string.iter().fold(state_of_empty(&values), |state, &byte| step(&values, &state, byte));
            if plain.iter().all(|(known, _)| *known != state) {
                plain.push((state, string));
            }
        }
        let short = reached.into_iter().filter(|reached| reached.first.len() <= 4);
        assert_eq!(short.map(|reached| (reached.state, reached.first)).collect::<Vec<_>>(), plain);
    }
}

#[test]
fn explored_states_stop_at_the_bound() {
    let values = [symbols(b"*a", Reading::Plain)];
    assert_eq!(explore(&values, 3).map(|states| states.len()), Some(3));
    assert_eq!(explore(&values, 2), None);
    assert_eq!(explore(&[], 1).map(|states| states.len()), Some(1));
}

#[test]
fn network_lengths() {
    for length in 0..=32u8 {
        let size = 1u64 << (32 - length);
        let address = (0xC0A8_0000u64 / size * size) as u32;
        let network = Network { address, length };
        let last = (u64::from(address) + size - 1) as u32;
        assert!(network_holds(&network, address) && network_holds(&network, last));
        assert_eq!(length == 0, network_holds(&network, last.wrapping_add(1)));
        assert_eq!(length == 0, network_holds(&network, address.wrapping_sub(1)));
    }
}
