//! "The gap program", to the byte.

use crate::build::*;
use oracle::gaps_program;

fn compared(first: &[u8], second: &[u8]) -> String {
    gaps_program(&[first, second].concat())
}

#[test]
fn sample_of_document_01() {
    let first = [1, 1, 2, 1, 3, 0, 0x40, 0x2A, 3, 1, 0x41, 0x61, 0x2A, 3, 2, 0x40, 0x72, 5];
    let second = [1, 1, 2, 1, 3, 0, 0x40, 0x2A, 3, 1, 0x41, 0x61, 0x62, 3, 2, 0x40, 0x72, 5];
    assert_eq!(compared(&first, &second), "gaps 1\n0 p=! a=A r=r\n");
}

#[test]
fn the_first_table_ends_with_the_first_05_of_the_walk() {
    // A 05 inside a value or a network is no record.
    let inside = table(&[allow_when(&[networks(5, &[([5, 5, 5, 5], 32)])])]);
    assert_eq!(compared(&inside, &NOTHING), "gaps 1\n0 p=! a=! r=! ip=5.5.5.5\n");
    assert_eq!(compared(&NOTHING, &inside), "gaps 0\n");
    // The walk goes by kinds, not by what may follow what.
    assert_eq!(gaps_program(&[5, 1, 0, 5]), "refused 4 1 0\n");
    assert_eq!(gaps_program(&[1, 1, 5, 5]), "refused 4 1 2\n");
}

#[test]
fn a_walk_without_05_leaves_all_to_the_first_table() {
    assert_eq!(gaps_program(&[]), "refused 2 1 0\n");
    assert_eq!(gaps_program(&[1, 0]), "refused 2 1 2\n");
    assert_eq!(gaps_program(&[1, 0, 7, 5]), "refused 3 1 2\n");
    assert_eq!(gaps_program(&[1, 0, 0x42, 5]), "refused 4 1 2\n");
    assert_eq!(gaps_program(&[1, 1, 2, 1, 3, 0, 0x45, 5, 5, 5]), "refused 2 1 6\n");
    assert_eq!(gaps_program(&[0; 32_768]), "refused 1 1 16384\n");
}

#[test]
fn the_second_table_counts_from_its_own_first_byte() {
    assert_eq!(gaps_program(&NOTHING), "refused 2 2 0\n");
    assert_eq!(gaps_program(&[1, 0, 5, 1, 33, 5]), "refused 6 2 0\n");
    assert_eq!(gaps_program(&[1, 0, 5, 1, 0, 5, 9]), "refused 4 2 3\n");
    let long = [NOTHING.to_vec(), vec![b'!'; 16_385]].concat();
    assert_eq!(gaps_program(&long), "refused 1 2 16384\n");
}

#[test]
fn input_over_32768_bytes() {
    assert_eq!(gaps_program(&[0; 32_769]), "refused 1 0 32768\n");
    let at_the_limit = [NOTHING.to_vec(), vec![b'!'; 32_765]].concat();
    assert_eq!(gaps_program(&at_the_limit), "refused 1 2 16384\n");
}

#[test]
fn sixteen_gaps_are_printed_and_all_are_counted() {
    // The second table asks for one resource of two and for `a` in all four keys: 2 to the fifth kinds, less one.
    let all_keys: Vec<List> = (0..4).map(|key| strings(1, key, &["a"])).collect();
    let narrow = simple(ALLOW, "*", "*", "b").when(&all_keys);
    let printed = compared(&table(&[allow_when(&[])]), &table(&[narrow]));
    let lines: Vec<&str> = printed.lines().collect();
    assert_eq!(lines.len(), 17);
    assert_eq!(lines[0], "gaps 31");
    assert_eq!(lines[1], "0 p=! a=! r=!");
    assert_eq!(lines[2], "1 p=! a=! r=! k3=a");
    assert_eq!(lines[16], "15 p=! a=! r=! k0=a k1=a k2=a k3=a");
    assert!(printed.ends_with('\n'));
}

#[test]
fn all_columns_in_one_line() {
    let conditions = [
        strings(1, 0, &["vpc"]),
        strings(3, 1, &["?*"]),
        strings(1, 2, &["*"]),
        networks(5, &[([200, 1, 0, 0], 16)]),
    ];
    let first = table(&[simple(ALLOW, "arn", "s3:Get*", "b/?").when(&conditions)]);
    let expected = "gaps 1\n0 p=arn a=S3:GET r=b/! k0=vpc k1=! k2=* ip=200.1.0.0\n";
    assert_eq!(compared(&first, &NOTHING), expected);
}

#[test]
fn refusals_of_the_comparison_stand_under_table_0() {
    let long = "a".repeat(127);
    let five = [long.as_str(); 5];
    assert_eq!(compared(&resources(&five), &NOTHING), "refused 10 0 2\n");
    assert_eq!(compared(&resources(&["*a????????"]), &NOTHING), "refused 11 0 2\n");
}
