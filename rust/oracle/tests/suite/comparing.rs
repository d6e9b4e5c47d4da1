//! Comparing: one gap by its number, the lent buffer, and the order of refusals.

use crate::build::*;
use oracle::compare::show_gap;
use oracle::{compare, gap_buffer, CompareRefusal};

#[test]
fn one_gap_by_number_and_in_the_buffer() {
    let first = table(&[allow_when(&[strings(3, 1, &["*"])])]);
    let second = table(&[allow_when(&[strings(3, 1, &["?*"])])]);
    let refused = |number, table, place| CompareRefusal { number, table, place };
    let untouched = [0xEE; 3_600];
    let mut buffer = untouched;
    assert_eq!(show_gap(&[], &[], 0, &mut buffer[..3_583]), Err(refused(14, 0, 0)));
    assert_eq!(show_gap(&[], &[], 0, &mut buffer), Err(refused(2, 1, 0)));
    assert_eq!(show_gap(&first, &[1, 9], 0, &mut buffer), Err(refused(2, 2, 2)));
    assert_eq!(show_gap(&first, &second, 1, &mut buffer), Err(refused(13, 0, 0)));
    assert_eq!(buffer, untouched);

    let gap = show_gap(&first, &second, 0, &mut buffer).unwrap();
    assert_eq!(gap, compare(&first, &second).unwrap()[0]);
    assert_eq!((gap.values[3].as_deref(), gap.values[4].as_deref()), (None, Some(b"".as_slice())));
    let mut expected = [0; 3_584].to_vec();
    for column in 0..3 {
        expected[512 * column] = b'!';
    }
    expected.extend([0xEE; 16]);
    assert_eq!(buffer.to_vec(), expected);

    let mut long = gap.clone();
    long.values[6] = Some(vec![b'a'; 512]);
    assert_eq!(gap_buffer(&long, &mut buffer), Ok(()));
    assert_eq!(buffer[3_072..3_584], [b'a'; 512]);
    long.values[6] = Some(vec![b'a'; 513]);
    assert_eq!(gap_buffer(&long, &mut buffer), Err(refused(15, 0, 6)));
}

#[test]
fn order_of_the_refusals_of_comparing() {
    let refused = |number, place| Err(CompareRefusal { number, table: 0, place });
    let conditions = |listed: &[List]| table(&[allow_when(listed)]);
    // 10 of a late column comes before 11 of an early one.
    let many_states = resources(&["*a????????"]);
    let long = "v".repeat(128);
    let wide = conditions(&[strings(1, 3, &[long.as_str(); 4])]);
    assert_eq!(compare(&many_states, &wide), refused(10, 6));
    assert_eq!(compare(&wide, &many_states), refused(10, 6));
    // 129 networks, 64 at most in a statement with its three values.
    let sixty = networks(5, &[([1, 2, 3, 4], 32); 60]);
    let nine = networks(5, &[([1, 2, 3, 4], 32); 9]);
    let eight = networks(5, &[([1, 2, 3, 4], 32); 8]);
    let row = allow_when(&[sixty]);
    let two = table(&[row.clone(), row]);
    assert_eq!(compare(&two, &conditions(&[nine])), refused(10, 7));
    assert_eq!(compare(&two, &conditions(&[eight])).map(|gaps| gaps.len()), Ok(0));
    // 11 names the lowest column.
    let both = table(&[simple(ALLOW, "*", "*a????????", "*a????????")]);
    assert_eq!(compare(&both, &NOTHING), refused(11, 1));
}
