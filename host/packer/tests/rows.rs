//! 01's printed case, and what the document says of the sequence, details, places and lengths.

use packer::{
    judge_and_pack_into, judge_and_unpack_into, pack_into, unpack_into, BadRows, LAST_PLACE,
};

fn packed(rows: &[u32]) -> Result<Vec<u8>, BadRows> {
    both(rows, 0xEE, pack_into, judge_and_pack_into)
}

fn unpacked(bytes: &[u8]) -> Result<Vec<u32>, BadRows> {
    both(bytes, 77, unpack_into, judge_and_unpack_into)
}

type Form<T, U> = fn(&[T], &mut Vec<U>) -> Result<(), BadRows>;

/// What both forms answer. Neither output is empty before, so that what is left from before would
/// show; the one that judges first leaves it on a refusal.
#[track_caller]
fn both<T, U>(from: &[T], left: U, one: Form<T, U>, judging: Form<T, U>) -> Result<Vec<U>, BadRows>
where
    U: Clone + PartialEq + std::fmt::Debug,
{
    let before = vec![left; 9];
    let (mut to, mut judged) = (before.clone(), before.clone());
    let answer = one(from, &mut to).map(|()| to);
    assert_eq!(judging(from, &mut judged).is_ok(), answer.is_ok());
    assert_eq!(&judged, answer.as_ref().unwrap_or(&before));
    answer
}

/// Rows of these kinds, all at 3..5, causes with detail 7.
fn of(kinds: &[u32]) -> Vec<u32> {
    let row = |&kind: &u32| [kind, if kind == 10 { 7 } else { 0 }, 3, 5];
    kinds.iter().flat_map(row).collect()
}

#[test]
fn the_edge_table() {
    let rows = [9, 0, 0, 4, 10, 7, 4, 4];
    let bytes = [0x90, 0, 0, 0, 0, 0, 4, 0xA7, 0, 0, 4, 0, 0, 0];
    assert_eq!(packed(&rows), Ok(bytes.to_vec()));
    assert_eq!(unpacked(&bytes), Ok(rows.to_vec()));
}

#[test]
fn sequences() {
    let good: [&[u32]; 8] = [
        &[],
        &[0],
        &[1, 2, 3],
        &[1, 2, 3, 4, 5, 6, 7, 6, 4, 5, 7],
        &[8, 5, 6, 7],
        &[9, 10],
        &[8, 5, 6, 0, 0, 9, 10, 1, 2, 3, 9, 10],
        &[1, 2, 3, 4, 5, 6, 8, 5, 7, 1, 2, 3, 1, 2, 3],
    ];
    let bad: [&[u32]; 16] = [
        &[1],
        &[1, 2],
        &[2],
        &[3],
        &[4, 5, 6],
        &[5, 6],
        &[6],
        &[10],
        &[9],
        &[1, 2, 3, 4],
        &[1, 2, 3, 4, 6],
        &[1, 2, 3, 4, 5],
        &[8, 5],
        &[8, 5, 6, 4, 5, 6],
        &[1, 2, 3, 0, 4, 5, 6],
        &[1, 2, 3, 8, 5, 6, 4, 5, 6],
    ];
    for kinds in good {
        let bytes = packed(&of(kinds)).expect("a sequence of 01");
        assert_eq!(unpacked(&bytes), Ok(of(kinds)), "{kinds:?}");
    }
    for kinds in bad {
        assert_eq!(packed(&of(kinds)), Err(BadRows), "{kinds:?}");
    }
    (11..=16).for_each(|kind| assert_eq!(packed(&of(&[kind])), Err(BadRows)));
}

#[test]
fn details() {
    for detail in 0..=20 {
        let good = (2..=10).contains(&detail);
        assert_eq!(packed(&[9, 0, 0, 0, 10, detail, 0, 0]).is_ok(), good);
        assert_eq!(packed(&[0, detail, 0, 0]).is_ok(), detail == 0);
        assert_eq!(packed(&[9, detail, 0, 0, 10, 2, 0, 0]).is_ok(), detail == 0);
    }
}

#[test]
fn places() {
    assert_eq!(packed(&[0, 0, 1, 301]), Ok(vec![0, 0, 0, 1, 0, 1, 44]));
    assert!(packed(&[0, 0, LAST_PLACE, LAST_PLACE]).is_ok());
    assert!(packed(&[0, 0, 0, LAST_PLACE]).is_ok());
    assert_eq!(packed(&[0, 0, 0, LAST_PLACE + 1]), Err(BadRows));
    assert_eq!(packed(&[0, 0, u32::MAX, u32::MAX]), Err(BadRows));
    assert_eq!(packed(&[0, 0, 5, 4]), Err(BadRows));
    assert_eq!(
        unpacked(&[0, 0xFF, 0xFF, 0xFF, 0, 0, 1]),
        Err(BadRows),
        "an end past the last place"
    );
}

#[test]
fn whole_counts() {
    let (rows, bytes) = ([0; 8], [0; 14]);
    for count in 0..=rows.len() {
        assert_eq!(packed(&rows[..count]).is_ok(), count % 4 == 0);
    }
    for count in 0..=bytes.len() {
        assert_eq!(unpacked(&bytes[..count]).is_ok(), count % 7 == 0);
    }
}
