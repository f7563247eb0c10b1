//! 02's case of the dump writer, its refusals and its longest text.

use rehearsal_model::dump::{dump, piece, text, LONGEST};
use rehearsal_model::refusal::{Reason, Refusal};

const CASE: &[u8] = include_bytes!("../../../examples/case.vcd");

fn refused(stamps: &[u32], levels: &[u8], room: usize) -> Refusal {
    let mut out = vec![0xA5; room];
    let refusal = dump(stamps, levels, &mut out).expect_err("is refused");
    assert!(out.iter().all(|&byte| byte == 0xA5));
    refusal
}

#[test]
fn the_case_is_the_file() {
    let mut out = [0xA5; 150];
    assert_eq!(dump(&[5, 6, 9], &[3, 3, 1], &mut out), Ok(142));
    assert_eq!(&out[..142], CASE);
    assert_eq!(out[142..], [0xA5; 8]);
}

#[test]
fn refusals_come_in_order() {
    assert_eq!(refused(&[1], &[], 0), Reason::StampsAndLevelsDiffer.refusal());
    assert_eq!(refused(&[0; 4097], &[4; 4097], 0), Reason::TooManySamples.refusal());
    assert_eq!(refused(&[9, 9, 9], &[3, 1, 4], 0), Reason::Level.at(2));
    assert_eq!(refused(&[8, 9, 9], &[3, 1, 3], 0), Reason::StampNotAbove.at(2));
    assert_eq!(refused(&[], &[], 0), Reason::EmptyRecord.refusal());
    assert_eq!(refused(&[5, 6, 9], &[3, 3, 1], 141), Reason::ShortBuffer.refusal());
}

#[test]
fn pieces_of_a_byte_are_the_text() {
    let mut byte = [0];
    for (from, &expected) in CASE.iter().enumerate() {
        assert_eq!((piece(&[5, 6, 9], &[3, 3, 1], from, &mut byte), byte), (1, [expected]));
    }
    assert_eq!(piece(&[5, 6, 9], &[3, 3, 1], CASE.len(), &mut byte), 0);
    assert_eq!(piece(&[5, 6, 9], &[3, 3, 1], usize::MAX, &mut byte), 0);
}

#[test]
fn the_longest_text_has_4096_samples() {
    let stamps: Vec<u32> = (0..4096).map(|index| u32::MAX - 4095 + index).collect();
    let levels: Vec<u8> = (0..4096).map(|index| if index % 2 == 0 { 0 } else { 3 }).collect();
    assert_eq!(text(&stamps, &levels).len(), LONGEST);
}
