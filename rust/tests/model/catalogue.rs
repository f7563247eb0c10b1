//! Corrections over the standing catalogue: what 02 (Ask 10) says, rule by rule.

use rehearsal_model::catalogue::{find, Catalogue, Part};

fn catalogue(block: &[u8], boards: &[u32], lengths: &[u32]) -> Catalogue {
    Catalogue { block: block.to_vec(), boards: boards.to_vec(), lengths: lengths.to_vec() }
}

fn corrections() -> Catalogue {
    catalogue(&[0x90, 0x12, 0x0F], &[4, 9], &[0, 3])
}

fn standing() -> Catalogue {
    catalogue(&[0xA0, 0xA1, 0xB0, 0xC0, 0xC1], &[2, 4, 7], &[2, 1, 2])
}

fn check_refused(number: u8, board: u32, corrections: &Catalogue, standing: &Catalogue) {
    let answer = find(board, corrections, standing).map_err(|refusal| refusal.number());
    assert_eq!(answer, Err(number), "{board} in {corrections:?} over {standing:?}");
}

#[test]
fn a_board_has_its_correction_else_its_standing_message() {
    let part = |board| find(board, &corrections(), &standing()).unwrap();
    assert_eq!(part(9), Part { corrected: true, bytes: 0..3 });
    assert_eq!(part(7), Part { corrected: false, bytes: 3..5 });
    assert_eq!(part(2), Part { corrected: false, bytes: 0..2 });
}

#[test]
fn a_correction_of_no_bytes_is_found() {
    let part = find(4, &corrections(), &standing()).unwrap();
    assert_eq!(part, Part { corrected: true, bytes: 0..0 });
}

#[test]
fn a_board_in_neither_is_42() {
    check_refused(42, 8, &corrections(), &standing());
    check_refused(42, 0, &catalogue(&[], &[], &[]), &catalogue(&[], &[], &[]));
}

#[test]
fn boards_that_do_not_rise_strictly_are_40() {
    check_refused(40, 9, &catalogue(&[1, 2], &[9, 9], &[1, 1]), &standing());
    check_refused(40, 9, &corrections(), &catalogue(&[1, 2], &[4, 2], &[1, 1]));
}

#[test]
fn lengths_that_do_not_fit_boards_or_block_are_41() {
    check_refused(41, 9, &catalogue(&[1, 2], &[4, 9], &[2]), &standing());
    check_refused(41, 9, &corrections(), &catalogue(&[1], &[2], &[1, 0]));
    check_refused(41, 9, &corrections(), &catalogue(&[1, 2], &[2], &[1]));
    check_refused(41, 9, &corrections(), &catalogue(&[1], &[2, 3], &[u32::MAX, 2]));
}

#[test]
fn the_corrections_are_judged_before_the_standing_catalogue() {
    let unsorted = catalogue(&[1], &[5, 5], &[7]);
    let unsummed = catalogue(&[1], &[5], &[2]);
    check_refused(40, 1, &unsorted, &unsummed);
    check_refused(41, 1, &unsummed, &unsorted);
    check_refused(40, 9, &corrections(), &unsorted);
}
