//! `rig match`: what is read of its input and what is passed over, how much is kept, and what is wrong with it.

use super::matching::{capture, check, FIRST, P8, SECOND, SENT};
use super::{check_errors, rig};

/// Events before the first START are no frame's, doubtful or not; what is passed over, and what follows the last line.
#[test]
fn what_is_passed_over() {
    let rehearsal = "file a\n  WON 0 q 90\n  carried 90 ACK\n\nload p8 # a comment\n  WON x q 90\n  WON\n  carry\n\
        WON 3 q 90\ncarried 90 ACK\n load no\n\twon 1\n  WON 1 second 90 0f sent\n  carried 90 ACK, 0f x, yy ACK\n\
        see p8\n ok no\nok\n";
    let capture =
        "# a Value Change Dump with no timescale\nstart x\ngap\n\n50: STOP\n60: 77 ACK doubtful\n 0070: START\n\
        80: 90 write ACK\n90: f ACK\n4294967295: STOP\n look\n\x01\n";
    let expected = "\
frame 1, 70 to 4294967295: p8 as rehearsed, 2 bytes, won by second
ok 1 frame: 1 as rehearsed
";
    assert_eq!(rig("match", format!("{rehearsal}{capture}")), expected);
    let cut = format!("{rehearsal}{capture}");
    assert_eq!(rig("match", cut.strip_suffix("\n\x01\n").unwrap()), expected);
}

/// Long names are kept whole.
#[test]
fn long_names() {
    let (load, board) = ("n".repeat(33), "m".repeat(3000));
    let blocks = P8.replace("p8", &load).replace("second", &board);
    let expected = format!(
        "frame 1, 1000 to 1030: {load} as rehearsed, 2 bytes, won by {board}\n\
         frame 2, 2000 to 2030: {load}, message of first, waiting since frame 1\n\
         ok 2 frames: 1 as rehearsed, 1 waited\n"
    );
    check(&blocks, SENT, &[SECOND, FIRST], &expected);
}

#[test]
fn errors() {
    let form = "expected what rig decode prints, not";
    let cases = [
        ("", "the rehearsal has no last line".to_string()),
        ("load x\n  ok\n", "the rehearsal has no last line".to_string()),
        ("ok\n", "the capture has no last line".to_string()),
        ("ok\nstart 5\n50: START", "the capture has no last line".to_string()),
        ("ok\nrefused 6: more than 4096 samples\n", format!("line 2: {form} 'refused'")),
        ("ok\n\nerror line 3: longer than 4096 bytes\n", format!("line 3: {form} 'error'")),
        ("ok\n50 START\nok", format!("line 2: {form} '50'")),
        ("ok\n50: START STOP\nok", format!("line 2: {form} '50:'")),
        ("ok\n50:\nok", format!("line 2: {form} '50:'")),
        ("ok\n50: doubtful\nok", format!("line 2: {form} '50:'")),
        ("ok\n4294967296: START\nok", format!("line 2: {form} '4294967296:'")),
        ("ok\n-5: START\nok", format!("line 2: {form} '-5:'")),
        ("ok\n5: 009 ACK\nok", format!("line 2: {form} '5:'")),
        ("ok\n5: g ACK\nok", format!("line 2: {form} '5:'")),
        ("ok\n5: 512\nok", format!("line 2: {form} '5:'")),
        ("ok\n5: 512 5\nok", format!("line 2: {form} '5:'")),
        ("ok\n5: START doubtful doubtful\nok", format!("line 2: {form} '5:'")),
        ("ok\n5: doubtful START\nok", format!("line 2: {form} '5:'")),
        ("ok\n5: start 7\nok", format!("line 2: {form} '5:'")),
        ("ok\n5: 91 write ACK\nok", format!("line 2: {form} '5:'")),
        ("ok\n5: 90 read ACK\nok", format!("line 2: {form} '5:'")),
        ("ok\n5: 90 ack\nok", format!("line 2: {form} '5:'")),
        ("ok\nload x\nok", format!("line 2: {form} 'load'")),
        ("load x\n\x01\nok\nok\n", "line 2: a byte that is no text".to_string()),
        ("ok\n\x7f\nok\n", "line 2: a byte that is no text".to_string()),
    ];
    for (input, words) in cases {
        check_errors("match", &[(input, &words)]);
    }
    let long = "x".repeat(4097);
    check_errors("match", &[(&format!("{long}\nok\nok"), "line 1: longer than 4096 bytes")]);
    check_errors("match", &[(&format!("ok\n#{long}\nok"), "line 2: longer than 4096 bytes")]);
    let said = "! no load in the file\nerror 0 loads\nnote: a gap\n5: x\n";
    let expected = format!("! no load in the file\nnote: a gap\nerror line 4: {form} '5:'\n");
    assert_eq!(rig("match", said), expected);
}

/// 16,384 loads and boards; 131,072 events; 262,144 bytes of names.
#[test]
fn the_room_of_a_rehearsal() {
    let fits = |rehearsal: String, does: bool| {
        let output = rig("match", rehearsal + "ok\nok\n");
        let too_long = "error the rehearsal is too long to be kept: name a load\n";
        assert_eq!(if does { "look 0 frames\n" } else { too_long }, output);
    };
    fits("load x\n".repeat(16_384), true);
    fits("load x\n".repeat(16_385), false);
    let board = "  WON 1 90\n  note\n";
    fits("load x\n".to_string() + &board.repeat(16_383), true);
    fits("load x\n".to_string() + &board.repeat(16_384), false);
    let message = format!("  lost 1 q{}\n", " 90".repeat(1022));
    fits("load x\n".to_string() + &message.repeat(128), true);
    fits("load x\n".to_string() + &message.repeat(128) + "  carried\n", false);
    let restarts = format!("  lost 1 q{}\n", " 90 /".repeat(511));
    fits("load x\n".to_string() + &restarts.repeat(129), false);
    let names = format!("load {}\n", "n".repeat(4000)).repeat(65) + &format!("load {}\n", "m".repeat(2144));
    fits(names.clone() + "  WON 1 90\n", true);
    fits(names + "  WON 1 q 90\n", false);
}

#[test]
fn the_room_of_a_capture() {
    let events = |count: usize| "ok\n".to_string() + &"5: STOP\n".repeat(count);
    assert_eq!(rig("match", events(4096) + "ok\n"), "look 0 frames\n");
    assert_eq!(rig("match", events(4097) + "ok\n"), "error line 4098: more than 4096 events\n");
    let wrong = "error line 4098: expected what rig decode prints, not '5'\n";
    assert_eq!(rig("match", events(4096) + "5\n"), wrong);
}

/// A board whose line says `WON` a second time, a rehearsed frame without one that won, and words that are not there.
#[test]
fn blocks_that_are_spoilt() {
    let frame = "START; 90 write ACK; STOP";
    let line = |block: &str| {
        let output = rig("match", format!("{block}{SENT}{}", capture(&[frame])));
        output.lines().next().unwrap().split_once(": ").unwrap().1.to_string()
    };
    assert_eq!(line("load x\n  WON 007 90\n  carried 90\n"), "x as rehearsed, 1 byte, won by board 7");
    assert_eq!(line("load x\n  WON 1 / 90\n  carried 90 ACK\n"), "x as rehearsed, 1 byte, won by /");
    let huge = "x as rehearsed, 1 byte, won by board 4294967295";
    assert_eq!(line("load x\n  WON 99999999999999999999999\n  carried 90 ACK\n"), huge);
    assert_eq!(line("load x\n  WON 4294967296\n  carried 90 ACK\n"), huge);
    assert_eq!(line("load x\n  carried 90 of 91 ACK\n"), "x differs at byte 1: rehearsed 91, bus STOP");
    let both = "load x\n  WON 1 q 90 CUT\n  WON 2 r 90 sent\n  in 3 s 90\n  carried 90 ACK\n";
    assert_eq!(line(both), "x as rehearsed, 1 byte, undecided between s");
    let cut = both.replace("  in 3 s 90\n", "");
    assert_eq!(line(&cut), "x as rehearsed, 1 byte, cut, won by q, r");
}

/// A fault has no blank before it; refused is said before in error, in any order of the lines.
#[test]
fn faults_and_failures() {
    let blocks =
        "  ! no\n! one\n! # two\nload x\n\t! no\n!no\n  ERROR: x\n  refused 8: y\n  carried 90 ACK\n\
        load y\n  refused\n  ERROR:\n";
    let expected = "\
! one
! # two
no rehearsal: x, refused
no rehearsal: y, refused
error 0 frames; 2 loads refused, 2 faults in the loads
";
    check(blocks, "error 2 loads: ..\n", &[], expected);
    let expected = "! x\nlook 0 frames; 1 fault in the loads\n";
    check("! x\n", SENT, &[], expected);
}
