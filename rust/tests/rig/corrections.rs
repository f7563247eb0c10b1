//! `rig clash --corrections`: tonight's corrections over the loads of a night, and what is wrong in their file.

use super::{rig, NIGHT, SIXTEEN};
use std::fs::write;
use std::thread::current;

/// Corrections over a night from standard input, in a file of the test's own.
fn corrected(options: &str, night: &str, corrections: &str) -> String {
    let thread = format!("{:?}", current().id()).replace(['(', ')'], "");
    let file = format!("{}/corrections.{thread}", env!("CARGO_TARGET_TMPDIR"));
    write(&file, corrections).unwrap();
    rig(&format!("clash - --corrections {file} {options}"), night)
}

/// The last line.
fn last(night: &str, corrections: &str) -> String {
    corrected("", night, corrections).lines().next_back().unwrap().to_string()
}

#[test]
fn a_correction_takes_the_place_of_what_stands() {
    let output = corrected("", NIGHT, "load x\nboard r 48 # new\nboard p -\nend 1\n");
    let expected = "\
load x first
  corrected 0 p, 2 r
  WON    2 r  48                       sent 1 of 1 byte
  lost   1 q  50 26 FF                 byte 0 bit 3: sends 1, the bus is 0; 3 bytes still to send
  silent 0 p
load y
";
    assert!(output.starts_with(expected), "{output}");
    assert!(output.ends_with("\nok 2 loads: 2 sent, 1 corrected\n"), "{output}");
}

#[test]
fn numbers_of_more_than_ten_boards() {
    let lines: String = SIXTEEN.iter().map(|name| format!("board {name} -\n")).collect();
    let night = format!("boards {}\nload x\n{lines}ack all\nend 1\n", SIXTEEN.join(" "));
    let output = corrected("", &night, "load x\nboard vv 48\nboard r 50\nboard qq -\nend 1\n");
    let expected = "\
load x
  corrected 1 r, 10 qq, 15 vv
  WON    15 vv  48                       sent 1 of 1 byte
  lost    1 r   50                       byte 0 bit 3: sends 1, the bus is 0; 1 byte still to send
  silent  0 q
  silent  2 s
";
    assert!(output.starts_with(expected), "{output}");
}

#[test]
fn the_table_only_counts_them() {
    let output = corrected("--table", NIGHT, "load y\nboard q 50\nend 1\n");
    let (_, rows) = output.split_once('\n').unwrap();
    let expected = "\
! x          first          -             - REFUSED 16: p begins q
! y                         q           1/1 EXPECTED p 1/1
see x y
refused 16: 2 loads: 1 not as expected, 1 refused, 1 corrected
";
    assert_eq!(rows, expected);
}

#[test]
fn acknowledges_follow_or_are_refused() {
    let output = corrected("", NIGHT, "load y\nboard p 62 01 02\nend 1\n");
    let words = "  corrected 0 p\n  refused 15: 2 acknowledges (line 11) for the 3 bytes of p (line 8), the longest\n";
    assert!(output.contains(words), "{output}");
    let output = corrected("", NIGHT, "load x\nboard p 50 25 01 02\nend 1\n");
    assert!(output.contains("  corrected 0 p\n  WON    0 p  50 25 01 02              sent 4 of 4 bytes\n"));
}

#[test]
fn every_board_may_be_silenced() {
    let output = corrected("", NIGHT, "load x\nboard p -\nboard q -\nboard r -\nend 1\n");
    assert!(output.contains("  corrected 0 p, 1 q, 2 r\n  refused 12: every board is silent\n"), "{output}");
}

#[test]
fn corrections_in_parts() {
    let output = corrected("", NIGHT, "load x\nboard p 50 26 / 62\nboard q 50 26 / 64 FF\nend 1\n");
    let expected = "\
load x first
  corrected 0 p, 1 q
  WON    0 p  50 26 / 62               sent 3 of 3 bytes
  lost   1 q  50 26 / 64 FF            byte 2 bit 5: sends 1, the bus is 0; 4 bytes still to send
";
    assert!(output.starts_with(expected), "{output}");
    let standing = NIGHT.replace("board q 50 26 FF", "board q 50 26 / 62");
    let output = corrected("", &standing, "load x\nboard r 50 27\nend 1\n");
    let words = "  corrected 2 r\n  refused 16: q (line 4) restarts after 50 26, acknowledged, where p (line 3) ends\n";
    assert!(output.contains(words), "{output}");
    for bytes in ["/", "/ 50", "50 /", "50 / / 52"] {
        let output = corrected("", NIGHT, &format!("load x\nboard p {bytes}\nend 1\n"));
        let words = "! corrections line 2: / needs a byte before it and one after it; nothing is rehearsed\n";
        assert!(output.starts_with(words), "{bytes}: {output}");
    }
}

#[test]
fn a_message_that_is_too_long_or_empty() {
    let night = |message: &str| format!("boards p q\nload x\nboard p{message}\nboard q 62\nack all\nend 1\n");
    let long = " 50".repeat(70);
    let output = corrected("", &night(&long), "load x\nboard q 50\nend 1\n");
    assert!(
        output.contains("  refused 13: p (line 3) has 70 bytes, and at most 64 may be sent\n"),
        "{output}"
    );
    assert_eq!(last(&night(&long), "load x\nboard p 50\nend 1\n"), "ok 1 load: 1 sent, 1 corrected");
    let output = corrected("", &night(""), "load x\nboard q 50\nend 1\n");
    assert!(output.contains("  refused 13: p (line 3) has no bytes\n"), "{output}");
}

#[test]
fn a_load_in_error_is_not_corrected() {
    let night = NIGHT.replace("board r -\nack all", "ack all");
    let output = corrected("", &night, "load x\nboard p 50\nboard none 50\nend 1\n");
    let expected =
        "! line 2: load x: no line for board r (boards: line 1)\nload x first\n  ERROR: not rehearsed\n";
    assert!(output.starts_with(expected), "{output}");
    assert!(output.ends_with("\nerror 2 loads: 1 sent, 1 in error\n"), "{output}");
}

#[test]
fn a_board_that_is_not_there_costs_the_load() {
    let output = corrected("", NIGHT, "load x\nboard s 50\nboard p 50\n\nboard t -\nend 1\n");
    let expected = "\
! corrections line 2: load x: no board 's' on line 1
! corrections line 5: load x: no board 't' on line 1
load x first
  ERROR: not rehearsed
";
    assert!(output.starts_with(expected), "{output}");
    assert!(output.ends_with("\nsee x\nerror 2 loads: 1 sent, 1 in error\n"), "{output}");
}

#[test]
fn loads_that_are_in_no_file() {
    let corrections = "load z\nboard p 50\nboard q 50\nload x\nboard p 48\nload w\nboard p -\nend 3\n";
    let output = corrected("", NIGHT, corrections);
    let expected = "\
! corrections line 1: load z is in none of the files
! corrections line 6: load w is in none of the files
error 2 loads: 2 sent, 1 corrected, 2 faults outside the loads
";
    assert!(output.ends_with(expected), "{output}");
    let old = corrected("", "load x\nboard 50\nack 0\n", "load x\nboard p 50\nend 1\n");
    assert!(old.contains("! corrections line 1: load x is in none of the files\n"), "{old}");
}

#[test]
fn both_of_two_files_are_corrected() {
    let file = format!("{}/corrections.night", env!("CARGO_TARGET_TMPDIR"));
    write(&file, NIGHT).unwrap();
    let output = corrected(&file, NIGHT, "load x\nboard q -\nend 1\n");
    assert_eq!(output.matches("  corrected 1 q\n  WON    0 p  50 26 ").count(), 2, "{output}");
    assert!(output.ends_with("\nok 4 loads: 4 sent, 2 corrected\n"), "{output}");
}

/// The corrections are at fault with these words, and nothing is rehearsed.
fn check_fault(corrections: &str, words: &str) {
    let expected = format!("! {words}; nothing is rehearsed\nerror 0 loads: 1 fault outside the loads\n");
    assert_eq!(corrected("", NIGHT, corrections), expected, "{corrections:?}");
}

#[test]
fn whatever_is_wrong_stops_everything() {
    let name = "expected a name of 1 to 16 bytes that begins with a letter and is no byte, not";
    let cases = [
        ("", "corrections: the file ends without an end line"),
        ("load x\nboard p 50\n", "corrections: the file ends without an end line"),
        ("load x\n", "corrections line 1: load x has no board line"),
        ("load x\nload y\nboard p 50\nend 2", "corrections line 1: load x has no board line"),
        ("load x\nend x", "corrections line 1: load x has no board line"),
        ("board p 50", "corrections line 1: expected load or end, not 'board'"),
        ("boards p q", "corrections line 1: expected load or end, not 'boards'"),
        ("load x\nack all", "corrections line 2: expected load, board or end, not 'ack'"),
        ("load", "corrections line 1: expected a name of 1 to 32 bytes"),
        ("load x y", "corrections line 1: expected load NAME, one word, not 'y'"),
        ("load x\nboard p 50\n#\nload x", "corrections line 4: this name was taken on line 1"),
        ("load x\nboard", "corrections line 2: expected board NAME and its bytes, or - for none"),
        ("load x\nboard p", "corrections line 2: expected board NAME and its bytes, or - for none"),
        ("load x\nboard p - -", "corrections line 2: expected nothing after -, not '-'"),
        ("load x\nboard p 5", "corrections line 2: expected bytes of two hexadecimal digits, not '5'"),
        (
            "load x\nboard p -\nboard p x",
            "corrections line 3: a second line for board p, the first is line 2",
        ),
        ("load x\nboard p -\nend", "corrections line 3: expected end N, the number of loads"),
        ("load x\nboard p -\nend 1 2", "corrections line 3: expected end N, the number of loads, not '2'"),
        ("load x\nboard p -\nend 2", "corrections line 3: end says 2, and the file has 1 load"),
        ("end 1", "corrections line 1: end says 1, and the file has 0 loads"),
        ("end 0\n\nend 0", "corrections line 3: after end (line 1)"),
        ("end 0\n\u{1}", "corrections line 2: after end (line 1)"),
        ("load x # \u{7f}", "corrections line 1: a byte that is no text"),
    ];
    for (corrections, words) in cases {
        check_fault(corrections, words);
    }
    check_fault("load x\nboard 50 26", &format!("corrections line 2: {name} '50'"));
    check_fault(&" ".repeat(4097), "corrections line 1: longer than 4096 bytes");
}

#[test]
fn the_most_bytes_and_corrections() {
    let bytes = |count: usize| format!("load x\nboard p{}\nend 1\n", " 50".repeat(count));
    check_fault(&bytes(65), "corrections line 2: board p has 65 bytes, and at most 64 may be sent");
    assert!(last(NIGHT, &bytes(64)).ends_with("1 corrected"));
    let boards = |count: usize| {
        let lines: String = (0..count).map(|board| format!("board p{board} 50\n")).collect();
        format!("load none\n{lines}end 1\n")
    };
    check_fault(&boards(257), "corrections line 258: more than 256 corrections");
    assert_eq!(last(NIGHT, &boards(256)), "error 2 loads: 1 sent, 1 refused, 1 fault outside the loads");
    assert_eq!(last(NIGHT, "end 0"), "refused 16: 2 loads: 1 sent, 1 refused");
}

#[test]
fn files_that_cannot_be_read() {
    for (file, words) in [("/none", "open /none: no such file"), ("/", "read /: it is a directory")] {
        let expected =
            format!("! cannot {words}; nothing is rehearsed\nerror 0 loads: 1 fault outside the loads\n");
        assert_eq!(rig(&format!("clash - --corrections {file}"), NIGHT), expected);
    }
    let table = rig("clash x y --table --corrections -", "end 1");
    let expected = "\
! corrections line 1: end says 1, and the file has 0 loads; nothing is rehearsed
error 0 loads: 1 fault outside the loads
";
    assert_eq!(table.split_once('\n').unwrap().1, expected);
}
