//! `rig clash`: what is wrong in a file of loads costs one load, and is said with its lines and words.

use super::{last, rig, SIXTEEN};
use rehearsal_model::rig::answer;

/// The lines about what is wrong in a file, without their mark.
fn wrong(file: &str) -> Vec<String> {
    let output = rig("clash - --table", file);
    let lines =
        output.lines().filter(|line| line.starts_with("! ") && !line.ends_with("ERROR: not rehearsed"));
    lines.map(|line| line[2..].to_string()).collect()
}

/// A load of boards p and q, with one line more, gives these words about that line, which is line 5.
fn check_line(line: &str, words: &str) {
    let file = format!("boards p q\nload x\nboard p 50\nboard q -\n{line}\nend 1");
    assert_eq!(wrong(&file), [format!("line 5: load x: {words}")], "{line}");
}

#[test]
fn lines_of_a_load() {
    let cases = [
        ("bord a 50", "expected load, board, ack, expect or end, not 'bord'"),
        ("boards p", "a second boards line, the first is line 1"),
        ("board", "expected board NAME and its bytes, or - for none"),
        ("board 50 26", "no board '50' on line 1"),
        ("board r 50", "no board 'r' on line 1"),
        ("board p -", "a second line for board p, the first is line 3"),
        ("board q x", "a second line for board q, the first is line 4"),
        ("ack 0 x", "expected all, or acknowledges 0 or 1, not 'x'"),
        ("ack all 0", "expected all, or acknowledges 0 or 1, not 'all'"),
        ("ack 256", "expected all, or acknowledges 0 or 1, not '256'"),
        ("expect", "expected expect NAME N/M"),
        ("expect p", "expected expect NAME N/M"),
        ("expect r", "no board 'r' on line 1"),
        ("expect p 4", "expected expect NAME N/M, not '4'"),
        ("expect p 4/4/4", "expected expect NAME N/M, not '4/4/4'"),
        ("expect p /4", "expected expect NAME N/M, not '/4'"),
        ("expect p 1/1 x", "expected expect NAME N/M, not 'x'"),
        ("\u{1}", "a byte that is no text"),
    ];
    for (line, words) in cases {
        check_line(line, words);
    }
    check_line(&" ".repeat(4097), "longer than 4096 bytes");
}

#[test]
fn bytes_of_a_board() {
    let cases = [
        ("board q 5", "expected bytes of two hexadecimal digits, not '5'"),
        ("board q 50 026", "expected bytes of two hexadecimal digits, not '026'"),
        ("board q 50 -", "expected bytes of two hexadecimal digits, not '-'"),
        ("board q 50 /52", "expected bytes of two hexadecimal digits, not '/52'"),
        ("board q 50 / 5 /", "expected bytes of two hexadecimal digits, not '5'"),
        ("board q 50 / -", "expected bytes of two hexadecimal digits, not '-'"),
        ("board q - / 50", "expected nothing after -, not '/'"),
        ("board q /", "/ needs a byte before it and one after it"),
        ("board q / 50", "/ needs a byte before it and one after it"),
        ("board q / x", "/ needs a byte before it and one after it"),
        ("board q 50 /", "/ needs a byte before it and one after it"),
        ("board q 50 / / 52", "/ needs a byte before it and one after it"),
        ("board q 128", "expected bytes of two hexadecimal digits, not '128'"),
        ("board q - 50", "expected nothing after -, not '50'"),
        ("board q - -", "expected nothing after -, not '-'"),
    ];
    for (line, words) in cases {
        let file = format!("boards p q\nload x\nboard p 50\n{line}\nend 1");
        assert_eq!(wrong(&file), [format!("line 4: load x: {words}")], "{line}");
    }
}

#[test]
fn second_lines() {
    let load = |lines: &str| wrong(&format!("boards p\nload x\nboard p 50\n{lines}\nend 1"));
    assert_eq!(load("ack 0\n\nack 0"), ["line 6: load x: a second ack line, the first is line 4"]);
    assert_eq!(load("ack x\nack 0").len(), 2);
    assert_eq!(
        load("expect p 1/1\nexpect p 1/1"),
        ["line 5: load x: a second expect line, the first is line 4"]
    );
}

#[test]
fn names_and_titles_of_loads() {
    let second = |line: &str| wrong(&format!("boards p\nload x\nboard p 50\n{line}\nboard p 50\nend 2"));
    let long = "n".repeat(40);
    let quoted = format!("{}..", &long[..32]);
    assert_eq!(second("load"), ["line 4: load ?: expected a name of 1 to 32 bytes"]);
    assert_eq!(
        second(&format!("load {long} title")),
        [format!("line 4: load {}: expected a name of 1 to 32 bytes, not '{quoted}'", &long[..32])]
    );
    assert_eq!(second("load x y"), ["line 4: load x: this name was taken on line 2"]);
    assert_eq!(
        second(&format!("load y {}", "t".repeat(65))),
        ["line 4: load y: the title is longer than 64 bytes"]
    );
    assert_eq!(second(&format!("load y {} {}", "t".repeat(31), "t".repeat(32))), Vec::<String>::new());
    assert_eq!(second("load X y z"), Vec::<String>::new());
}

#[test]
fn boards_that_are_missing() {
    let file = "boards p q r\n\nload x\nboard q 50\nload y\nboard r -\nboard q -\nboard p 50\nend 2";
    let expected = [
        "line 3: load x: no line for board p (boards: line 1)",
        "line 3: load x: no line for board r (boards: line 1)",
    ];
    assert_eq!(wrong(file), expected);
    assert_eq!(last("clash -", file), "error 2 loads: 1 sent, 1 in error, 1 without an ack line");
}

#[test]
fn the_first_statement() {
    let long = "b".repeat(17);
    let name = "expected a name of 1 to 16 bytes that begins with a letter and is no byte, not";
    let cases = [
        ("board 90".to_string(), "expected boards or load first, not 'board'".to_string()),
        ("0 3\n1 3".to_string(), "expected boards or load first, not '0'".to_string()),
        ("boards".to_string(), "expected boards and 1 to 16 names".to_string()),
        ("boards p a".to_string(), format!("{name} 'a'")),
        (format!("boards {} 9", SIXTEEN.join(" ")), "more than 16 boards".to_string()),
        ("boards q 7up".to_string(), format!("{name} '7up'")),
        ("boards q ad".to_string(), format!("{name} 'ad'")),
        (format!("boards {long}"), format!("{name} '{long}'")),
        ("boards q r q".to_string(), "board 'q' is named twice".to_string()),
        ("boards q \u{7f}".to_string(), "a byte that is no text".to_string()),
    ];
    for (file, words) in cases {
        let output = rig("clash -", format!("{file}\nload x\nboard 90\n"));
        let fault = format!("! line 1: {words}; the file is not read\n");
        assert_eq!(output, format!("{fault}error 0 loads: 1 fault outside the loads\n"), "{file}");
    }
}

#[test]
fn before_the_first_load() {
    let file = "boards q\nboard q 50\nboards q\n\u{1}\nload x\nboard q 50\nack all\nend 1";
    let expected = [
        "line 2: expected load or end, not 'board'",
        "line 3: a second boards line, the first is line 1",
        "line 4: a byte that is no text",
    ];
    assert_eq!(wrong(file), expected);
    assert_eq!(last("clash -", file), "error 1 load: 1 sent, 3 faults outside the loads");
}

#[test]
fn the_end_of_a_file() {
    let load = "boards q\nload x\nboard q 50\nack all\n";
    let after = |rest: &str| wrong(&format!("{load}{rest}"));
    let cases = [
        ("end", "line 5: expected end N, the number of loads"),
        ("end x 1", "line 5: expected end N, the number of loads, not 'x'"),
        ("end 1 x", "line 5: expected end N, the number of loads, not 'x'"),
        ("end 2", "line 5: end says 2, and the file has 1 load, the last from line 2"),
        ("end 1\n\nload y\nload z", "line 7: after end (line 5); the rest of the file is not read"),
        ("end 1\n\u{1}", "line 6: after end (line 5); the rest of the file is not read"),
        ("", "load x: the file ends without an end line; this load may be cut short"),
        ("load \u{1}", "line 5: load x: a byte that is no text"),
    ];
    for (rest, words) in cases {
        assert_eq!(after(rest)[0], words, "{rest}");
    }
    assert_eq!(after("load \u{1}")[1], "the file ends without an end line");
    assert_eq!(wrong("boards q\nend 0"), ["no load in the file"]);
    assert_eq!(
        wrong("boards q\nend 3\nx"),
        [
            "line 2: end says 3, and the file has 0 loads",
            "line 3: after end (line 2); the rest of the file is not read",
            "no load in the file"
        ]
    );
    assert_eq!(wrong("boards q"), ["the file ends without an end line", "no load in the file"]);
    assert_eq!(wrong("# nothing\n"), ["no load in the file"]);
}

#[test]
fn a_load_that_is_cut_short_is_not_rehearsed() {
    let file = "boards q r\nload x\nboard q 50\nboard r -\nack 1\nend 1\n";
    for length in 9..file.len() - 2 {
        let (cut, line) = (&file[..length], last("clash -", &file[..length]));
        assert!(line.starts_with("error ") && !line.contains("sent"), "{cut:?}: {line}");
    }
}

#[test]
fn a_line_that_is_wrong_costs_its_own_load() {
    let file = "boards q\nload x\nboard q 50\nack all\nload y\nboard q 5\nbord\nload z\nboard q 52\nack all\nend 3\n";
    let expected = "\
load x
  WON    0 q  50                       sent 1 of 1 byte
! line 6: load y: expected bytes of two hexadecimal digits, not '5'
! line 7: load y: expected load, board, ack, expect or end, not 'bord'
load y
  ERROR: not rehearsed
load z
  WON    0 q  52                       sent 1 of 1 byte
see y
error 3 loads: 2 sent, 1 in error
";
    assert_eq!(rig("clash -", file), expected);
}

#[test]
fn the_old_form() {
    let cases = [
        ("load x y", "line 1: load x: expected load NAME, one word, not 'y': a title needs a boards line"),
        (
            "load x\nboard power 50",
            "line 2: load x: expected bytes of one or two hexadecimal digits, not 'power'",
        ),
        ("load x\nboard 100", "line 2: load x: expected bytes of one or two hexadecimal digits, not '100'"),
        ("load x\nend 1", "line 2: load x: expected load, board or ack, not 'end'"),
        ("load x\nboards q", "line 2: load x: boards must stand before the first load"),
    ];
    for (file, words) in cases {
        assert_eq!(wrong(file), [words], "{file}");
    }
    let answer = answer(&[b"clash".to_vec(), b"-".to_vec()], &mut &b"load x\nboard 50\nload x\nboard 50"[..]);
    assert_eq!(answer.notes, b"rig: standard input: no boards line, so boards are numbered by their rows\n");
    assert!(answer.output.ends_with(b"\nok 2 loads: 2 sent, 2 without an ack line\n"));
}

#[test]
fn several_files() {
    let folder = env!("CARGO_MANIFEST_DIR");
    let output = rig(&format!("clash - {folder} /none"), "boards q\nload x\nboard q 50\nack 1\nend 1\n");
    let expected = format!(
        "file -\nload x\n  WON    0 q  50                       CUT after 1 of 1 byte: byte 0 (50) not acknowledged\n\
         file {folder}\n! cannot read {folder}: it is a directory\n\
         file /none\n! cannot open /none: no such file\n\
         see x\n\
         error 1 load: 1 cut, 2 faults outside the loads\n"
    );
    assert_eq!(output, expected);
}

#[test]
fn the_most_loads() {
    let file = |loads: usize| {
        let lines: String = (0..loads).map(|load| format!("load n{load}\nboard q 50\nack all\n")).collect();
        format!("boards q\n{lines}end {loads}\n")
    };
    assert_eq!(last("clash -", file(4096)), "ok 4096 loads: 4096 sent");
    assert_eq!(wrong(&file(4097)), ["line 12290: more than 4096 loads; the rest of the file is not read"]);
    assert_eq!(last("clash -", file(4097)), "error 4096 loads: 4096 sent, 1 fault outside the loads");
}
