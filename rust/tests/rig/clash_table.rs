//! `rig clash --table`: columns, marks, and the last two lines.

use super::rig;

/// The rows for these loads of boards a-board, b-board, attitude, without the header.
fn rows(loads: &str) -> Vec<String> {
    let count = loads.lines().filter(|line| line.starts_with("load")).count();
    let output = rig("clash - --table", format!("boards a-board b-board attitude\n{loads}\nend {count}\n"));
    let rows: Vec<String> = output.lines().map(str::to_string).collect();
    assert_eq!(rows[0], "  load       title          winner    bytes verdict");
    assert!(rows.iter().all(|row| row.len() <= 80), "{output}");
    rows[1..].to_vec()
}

/// The row of a load with these boards and this ack line.
fn row(a: &str, b: &str, attitude: &str, rest: &str) -> String {
    rows(&format!("load x\nboard a-board {a}\nboard b-board {b}\nboard attitude {attitude}\n{rest}"))[0]
        .clone()
}

/// The rows of loads that nobody wins begin so.
const NOBODY: &str = "! x                         -             - ";

#[test]
fn verdicts_with_a_winner() {
    let won = |mark: &str, winner: &str, verdict: &str| {
        format!("{mark} x                         {winner} {verdict}")
    };
    let cases = [
        (row("50", "52", "-", "ack all"), won(" ", "a-board     1/1", "sent")),
        (row("50", "52", "-", ""), won(" ", "a-board     1/1", "sent, no ack line")),
        (row("50", "50", "60", "ack all"), won(" ", "a-board,~   1/1", "sent")),
        (
            row("-", "60", "50 11 22 33", "ack 0 0 1 0"),
            won("!", "attitude    3/4", "CUT at byte 2 (22), 1 not sent"),
        ),
        (
            row("-", "60", "50 11 22 33", "ack 0 0 0 1"),
            won("!", "attitude    4/4", "CUT at byte 3 (33), the last"),
        ),
        (
            row("50", "-", "60", "ack all\nexpect attitude 1/1"),
            won("!", "a-board     1/1", "EXPECTED attitude 1/1"),
        ),
        (
            row("50 12", "-", "60", "ack 0 1\nexpect attitude 1/1"),
            won("!", "a-board     2/2", "EXPECTED attitude 1/1, CUT at byte ~"),
        ),
    ];
    for (row, expected) in cases {
        assert_eq!(row, expected);
    }
}

#[test]
fn verdicts_without_a_winner() {
    let long = "50 ".repeat(65);
    let cases = [
        (row("-", "50 12", "50 11", "ack 1 0"), "UNDECIDED at byte 0: b-board, attit~"),
        (row("-", "-", "-", ""), "REFUSED 12: every board is silent"),
        (row("", "-", "-", ""), "REFUSED 13: a-board has no bytes"),
        (row(&long, "-", "-", ""), "REFUSED 13: a-board has 65 bytes"),
        (row("51", "-", "-", ""), "REFUSED 14: a-board begins with 51"),
        (row("50", "-", "-", "ack 0 0"), "REFUSED 15: 2 acknowledges for 1"),
        (row("50", "-", "-", "ack 2"), "REFUSED 15: acknowledge 0 is 2"),
        (row("50", "-", "50 11", "ack all"), "REFUSED 16: a-board begins attitude"),
    ];
    for (row, verdict) in cases {
        assert_eq!(row, format!("{NOBODY}{verdict}"));
    }
    let error = rows("load x\nboard a-board 5\nboard b-board -\nboard attitude -")[1].clone();
    assert_eq!(error, format!("{NOBODY}ERROR: not rehearsed"));
}

#[test]
fn the_old_form() {
    let sent = "load x\nboard 50\nboard 50\nboard 60\n";
    let refused = "load y\nboard 50\nboard 50 1\n";
    let undecided = "load z\nboard 50\nboard 60 1\nboard 50 0\nack 1 0";
    let table = rig("clash --table -", format!("{sent}{refused}{undecided}"));
    let expected = "  load       title          winner    bytes verdict\n\
        \x20 x                         0,1         1/1 sent, no ack line\n\
        ! y                         -             - REFUSED 16: board 0 begins board 1\n\
        ! z                         -             - UNDECIDED at byte 0: 0, 2\n";
    assert!(table.starts_with(expected), "{table}");
    assert!(table
        .ends_with("see y z\nrefused 16: 3 loads: 1 sent, 1 undecided, 1 refused, 1 without an ack line\n"));
}

#[test]
fn names_and_titles_share_their_columns() {
    let heading = |words: &str| {
        let row =
            rows(&format!("load {words}\nboard a-board 50\nboard b-board -\nboard attitude -\nack all"))[0]
                .clone();
        row[2..28].to_string()
    };
    assert_eq!(heading("ten-bytes- a   title"), "ten-bytes- a title        ");
    assert_eq!(heading("eleven-byte and more title"), "eleven-byte and more tit~ ");
    assert_eq!(heading(&"n".repeat(25)), "n".repeat(25) + " ");
    assert_eq!(heading(&"n".repeat(26)), "n".repeat(24) + "~ ");
    assert_eq!(heading("x fourteen-bytes"), "x          fourteen-bytes ");
    assert_eq!(heading("x fifteen-bytes-t"), "x          fifteen-bytes~ ");
}

#[test]
fn the_names_to_look_at() {
    let cut = |names: &[String]| {
        let load = |name: &String| format!("load {name}\nboard q 50\nack 1\n");
        let loads: String = names.iter().map(load).collect();
        let output = rig("clash - --table", format!("boards q\n{loads}end {}", names.len()));
        output.lines().rev().nth(1).unwrap().to_string()
    };
    let names: Vec<String> = (1..=8).map(|number| format!("upload-{number:02}")).collect();
    assert_eq!(cut(&names[..6]), "see upload-01 upload-02 upload-03 upload-04 upload-05 upload-06");
    assert_eq!(cut(&names), "see upload-01 upload-02 upload-03 upload-04 upload-05 upload-06 and 2 more");
    let uneven = ["a".repeat(32), "b".repeat(27), "c".to_string()];
    assert_eq!(cut(&uneven), format!("see {} and 2 more", uneven[0]));
    assert_eq!(cut(&["a".repeat(32), "b".repeat(26)]), format!("see {} {}", "a".repeat(32), "b".repeat(26)));
}
