//! `rig clash` with repeated STARTs: how messages of several parts are written, shown, cut and refused.

use super::rig;

/// The output for one load with boards p, q, r, without its first and last lines.
fn load(options: &str, lines: &str) -> String {
    let output = rig(&format!("clash - {options}"), format!("boards p q r\nload x\n{lines}\nend 1\n"));
    let rest = output.strip_prefix("load x\n").unwrap_or(&output);
    let lines: Vec<&str> = rest.lines().filter(|line| !line.starts_with("see ")).collect();
    lines[..lines.len() - 1].join("\n")
}

/// The verdict of its row.
fn row(lines: &str) -> String {
    load("--table", lines).lines().last().unwrap()[44..].to_string()
}

#[test]
fn a_slash_between_parts() {
    let expected = "  WON    0 p  50 26 / 52 00            sent 4 of 4 bytes\n  \
        lost   1 q  50 27 / 52 00            byte 1 bit 7: sends 1, the bus is 0; 4 bytes still to send\n  \
        silent 2 r";
    assert_eq!(load("", "board p 50 26 / 52 00\nboard q 50 27\t/\t52 00\nboard r -\nack all"), expected);
    let numbered = rig("clash -", "load x\nboard 50 26 / 2 0\n");
    assert!(numbered.starts_with("load x\n  WON    0  50 26 / 02 00            sent 4 of 4 bytes\n"));
    let empty = rig("clash -", "load x\nboard 50 /\n");
    assert!(empty.starts_with("! line 2: load x: / needs a byte before it and one after it\n"), "{empty}");
}

#[test]
fn the_bytes_not_sent_are_in_their_parts() {
    let cut = |acks: &str| {
        let output = load("", &format!("board p 50 / 52 00 / 54\nboard q -\nboard r -\nack {acks}"));
        let (_, fate) = output.lines().next().unwrap().split_once("54  ").unwrap();
        fate.trim_start().to_string()
    };
    assert_eq!(cut("0 0 0 0"), "sent 4 of 4 bytes");
    assert_eq!(cut("1 0 0 0"), "CUT after 1 of 4 bytes: byte 0 (50) not acknowledged; 52 00 / 54 not sent");
    assert_eq!(cut("0 1 0 0"), "CUT after 2 of 4 bytes: byte 1 (52) not acknowledged; 00 / 54 not sent");
    assert_eq!(cut("0 0 1 0"), "CUT after 3 of 4 bytes: byte 2 (00) not acknowledged; 54 not sent");
    assert_eq!(cut("0 0 0 1"), "CUT after 4 of 4 bytes: byte 3 (54) not acknowledged");
}

#[test]
fn the_bus_with_a_restart() {
    let wave = |acks: &str| load("--wave", &format!("board p 50 / 52\nboard q -\nboard r -\nack {acks}"));
    assert!(wave("0 0").contains("\n  carried 50 ACK / 52 ACK\n"), "{}", wave("0 0"));
    assert!(wave("1 0").contains("\n  carried 50 NACK\n"));
    assert!(wave("0 1").contains("\n  carried 50 ACK / 52 NACK\n"));
    let trace = rig("clash - --trace x", "boards p\nload x\nboard p 50 / 52\nack all\nend 1\n");
    let drawn = rig("encode", "START\n50 ACK\nrepeated START\n52 ACK\nSTOP\n");
    let samples = drawn.strip_suffix("ok 44 samples\n").unwrap();
    assert_eq!(trace, format!("{samples}ok 1 load: 1 sent\n"));
}

#[test]
fn refusals_of_parts() {
    let cases = [
        (
            "50 26",
            "50 26 / 53",
            "14: q (line 4) restarts with 53, which is odd, a read",
            "q restarts with 53",
        ),
        ("50 26", "51 / 53", "14: q (line 4) begins with 51, which is odd, a read", "q begins with 51"),
        (
            "50 26 / 52",
            "50 26",
            "16: p (line 3) restarts after 50 26, acknowledged, where q (line 4) ends",
            "q begins p",
        ),
        (
            "50 26 52",
            "50 26 / 52",
            "16: q (line 4) restarts after 50 26, acknowledged, where p (line 3) goes on with 52",
            "q restarts in p",
        ),
        (
            "50 / 26",
            "50 / 26 52",
            "16: p (line 3) ends with 50 / 26, acknowledged, where q (line 4) goes on with 52",
            "p begins q",
        ),
        (
            "50 / 26 / 52",
            "50 / 26",
            "16: p (line 3) restarts after 50 / 26, acknowledged, where q (line 4) ends",
            "q begins p",
        ),
    ];
    for (first, second, block, verdict) in cases {
        let lines = format!("board p {first}\nboard q {second}\nboard r -\nack all");
        assert_eq!(load("", &lines), format!("  refused {block}"));
        let number = &block[..2];
        assert_eq!(row(&lines), format!("REFUSED {number}: {verdict}"));
    }
}

/// The board named is the first whose message parts from the least at an ending, every byte before it acknowledged.
#[test]
fn the_board_that_is_named() {
    let lines = "board p 50 / 52 / 54\nboard q 50 / 52 54\nboard r 50 52 54\n";
    let named = |acks: &str| load("", &format!("{lines}ack {acks}"));
    let words = "  refused 16: p (line 3) restarts after";
    assert_eq!(named("0 0 0"), format!("{words} 50 / 52, acknowledged, where q (line 4) goes on with 54"));
    assert_eq!(named("0 1 0"), format!("{words} 50, acknowledged, where r (line 5) goes on with 52"));
    let stopped = "  UNDECIDED between 0, 1, 2: the bus stopped after byte 0 (50), before they differ; ";
    assert!(named("1 0 0").starts_with(stopped));
}

#[test]
fn restarts_are_no_bytes() {
    let lines = "board p 50 / 52\nboard q -\nboard r -\n";
    let short = load("", &format!("{lines}ack 0 0 0"));
    assert_eq!(short, "  refused 15: 3 acknowledges (line 6) for the 2 bytes of p (line 3), the longest");
    assert!(!load("", &format!("{lines}ack all\nexpect p 2/2")).contains("EXPECTED"));
    let many = |count: usize| format!("board p {}\nboard q -\nboard r -", vec!["50"; count].join(" / "));
    assert!(load("", &many(64)).contains("  sent 64 of 64 bytes\n"));
    assert_eq!(load("", &many(65)), "  refused 13: p (line 3) has 65 bytes, and at most 64 may be sent");
    assert_eq!(load("--room 1345", &many(64)), "  refused 8: the reply needs more room than was lent");
    assert!(load("--room 1346", &many(64)).contains("  sent 64 of 64 bytes\n"));
}
