//! `rig night`: rounds in the block of a load, what is expected of them, and each refusal with its boards and lines.

use super::{rig, NIGHT, SIXTEEN};
use rehearsal_model::arbitration::{Message, Request};
use rehearsal_model::compare::night::draw_night;
use rehearsal_model::night::{check, prediction};
use rehearsal_model::random::Random;
use rehearsal_model::rig::answer;
use std::fs::write;
use std::thread::current;

/// The name of examples/FILE.
fn example(file: &str) -> String {
    format!("{}/../examples/{file}", env!("CARGO_MANIFEST_DIR"))
}

/// The output for one load with boards p, q, r, without its first and last lines.
fn load(lines: &str) -> String {
    let output = rig("night -", format!("boards p q r\nload x\n{lines}\nend 1\n"));
    let rest = output.strip_prefix("load x\n").unwrap_or(&output);
    let lines: Vec<&str> = rest.lines().filter(|line| !line.starts_with("see ")).collect();
    lines[..lines.len() - 1].join("\n")
}

/// A file of the test's own.
fn file(name: &str, text: &str) -> String {
    let thread = format!("{:?}", current().id()).replace(['(', ')'], "");
    let file = format!("{}/{name}.{thread}", env!("CARGO_TARGET_TMPDIR"));
    write(&file, text).unwrap();
    file
}

/// By hand. p8: 90 0F is below 90 12. together: 80 is below 82, and each is the message of two boards. parts: 50 24 is
/// below 50 26, and both below 62. refused-16: 02 is the least and parts from both others at a byte, but memory's 04
/// ends where power's goes on. unexpected: thermal is carried in round 1.
#[test]
fn the_example_of_nights() {
    let expected = "\
load p8 two boards
  round 1  90 0F                    sent by 1 thermal
  round 2  90 12                    sent by 0 power
  silent 2 radio
  silent 3 memory
load together equal messages finish together
  round 1  80 00                    sent by 1 thermal, 3 memory
  round 2  82 00                    sent by 0 power, 2 radio
load parts a message in two parts waits with both
  round 1  50 24 07                 sent by 1 thermal
  round 2  50 26 / 52 00            sent by 0 power
  round 3  62 00                    sent by 2 radio
  silent 3 memory
  note: no ack line, rehearsed as all acknowledged
load refused-43 a byte that nobody acknowledges
  refused 43: acknowledge 1 (line 30) is 1, and in a night every byte is acknowledged
load refused-16 two that are not the least
  refused 16: memory (line 36) ends with 04, acknowledged, where power (line 33) goes on with 01
load unexpected power waits for thermal
  round 1  90 0F                    sent by 1 thermal
  round 2  90 12                    sent by 0 power
  silent 2 radio
  silent 3 memory
  NOT AS EXPECTED: line 45 expects power 2/2
see refused-43 refused-16 unexpected
refused 43: 6 loads: 3 sent, 1 not as expected, 2 refused, 1 without an ack line
";
    assert_eq!(rig(&format!("night {}", example("rounds.loads")), ""), expected);
}

/// The block that docs/RIG.md shows.
#[test]
fn the_block_of_the_page() {
    let output = rig(
        "night -",
        "boards first second third fourth\nload again three boards and a silent one\n\
        board first 82 00\nboard second 80 00\nboard third 82 00\nboard fourth -\nack all\nend 1\n",
    );
    let expected = "\
load again three boards and a silent one
  round 1  80 00                    sent by 1 second
  round 2  82 00                    sent by 0 first, 2 third
  silent 3 fourth
ok 1 load: 1 sent
";
    assert_eq!(output, expected);
}

/// So many boards of the sixteen send a byte each, the later the smaller; the others are silent.
fn falling(rounds: usize) -> String {
    let message =
        |place: usize| if place < rounds { format!("{:02X}", 2 * (rounds - place)) } else { "-".into() };
    let lines: String = SIXTEEN
        .iter()
        .enumerate()
        .map(|(place, name)| format!("board {name} {}\n", message(place)))
        .collect();
    rig("night -", format!("boards {}\nload x\n{lines}ack 0\nend 1\n", SIXTEEN.join(" ")))
}

#[test]
fn from_ten_rounds_on_their_numbers_stand_in_two_columns() {
    let expected = "\
load x
  round 1  02                       sent by 8 y
  round 2  04                       sent by 7 x
  round 3  06                       sent by 6 w
  round 4  08                       sent by 5 v
  round 5  0A                       sent by 4 u
  round 6  0C                       sent by 3 t
  round 7  0E                       sent by 2 s
  round 8  10                       sent by 1 r
  round 9  12                       sent by 0 q
  silent  9 z
  silent 10 qq
  silent 11 rr
  silent 12 ss
  silent 13 tt
  silent 14 uu
  silent 15 vv
ok 1 load: 1 sent
";
    assert_eq!(falling(9), expected);
    let expected = "\
load x
  round  1  02                       sent by 10 qq
  round  2  04                       sent by 9 z
  round  3  06                       sent by 8 y
  round  4  08                       sent by 7 x
  round  5  0A                       sent by 6 w
  round  6  0C                       sent by 5 v
  round  7  0E                       sent by 4 u
  round  8  10                       sent by 3 t
  round  9  12                       sent by 2 s
  round 10  14                       sent by 1 r
  round 11  16                       sent by 0 q
  silent 11 rr
";
    assert!(falling(11).starts_with(expected), "{}", falling(11));
    assert!(falling(10).starts_with("load x\n  round  1  02                       sent by 9 z\n"));
    let sixteen = falling(16);
    assert!(sixteen.contains("\n  round 16  20                       sent by 0 q\nok 1 load: 1 sent\n"));
}

/// Ten boards or more in one round are one round.
#[test]
fn many_boards_in_one_round() {
    let output = rig("night -", format!("load x\n{}", "board 90\n".repeat(16)));
    let expected = "\
load x
  round 1  90                       sent by 0, 1, 2, 3, 4, 5, 6, 7, 8, 9, 10, 11, 12, 13, 14, 15
  note: no ack line, rehearsed as all acknowledged
ok 1 load: 1 sent, 1 without an ack line
";
    assert_eq!(output, expected);
}

#[test]
fn the_old_form() {
    let loads =
        "load x\nboard 90 12\nboard 2 F / 4\nboard 90 12\nack 0 0 0\nload y\nload z\nboard 90\nboard 90 0";
    let answer = answer(&[b"night".to_vec(), b"-".to_vec()], &mut loads.as_bytes());
    let expected = "\
load x
  round 1  02 0F / 04               sent by 1
  round 2  90 12                    sent by 0, 2
load y
  refused 12: no board
load z
  refused 16: board 0 (line 8) ends with 90, acknowledged, where board 1 (line 9) goes on with 00
see y z
refused 12: 3 loads: 1 sent, 2 refused
";
    assert_eq!(String::from_utf8(answer.output).unwrap(), expected);
    let note = "rig: standard input: no boards line, so boards are numbered by their rows\n";
    assert_eq!(String::from_utf8(answer.notes).unwrap(), note);
}

/// A message longer than its column, and one in parts: an ending is smaller than any byte, but here all part at bytes.
#[test]
fn long_messages_and_parts() {
    let long = ["50"; 9].join(" ");
    let expected = format!(
        "  round 1  50 26 / 52 / 54 00       sent by 1 q\n  \
        round 2  50 26 / 52 / 54 01       sent by 0 p\n  round 3  {long}  sent by 2 r"
    );
    let lines = format!("board p 50 26 / 52 / 54 01\nboard q 50 26 / 52 / 54 00\nboard r {long}\nack all");
    assert_eq!(load(&lines), expected);
}

/// Corrections over a night from standard input.
fn corrected(corrections: &str) -> String {
    rig(&format!("night --corrections {} -", file("night", corrections)), NIGHT)
}

#[test]
fn corrections_in_a_night() {
    let expected = "\
load x first
  corrected 0 p, 2 r
  round 1  48 / 02                  sent by 0 p
  round 2  50 26 FF                 sent by 1 q, 2 r
load y
  corrected 0 p, 1 q
  round 1  50 00                    sent by 1 q
  round 2  90 00                    sent by 2 r
  silent 0 p
  NOT AS EXPECTED: line 12 expects p 1/1
see y
look 2 loads: 1 sent, 1 not as expected, 2 corrected
";
    let corrections = "load x\nboard r 50 26 FF\nboard p 48 / 02\nload y\nboard p -\nboard q 50 00\nend 2\n";
    assert_eq!(corrected(corrections), expected);
    let uncorrected = "\
load x first
  refused 16: p (line 3) ends with 50 26, acknowledged, where q (line 4) goes on with FF
load y
  round 1  62                       sent by 0 p
  round 2  90 00                    sent by 2 r
  silent 1 q
see x
refused 16: 2 loads: 1 sent, 1 refused
";
    assert_eq!(corrected("end 0\n"), uncorrected);
}

#[test]
fn corrections_that_are_refused_or_wrong() {
    let output = corrected("load x\nboard p -\nboard q -\nload y\nboard p 62 01 02\nend 2\n");
    let expected = "\
load x first
  corrected 0 p, 1 q
  refused 12: every board is silent
load y
  corrected 0 p
  refused 15: 2 acknowledges (line 11) for the 3 bytes of p (line 8), the longest
see x y
refused 12: 2 loads: 2 refused, 2 corrected
";
    assert_eq!(output, expected);
    let expected =
        "! corrections line 2: expected bytes of two hexadecimal digits, not '5'; nothing is rehearsed\n\
        error 0 loads: 1 fault outside the loads\n";
    assert_eq!(corrected("load x\nboard p 5\nend 1\n"), expected);
    let output = corrected("load x\nboard p -\nload z\nboard p -\nend 2\n");
    let expected = "! corrections line 3: load z is in none of the files\n\
        error 2 loads: 2 sent, 1 corrected, 1 fault outside the loads\n";
    assert!(output.ends_with(expected), "{output}");
}

#[test]
fn refusals_name_boards_lines_and_counts() {
    let long = format!("board p 50\nboard q {}\nboard r -", "50 ".repeat(65));
    let cases = [
        ("board p -\nboard q -\nboard r -", "12: every board is silent"),
        ("board p 50\nboard q\nboard r -", "13: q (line 4) has no bytes"),
        (&long, "13: q (line 4) has 65 bytes, and at most 64 may be sent"),
        ("board p 50\nboard q -\nboard r 91 00", "14: r (line 5) begins with 91, which is odd, a read"),
        ("board p 50\nboard q -\nboard r 90 / 91", "14: r (line 5) restarts with 91, which is odd, a read"),
        (
            "board p 50\nboard q 60 00\nboard r 70 00\nack 1",
            "15: 1 acknowledge (line 6) for the 2 bytes of q (line 4), the longest",
        ),
        ("board p 50 00\nboard q -\nboard r -\nack 1 7", "15: acknowledge 1 (line 6) is 7, neither 0 nor 1"),
        (
            "ack 0 0 1 1\nboard p 50 26 27 28\nboard q 00\nboard r 02",
            "43: acknowledge 2 (line 3) is 1, and in a night every byte is acknowledged",
        ),
    ];
    for (lines, words) in cases {
        assert_eq!(load(lines), format!("  refused {words}"));
    }
    let boards = rig("night -", format!("load x\n{}", "board 90\n".repeat(17)));
    assert!(boards.contains("\n  refused 12: 17 boards, and at most 16 may start together\n"), "{boards}");
}

/// 43 before 16, and after 15; also where the byte is the last of the longest message, or the least has no such byte.
#[test]
fn the_order_of_the_refusals() {
    let refused = |messages: [&str; 3], acks: &str| {
        let [p, q, r] = messages;
        let output = load(&format!("board p {p}\nboard q {q}\nboard r {r}\nack {acks}"));
        output.split_once(':').unwrap().0.to_string()
    };
    assert_eq!(refused(["-", "91", "-"], "2"), "  refused 14");
    assert_eq!(refused(["50", "50 26", "-"], "1"), "  refused 15");
    assert_eq!(refused(["50", "50 26", "-"], "1 2"), "  refused 15");
    assert_eq!(refused(["50", "50 26", "-"], "0 1"), "  refused 43");
    assert_eq!(refused(["50", "50 26", "-"], "0 0"), "  refused 16");
    assert_eq!(refused(["00", "50 26", "-"], "0 1"), "  refused 43");
}

/// The three pairs of 16: what ends, restarts or goes on where the two part, whichever board comes first.
#[test]
fn what_two_boards_do_where_they_part() {
    let cases = [
        ("50 26", "50 26 07", "p (line 3) ends with 50 26, acknowledged, where q (line 4) goes on with 07"),
        ("50 26 / 52", "50 26", "p (line 3) restarts after 50 26, acknowledged, where q (line 4) ends"),
        (
            "50 26 / 52",
            "50 26 07",
            "p (line 3) restarts after 50 26, acknowledged, where q (line 4) goes on with 07",
        ),
        (
            "50 / 52",
            "50 / 52 07",
            "p (line 3) ends with 50 / 52, acknowledged, where q (line 4) goes on with 07",
        ),
        ("50 / 52 / 54", "50 / 52", "p (line 3) restarts after 50 / 52, acknowledged, where q (line 4) ends"),
    ];
    for (smaller, greater, words) in cases {
        let output = load(&format!("board p {smaller}\nboard q {greater}\nboard r -\nack all"));
        assert_eq!(output, format!("  refused 16: {words}"));
        let exchanged = load(&format!("board q {smaller}\nboard p {greater}\nboard r 00\nack all"));
        let words = words.replace("p (", "P (").replace("q (", "p (").replace("P (", "q (");
        assert_eq!(exchanged, format!("  refused 16: {words}"), "exchanged");
    }
}

/// The first board that ends or restarts where a greater message does not, least or not; then the first such message.
#[test]
fn the_boards_that_are_named() {
    let named = |messages: [&str; 3]| {
        let [p, q, r] = messages;
        load(&format!("board r {r}\nboard q {q}\nboard p {p}\nack all"))
    };
    let refused = "  refused 16: ";
    let words = "q (line 4) ends with 04, acknowledged, where p (line 5) goes on with 01";
    assert_eq!(named(["04 01", "04", "02"]), format!("{refused}{words}"));
    let words = "p (line 5) ends with 04, acknowledged, where q (line 4) goes on with 02";
    assert_eq!(named(["04", "04 02", "04 01"]), format!("{refused}{words}"));
    let words = "p (line 5) ends with 04, acknowledged, where r (line 3) goes on with 01";
    assert_eq!(named(["04", "04 / 02", "04 01"]), format!("{refused}{words}"));
    let words = "q (line 4) restarts after 04, acknowledged, where p (line 5) goes on with 01";
    assert_eq!(named(["04 01", "04 / 02", "04"]), format!("{refused}{words}"));
    let words = "p (line 5) restarts after 04 / 06, acknowledged, where q (line 4) ends";
    assert_eq!(named(["04 / 06 / 08", "04 / 06", "04"]), format!("{refused}{words}"));
}

#[test]
fn what_is_expected() {
    let base = "board p 50 26\nboard q 90\nboard r -\nack all\n";
    let expect = |words: &str| load(&format!("{base}expect {words}"));
    let rounds = "  round 1  50 26                    sent by 0 p\n  \
        round 2  90                       sent by 1 q\n  silent 2 r";
    assert_eq!(expect("p 2/2"), rounds);
    for words in ["q 1/1", "p 1/2", "p 2/3", "p 1/1", "r 2/2", "r 0/0", "p 18446744073709551615/2"] {
        let note = format!("  NOT AS EXPECTED: line 7 expects {words}");
        assert_eq!(expect(words), format!("{rounds}\n{note}"), "{words}");
    }
    let both = load("board p 50\nboard q 90 00\nboard r 50\nexpect r 1/1");
    let expected = "  round 1  50                       sent by 0 p, 2 r\n  \
        round 2  90 00                    sent by 1 q\n  note: no ack line, rehearsed as all acknowledged";
    assert_eq!(both, expected);
    let neither = load("board p 50\nboard q 90 00\nboard r 50\nexpect q 2/2");
    assert_eq!(neither, format!("{expected}\n  NOT AS EXPECTED: line 6 expects q 2/2"));
}

#[test]
fn several_files_and_what_is_wrong_in_them() {
    let p8 =
        file("p8", "boards first second\nload p8\nboard first 90 12\nboard second 90 0F\nack all\nend 1\n");
    let wrong = "boards p\nload a\nbord p 90\nload b\nboard p 90\nack 1\nend 3\n";
    let output = rig(&format!("night {p8} none -"), wrong);
    let expected = format!(
        "file {p8}
load p8
  round 1  90 0F                    sent by 1 second
  round 2  90 12                    sent by 0 first
file none
! cannot open none: no such file
file -
! line 3: load a: expected load, board, ack, expect or end, not 'bord'
load a
  ERROR: not rehearsed
load b
  refused 43: acknowledge 0 (line 6) is 1, and in a night every byte is acknowledged
! line 7: end says 3, and the file has 2 loads, the last from line 4
see a b
error 3 loads: 1 sent, 1 refused, 1 in error, 2 faults outside the loads
"
    );
    assert_eq!(output, expected);
}

#[test]
fn options_and_files() {
    for option in ["--table", "--registers", "--wave", "--trace", "--room", "--standard", "--fast", "--brief"]
    {
        let expected = format!("error unknown option '{option}' for night\n");
        assert_eq!(rig(&format!("night - {option} 5"), ""), expected);
        assert_eq!(rig(&format!("night {option}"), ""), expected);
    }
    let cases = [
        ("night", "expected a file, or - for standard input"),
        ("night --corrections x", "expected a file, or - for standard input"),
        ("night - --corrections", "expected a file after --corrections"),
        ("night - --corrections -", "- stands twice: standard input is read once"),
        ("night - x -", "- stands twice: standard input is read once"),
    ];
    for (arguments, words) in cases {
        assert_eq!(rig(arguments, ""), format!("error {words}\n"), "{arguments}");
    }
}

/// A load of so many boards in the old form, and its block as the order of the messages alone tells it.
fn predicted(messages: &[Message]) -> (String, String) {
    let (count, rounds) = prediction(messages);
    let text = |message: &Message| {
        let part =
            |part: &Vec<u8>| part.iter().map(|byte| format!("{byte:02X}")).collect::<Vec<_>>().join(" ");
        message.parts.iter().map(part).collect::<Vec<_>>().join(" / ")
    };
    let input = messages
        .iter()
        .fold("load x\n".to_string(), |lines, message| lines + &format!("board {}\n", text(message)));
    let columns = if count < 10 { 1 } else { 2 };
    let mut block = "load x\n".to_string();
    for round in 1..=count {
        let carried: Vec<usize> =
            (0..messages.len()).filter(|&board| rounds[board] as usize == round).collect();
        let boards = carried.iter().map(|board| board.to_string()).collect::<Vec<_>>().join(", ");
        let message = text(&messages[carried[0]]);
        block += &format!("  round {round:columns$}  {message:23}  sent by {boards}\n");
    }
    (input + "ack all\n", block + "ok 1 load: 1 sent\n")
}

#[test]
fn rounds_are_those_that_the_order_of_the_messages_tells() {
    let mut random = Random::new(14);
    let (mut nights, mut long) = (0, 0);
    for _ in 0..6_000 {
        let Request { messages, acks } = draw_night(&mut random);
        let acks = vec![0; acks.len()];
        if check(&Request { messages: messages.clone(), acks }).is_err() {
            continue;
        }
        let (input, expected) = predicted(&messages);
        assert_eq!(rig("night -", &input), expected, "{input}");
        nights += 1;
        long += usize::from(expected.contains("\n  round 10 "));
    }
    assert!(nights > 3_000 && long > 300, "{nights} nights, {long} of ten rounds or more");
}
