//! `rig clash`: the worked numbers P8 to P12 as loads, each verdict, and each refusal with its boards and lines.

use super::{rig, P8_WAVE, SIXTEEN};

const WORKED: &str = "# worked numbers\nboards first second third\n\
    load p8 two boards\nboard first 90 12\nboard second 90 0F\nboard third -\nack 0 0\n\
    load p9\nboard third -\nboard second 90 0F\nboard first 90 12\nack 1 0\n\
    load p10\nboard first 90\nboard second 90 00\nboard third -\nack 0 0\n\
    load p11\nboard first 90\nboard second 90 00\nboard third -\nack 1 0\n\
    load p12\nboard first 90\nboard second 90 00\nboard third 50\nack 0 0\n\
    end 5\n";

const P8: &str = "\
load p8 two boards
  WON    1 second  90 0F                    sent 2 of 2 bytes
  lost   0 first   90 12                    byte 1 bit 3: sends 1, the bus is 0; 2 bytes still to send
  silent 2 third
";

const P9: &str = "\
load p9
  UNDECIDED between 0, 1: the bus stopped after byte 0 (90), before they differ; nothing was sent whole
  in     0 first   90 12                    1 of 2 bytes carried
  in     1 second  90 0F                    1 of 2 bytes carried
  silent 2 third
";

const P10: &str = "\
load p10
  refused 16: first (line 14) ends with 90, acknowledged, where second (line 15) goes on with 00
";

const P11: &str = "\
load p11
  UNDECIDED between 0, 1: the bus stopped after byte 0 (90), before they differ; nothing was sent whole
  in     0 first   90                       1 of 1 byte carried
  in     1 second  90 00                    1 of 2 bytes carried
  silent 2 third
";

const P12: &str = "\
load p12
  WON    2 third   50                       sent 1 of 1 byte
  lost   0 first   90                       byte 0 bit 0: sends 1, the bus is 0; 1 byte still to send
  lost   1 second  90 00                    byte 0 bit 0: sends 1, the bus is 0; 2 bytes still to send
";

const LAST: &str = "see p9 p10 p11\nrefused 16: 5 loads: 2 sent, 2 undecided, 1 refused\n";

/// The final registers of P8, the loser's and the winner's.
fn p8_registers() -> String {
    let lost = "USICTL0=C0 PE7 PE6, USICTL1=4D I2C AL STP IFG, USICKCTL=22 DIV=1 SSEL=0 CKPL, ";
    let won = "USICTL0=C8 PE7 PE6 MST, USICTL1=45 I2C STP IFG, USICKCTL=22 DIV=1 SSEL=0 CKPL, ";
    let (lost, won) = (format!("{lost}USICNT=80 SCLREL CNT=0"), format!("{won}USICNT=00 CNT=0"));
    let first = format!("  regs   0 first   {lost}, USISRL=0F, USISRH=00, cleared STTIFG IFG\n");
    format!("{first}  regs   1 second  {won}, USISRL=FF, USISRH=00, cleared STTIFG IFG\n")
}

/// The output for one load with boards p, q, r, without its first and last lines.
fn load(lines: &str) -> String {
    let output = rig("clash -", format!("boards p q r\nload x\n{lines}\nend 1\n"));
    let rest = output.strip_prefix("load x\n").unwrap_or(&output);
    let lines: Vec<&str> = rest.lines().filter(|line| !line.starts_with("see ")).collect();
    lines[..lines.len() - 1].join("\n")
}

#[test]
fn worked_numbers() {
    assert_eq!(rig("clash -", WORKED), [P8, P9, P10, P11, P12, LAST].concat());
    assert_eq!(rig("clash -", WORKED.replace('\n', "\r\n")), [P8, P9, P10, P11, P12, LAST].concat());
}

#[test]
fn registers_and_wave() {
    let output = rig("clash - --wave --registers", WORKED);
    assert!(output.starts_with(&format!("{P8}{}{P8_WAVE}{P9}", p8_registers())), "{output}");
    assert!(output.contains("\n  carried 90 NACK\n"));
    assert!(!rig("clash - --registers", WORKED).contains("carried 90 ACK"));
    assert!(!rig("clash - --wave", WORKED).contains("USICTL0"));
}

#[test]
fn one_board_alone_draws_p7() {
    let output = rig("clash - --wave", "boards p\nload one\nboard p a0\nack all\nend 1");
    assert!(output.contains("\n  scl     \"\"\\/\\/\\/\\/\\/\\/\\/\\/\\/\\/\"\n"), "{output}");
    assert!(output.contains("\n  sda     \"\\/\"\\./\"\\............./\n"), "{output}");
    assert!(output.ends_with("\nok 1 load: 1 sent\n"));
}

#[test]
fn the_trace_of_a_load() {
    let night =
        "boards p q\nload one\nboard p a0\nboard q -\nack all\nload two\nboard p 50\nboard q 50 22\nend 2\n";
    let drawn = rig("encode", "512 160 514");
    let samples = drawn.strip_suffix("ok 23 samples\n").unwrap();
    assert_eq!(rig("clash - --trace one", night), format!("{samples}ok 1 load: 1 sent\n"));
    assert_eq!(rig("clash - --trace two", night), "refused 16: 1 load: 1 refused\n");
    let expected = "! no load 'three' in the files\nerror 0 loads: 1 fault outside the loads\n";
    assert_eq!(rig("clash - --trace three", night), expected);
    let wrong = night.replace("board q 50 22", "board q 5");
    let output = rig("clash - --trace one", wrong);
    let complaint = "! line 8: load two: expected bytes of two hexadecimal digits, not '5'";
    assert_eq!(output, format!("{samples}{complaint}\nerror 2 loads: 1 sent, 1 in error\n"));
}

#[test]
fn a_message_that_is_cut() {
    let cut = |acks: &str| load(&format!("board p 50 26 FF 11\nboard q 50 26 FF 11\nboard r -\nack {acks}"));
    let both = |fate: &str| {
        let line = |board: &str| format!("  WON    {board}  50 26 FF 11              {fate}\n");
        format!("{}{}  silent 2 r", line("0 p"), line("1 q"))
    };
    assert_eq!(cut("0 0 0 0"), both("sent 4 of 4 bytes"));
    assert_eq!(cut("0 1 0 0"), both("CUT after 2 of 4 bytes: byte 1 (26) not acknowledged; FF 11 not sent"));
    assert_eq!(cut("0 0 0 1"), both("CUT after 4 of 4 bytes: byte 3 (11) not acknowledged"));
}

#[test]
fn what_is_expected() {
    let base = "board p 50 26\nboard q 90\nboard r -\n";
    let expect = |acks: &str, words: &str| load(&format!("{base}ack {acks}\nexpect {words}"));
    let note = "  NOT AS EXPECTED: line 7 expects ";
    assert!(!expect("all", "p 2/2").contains(note));
    assert!(!expect("1 0", "p 1/2").contains(note));
    for words in ["q 1/1", "p 1/2", "p 2/3", "r 2/2", "p 18446744073709551615/2"] {
        assert!(expect("all", words).ends_with(&format!("{note}{words}")), "{words}");
    }
    assert!(expect("all", "p 02/0003").ends_with(&format!("{note}p 2/3")));
    let undecided = load("board p 50 26\nboard q 50 27\nboard r -\nack 1 0\nexpect p 1/2");
    assert!(undecided.ends_with("  NOT AS EXPECTED: line 7 expects p 1/2"), "{undecided}");
}

#[test]
fn an_ack_line_that_is_left_out() {
    let note = "  note: no ack line, rehearsed as all acknowledged";
    assert!(load("board p 50\nboard q -\nboard r -").ends_with(note));
    assert!(!load("board p 50\nboard q -\nboard r -\nack all").contains(note));
    let last = super::last("clash -", "boards p\nload x\nboard p 50\nend 1");
    assert_eq!(last, "ok 1 load: 1 sent, 1 without an ack line");
}

#[test]
fn the_board_shown_is_the_satellites() {
    let expected = "  WON    1 q  50                       sent 1 of 1 byte\n  silent 0 p\n  silent 2 r";
    assert_eq!(load("board r -\nboard q 50\nboard p -\nack all"), expected);
}

#[test]
fn refusals_name_boards_lines_and_counts() {
    let long = format!("board p 50\nboard q {}\nboard r -", "50 ".repeat(67));
    let cases = [
        ("board p -\nboard q -\nboard r -", "12: every board is silent"),
        ("board p 50\nboard q\nboard r -", "13: q (line 4) has no bytes"),
        (&long, "13: q (line 4) has 67 bytes, and at most 64 may be sent"),
        ("board p 50\nboard q -\nboard r 91 00", "14: r (line 5) begins with 91, which is odd, a read"),
        (
            "board p 50\nboard q 60 00\nboard r 70 00\nack 0",
            "15: 1 acknowledge (line 6) for the 2 bytes of q (line 4), the longest",
        ),
        (
            "board p 50\nboard q -\nboard r -\nack",
            "15: 0 acknowledges (line 6) for the 1 byte of p (line 3), the longest",
        ),
        ("board p 50 00\nboard q -\nboard r -\nack 0 7", "15: acknowledge 1 (line 6) is 7, neither 0 nor 1"),
        (
            "board r 50 18 7E\nboard q 50 18\nboard p 90\nack all",
            "16: q (line 4) ends with 50 18, acknowledged, where r (line 3) goes on with 7E",
        ),
    ];
    for (lines, words) in cases {
        assert_eq!(load(lines), format!("  refused {words}"));
    }
    let output = rig("clash - --room 22", "boards p\nload x\nboard p 50\nack all\nend 1");
    assert!(output.contains("\n  refused 8: the reply needs more room than was lent\n"), "{output}");
}

#[test]
fn the_old_form() {
    let output = rig(
        "clash -",
        "load x\nboard 90 12\nboard 9 F # two\nload y\nload z\nboard 5\nload w\nboard 90\nboard 90 0",
    );
    let expected = "\
load x
  WON    1  09 0F                    sent 2 of 2 bytes
";
    assert!(
        output.contains("  refused 14: board 1 (line 3) begins with 09, which is odd, a read\n"),
        "{output}"
    );
    assert!(output.contains("load y\n  refused 12: no board\n"), "{output}");
    assert!(output.contains("  refused 14: board 0 (line 6) begins with 05, which is odd, a read\n"));
    let sixteen =
        "  refused 16: board 0 (line 8) ends with 90, acknowledged, where board 1 (line 9) goes on with 00\n";
    assert!(output.contains(sixteen));
    assert!(rig("clash -", "load x\nboard 90 12\nboard 8 F\nack all")
        .replace("08 0F", "09 0F")
        .starts_with(expected));
    let boards = |count: usize| rig("clash -", format!("load x\n{}", "board 90\n".repeat(count)));
    assert!(boards(17).contains("  refused 12: 17 boards, and at most 16 may start together\n"));
    assert!(boards(16).ends_with("\nok 1 load: 1 sent, 1 without an ack line\n"));
}

/// A load of twelve boards, of which a, b and l send, with these lines after the boards'.
fn twelve(arguments: &str, rest: &str) -> String {
    let names: Vec<String> = ('a'..='l').map(|letter| format!("n{letter}")).collect();
    let message = |name: &String| match name.as_str() {
        "na" => "90 12",
        "nb" => "90 0F",
        "nl" => "90 0F 00",
        _ => "-",
    };
    let lines: String = names.iter().map(|name| format!("board {name} {}\n", message(name))).collect();
    rig(arguments, format!("boards {}\nload x\n{lines}{rest}\nend 1\n", names.join(" ")))
}

#[test]
fn numbers_of_more_than_ten_boards_stand_in_two_columns() {
    let expected = "\
load x
  UNDECIDED between 1, 11: the bus stopped after byte 1 (0F), before they differ; nothing was sent whole
  in      1 nb  90 0F                    2 of 2 bytes carried
  in     11 nl  90 0F 00                 2 of 3 bytes carried
  lost    0 na  90 12                    byte 1 bit 3: sends 1, the bus is 0; 2 bytes still to send
  silent  2 nc
";
    let output = twelve("clash -", "ack 0 1 0");
    assert!(output.starts_with(expected), "{output}");
    assert!(output.contains("\n  silent  9 nj\n  silent 10 nk\nsee x\n"), "{output}");
    let output = twelve("clash - --registers", "ack 0 1 0");
    let registers =
        ["\n  regs    0 na  USICTL0=C0 ", "\n  regs    1 nb  USICTL0=C8 ", "\n  regs   11 nl  USICTL0=C8 "];
    assert!(registers.iter().all(|line| output.contains(line)), "{output}");
    assert!(twelve("clash - --table", "ack 0 1 0").contains("UNDECIDED at byte 1: nb, nl\n"));
}

/// Numbers are in one column up to ten boards, in two from eleven on, in the old form too.
#[test]
fn ten_and_eleven_boards() {
    let boards = |count: usize| rig("clash -", format!("load x\n{}", "board 90\n".repeat(count)));
    let won = "90                       sent 1 of 1 byte\n";
    assert!(boards(10).starts_with(&format!("load x\n  WON    0  {won}")));
    assert!(boards(11).starts_with(&format!("load x\n  WON     0  {won}")));
    assert!(boards(11).contains(&format!("\n  WON    10  {won}")));
    let named = |names: &[&str]| {
        let silent: String = names[1..].iter().map(|name| format!("board {name} -\n")).collect();
        let load = format!("load x\nboard {} 90\n{silent}ack all\nend 1\n", names[0]);
        rig("clash -", format!("boards {}\n{load}", names.join(" ")))
    };
    assert!(named(&SIXTEEN[..10]).starts_with(&format!("load x\n  WON    0 q  {won}  silent 1 r\n")));
    assert!(named(&SIXTEEN[..11]).starts_with(&format!("load x\n  WON     0 q   {won}  silent  1 r\n")));
    assert!(named(&SIXTEEN).contains("\n  silent  9 z\n  silent 10 qq\n"));
}

#[test]
fn numbers_elsewhere_stand_as_they_are() {
    let night = twelve("clash -", "ack 0 0");
    assert!(night
        .contains("\n  refused 15: 2 acknowledges (line 15) for the 3 bytes of nl (line 14), the longest\n"));
    let boards = format!("load x\n{}board 90 00\n", "board 90\n".repeat(11));
    let words = "board 0 (line 2) ends with 90, acknowledged, where board 11 (line 13) goes on with 00";
    assert!(rig("clash -", &boards).contains(&format!("\n  refused 16: {words}\n")));
    let row = "UNDECIDED at byte 0: 0, 1, 2, 3, 4,~\n";
    assert!(rig("clash - --table", format!("{boards}ack 1 0")).contains(row));
}
