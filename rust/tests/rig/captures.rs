//! `rig decode` of a Value Change Dump: how it is known, each refusal with its place, word and hint, modes and units.

use super::{check_errors, last, rig};
use rehearsal_model::rig::answer;
use std::io::{self, Cursor, Read};

const CASE: &str = include_str!("../../../examples/case.vcd");
const WIRES: &str = "$var wire 1 ! scl $end\n$var wire 1 \" sda $end\n$enddefinitions $end\n";
const NO_BYTE: &str = "no byte in any frame";

/// A trace of START, A0 write ACK, STOP with this gap, as `rig dump` writes it.
fn written(gap: usize) -> String {
    let drawn = rig("encode", format!("gap {gap}\nSTART\nA0 ACK\nSTOP\n"));
    let dumped = rig("dump -", drawn);
    dumped.rsplit_once("ok ").unwrap().0.to_string()
}

/// The one line that a dump gets.
fn refused(input: &str, line: &str) {
    assert_eq!(rig("decode -", input), format!("refused {line}\n"), "{input:?}");
}

#[test]
fn a_dump_whole() {
    let expected = "# a Value Change Dump whose stamps count 100 ns\nstart 5\ngap 4\n9: START\n";
    let last = format!("look 1 event in 2 samples, frame open, 0 bits pending, {NO_BYTE}\n");
    assert_eq!(rig("decode -", CASE), format!("{expected}{last}"));
    assert_eq!(rig("decode -", CASE.replace('\n', "\r\n")), format!("{expected}{last}"));
    assert_eq!(rig("decode -", CASE.replace(' ', "\t")), format!("{expected}{last}"));
    assert_eq!(rig("decode - --room 1", CASE), format!("{expected}{last}"));
    let expected = "# a Value Change Dump whose stamps count 100 ns\nstart 0\n50: START\n\
        1000: A0 write ACK\n1100: STOP\nok 3 events in 23 samples, no frame open, 0 bits pending\n";
    assert_eq!(rig("decode -", written(50)), expected.replace("start 0\n", "start 0\ngap 50\n"));
    let rest = written(50).replace("#1100", "#900000");
    assert_eq!(rig("decode -", rest), expected.replace("1100:", "900000:"));
}

#[test]
fn stamps_that_change_nothing_are_no_samples() {
    let values = "#0 1! 1\"\n#10\n#20 0! 1!\n#30 $comment x $end\n#40 0\"\n#50\n";
    let expected = format!(
        "# a Value Change Dump with no timescale\nstart 0\ngap 40\n40: START\n\
        look 1 event in 2 samples, frame open, 0 bits pending, {NO_BYTE}\n"
    );
    assert_eq!(rig("decode -", format!("{WIRES}{values}")), expected);
}

#[test]
fn the_units() {
    for unit in ["s", "ms", "us", "ns", "ps", "fs"] {
        for number in [1, 10, 100] {
            for timescale in [format!("{number} {unit}"), format!("{number}{unit}")] {
                let output = rig("decode -", CASE.replace("100 ns", &timescale));
                let comment = format!("# a Value Change Dump whose stamps count {number} {unit}\n");
                assert!(output.starts_with(&comment), "{output}");
            }
        }
    }
    let none = CASE.replace("$timescale 100 ns $end\n", "");
    assert!(rig("decode -", none).starts_with("# a Value Change Dump with no timescale\nstart 5\n"));
}

#[test]
fn a_mode_needs_its_unit() {
    let needs = "needs stamps that count 100 ns, and this dump";
    for option in ["--standard", "--fast"] {
        let arguments = format!("decode - {option}");
        assert!(rig(&arguments, CASE).starts_with("# a Value Change Dump whose stamps count 100 ns\n"));
        for unit in ["100 s", "1 us", "10 ns", "1 fs"] {
            let expected = format!("{option} {needs} counts {unit}");
            check_errors(&arguments, &[(&CASE.replace("100 ns", unit), &expected)]);
        }
        let none = CASE.replace("$timescale 100 ns $end\n", "");
        check_errors(&arguments, &[(&none, &format!("{option} {needs} has no timescale"))]);
    }
}

#[test]
fn short_phases() {
    let whole = "ok 3 events in 23 samples, no frame open, 0 bits pending";
    assert_eq!(last("decode - --standard", written(47)), whole);
    assert_eq!(last("decode - --fast", written(13)), whole);
    let short = "refused 18 sample 3 (stamp 138): a phase of SCL is too short for the mode\n";
    assert_eq!(rig("decode - --standard", written(46)), short);
    assert_eq!(rig("decode --fast -", written(12)), short.replace("138", "36"));
}

#[test]
fn which_is_said_first() {
    let room = "refused 8: the reply needs more room than was lent\n";
    assert_eq!(rig("decode - --room 0", CASE), room);
    assert_eq!(rig("decode - --room 2", written(46)), room);
    assert!(rig("decode - --room 2 --standard", written(46)).starts_with("refused 18 sample 3 "));
    let coarse = written(46).replace("100 ns", "1 us");
    assert!(rig("decode - --room 2 --standard", &coarse).starts_with("error --standard needs "));
    assert!(rig("decode - --room 2 --standard", coarse + "x!\n").starts_with("refused 20 byte "));
}

#[test]
fn each_refusal() {
    let wires = "a dump needs just two wires of one bit, and a value for each at its first stamp";
    let declare = "declare SCL, then SDA, each as wire 1, and dump only these two";
    let form = "this is not of the form of a dump with two wires";
    let export = "export a Value Change Dump of SCL and SDA alone";
    let with = |values: &str| format!("{WIRES}#5 1! 1\"\n{values}");
    let x = "20 byte 76 (line 5): a value is x or z: 'x!'; capture from where both lines have a level";
    refused(&with("x!\n"), x);
    refused(&with("Z\"\n"), &x.replace("x!", "Z\""));
    let crossed = "21 byte 76 (line 5): a stamp is not above the one before it: '#5'; \
        packets may have crossed: export the capture again";
    refused(&with("#5\n"), crossed);
    refused(
        &with("#6 1%\n"),
        "22 byte 79 (line 5): a value of a wire that is not declared: '1%'; dump only the two wires",
    );
    let cut = "the text ends inside a line, a command or a section; the file may be cut: copy it again";
    refused(&with("#6"), &format!("23 byte 78 (line 5): {cut}"));
    refused(&with("$comment\n"), &format!("23 byte 85 (line 6): {cut}"));
    refused("$date", &format!("23 byte 5 (line 1): {cut}"));
    refused(&with("$var\n"), &format!("24 byte 76 (line 5): {wires}: '$var'; {declare}"));
    refused("$var reg 1 ! scl $end\n$x\n", &format!("24 byte 5 (line 1): {wires}: 'reg'; {declare}"));
    refused(WIRES, &format!("24 byte 67 (line 4): {wires}; {declare}"));
    refused(&format!("{WIRES}#5\n1!\n"), &format!("24 byte 73 (line 6): {wires}; {declare}"));
    refused(
        &with("#4294967296\n"),
        "25 byte 76 (line 5): a stamp is above 4294967295: '#4294967296'; choose a coarser timescale",
    );
    refused(&with("b1 !\n"), &format!("27 byte 76 (line 5): {form}: 'b1'; {export}"));
    refused("\n\r\n $scope\rclass\n", &format!("27 byte 11 (line 3): {form}: 'class'; {export}"));
}

#[test]
fn words_are_quoted_printable() {
    let form = |met: &str| {
        format!(
            "27 byte 76 (line 5): this is not of the form of a dump with two wires: '{met}'; \
             export a Value Change Dump of SCL and SDA alone"
        )
    };
    let with = |word: &str| format!("{WIRES}#5 1! 1\"\n{word}\n");
    refused(&with("\u{1}a\u{b}\u{7f}b"), &form("?a??b"));
    refused(&with(&"y".repeat(32)), &form(&"y".repeat(32)));
    refused(&with(&"y".repeat(33)), &form(&format!("{}..", "y".repeat(32))));
    let bytes = [with("").trim_end().as_bytes(), b"\n\xFF\xE9 \n"].concat();
    let output = answer(&[b"decode".to_vec(), b"-".to_vec()], &mut &bytes[..]).output;
    assert!(output.windows(6).any(|part| part == b": '\xFF\xE9'"), "{}", output.escape_ascii());
}

#[test]
fn the_limits() {
    let full = |length: usize| format!("{CASE}{}", "\n".repeat(length - CASE.len()));
    assert!(rig("decode -", full(60_000)).starts_with("# a Value Change Dump"));
    let long = "26: the text is longer than 60000 bytes; dump a shorter time";
    refused(&full(60_001), long);
    refused(&full(200_000), long);
    refused(&format!("$x {}", "x!\n".repeat(30_000)), long);
    let samples = |count: usize| {
        let values = (1..count).map(|stamp| format!("#{stamp} {}!\n", stamp % 2));
        format!("{WIRES}#0 0! 1\"\n{}", values.collect::<String>())
    };
    let whole = format!("look 0 events in 4096 samples, no frame open, 0 bits pending, {NO_BYTE}");
    assert_eq!(last("decode -", samples(4096)), whole);
    refused(&samples(4097), "6: more than 4096 samples; dump a shorter time");
    assert!(rig("decode -", samples(4097) + "x!\n").starts_with("refused 20 byte "));
}

#[test]
fn a_dump_is_known_by_its_first_byte_that_is_no_blank() {
    let whole = rig("decode -", CASE);
    for front in ["\n", " \t\r\n", &"\n".repeat(4096), &" ".repeat(50_000)] {
        assert_eq!(rig("decode -", format!("{front}{CASE}")), whole);
    }
    let looks = "this looks like a Value Change Dump: did you mean rig decode?";
    let expected = |line: usize, word: &str| {
        format!("line {line}: expected STAMP LEVEL, two decimal numbers, not '{word}'; {looks}")
    };
    refused(
        &format!("{}{CASE}", "\n".repeat(60_000)),
        "26: the text is longer than 60000 bytes; dump a shorter time",
    );
    let late = format!("{}{CASE}", "\n".repeat(60_001));
    check_errors("decode -", &[(&late, &expected(60_002, "$timescale"))]);
    check_errors("decode -", &[(&format!("{}$x", " ".repeat(60_001)), "line 1: longer than 4096 bytes")]);
    check_errors("decode -", &[("# a dump\n$date", &expected(2, "$date"))]);
    check_errors("decode -", &[("ok\n0 3\n$", &expected(3, "$"))]);
    check_errors("decode -", &[("0 3\n$x y z", &expected(2, "$x"))]);
    check_errors("dump -", &[(CASE, &expected(1, "$timescale")), ("\n $#", &expected(2, "$"))]);
    let other = "line 2: expected STAMP LEVEL, two decimal numbers, not";
    check_errors("decode -", &[("\u{feff}\n", &format!("{} '\u{feff}'", other.replace('2', "1")))]);
    let list = format!("{other} '$x:'; this looks like an event list: did you mean rig encode?");
    check_errors("decode -", &[("0 3\n$x: y", &list), ("0 3\n5 $x", &format!("{other} '$x'"))]);
    assert!(rig("encode", "$x").ends_with(", not '$x'\n"));
}

#[test]
fn no_gap_of_a_dump_is_judged() {
    let drawn = rig("encode", "START\nA0 ACK\n12 NACK\nSTOP\n");
    let later = |line: &str| {
        let (stamp, level) = line.split_once(' ').unwrap();
        let stamp: usize = stamp.parse().unwrap();
        format!("{} {level}\n", if stamp > 500 { 50 * stamp } else { stamp })
    };
    let trace: String = drawn.lines().filter(|line| !line.starts_with("ok")).map(later).collect();
    let judged = rig("decode -", &trace);
    assert!(judged.contains("\nnote: ") && judged.contains(" doubtful\n") && judged.contains(" long gap"));
    let dumped = rig("dump -", &trace);
    let output = rig("decode -", dumped.rsplit_once("ok ").unwrap().0);
    assert!(output.ends_with("\nok 4 events in 41 samples, no frame open, 0 bits pending\n"), "{output}");
    let events = |text: &str| -> Vec<String> {
        let lines = text.lines().filter(|line| line.starts_with(|first: char| first.is_ascii_digit()));
        lines.map(|line| line.replace(" doubtful", "")).collect()
    };
    assert_eq!(events(&output), events(&judged));
}

#[test]
fn it_is_drawn_again() {
    let drawn = rig("encode", "START\nA0 ACK\nrepeated START\nA1 ACK\n34 NACK\nSTOP\n");
    let dumped = rig("dump -", &drawn);
    let decoded = rig("decode -", dumped.rsplit_once("ok ").unwrap().0);
    assert_eq!(rig("encode", &decoded), drawn);
    assert_eq!(decoded.split_once('\n').unwrap().1, rig("decode -", drawn));
}

/// A file that cannot be read to its end.
struct Failing(Cursor<Vec<u8>>);

impl Read for Failing {
    fn read(&mut self, bytes: &mut [u8]) -> io::Result<usize> {
        match self.0.read(bytes) {
            Ok(0) => Err(io::Error::from_raw_os_error(5)),
            count => count,
        }
    }
}

#[test]
fn a_dump_that_cannot_be_read() {
    let output = |text: &str| {
        let arguments = [b"decode".to_vec(), b"-".to_vec()];
        let answer = answer(&arguments, &mut Failing(Cursor::new(text.into())));
        String::from_utf8(answer.output).unwrap()
    };
    let error = "error cannot read standard input: error number 5\n";
    assert_eq!([output(CASE), output("$date"), output("$x\n")], [error; 3]);
    let long = format!("{CASE}{}", "\n".repeat(60_000));
    assert_eq!(output(&long), "refused 26: the text is longer than 60000 bytes; dump a shorter time\n");
}
