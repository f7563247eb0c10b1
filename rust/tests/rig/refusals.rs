//! Each refusal number, provoked from the command line, with its words.

use std::io::Write;
use std::process::{Command, Stdio};

/// The output of the mirror's own program.
fn run(arguments: &str, input: &str) -> String {
    let mut child = Command::new(env!("CARGO_BIN_EXE_rig_model"))
        .args(arguments.split(' '))
        .stdin(Stdio::piped())
        .stdout(Stdio::piped())
        .spawn()
        .unwrap();
    child.stdin.take().unwrap().write_all(input.as_bytes()).unwrap();
    let output = child.wait_with_output().unwrap();
    assert!(output.status.success());
    String::from_utf8(output.stdout).unwrap()
}

#[test]
fn of_the_module() {
    let cases = [
        ("read 77", "1: the address is outside 078h to 07Dh"),
        ("write 7E 0", "1: the address is outside 078h to 07Dh"),
        ("writew 7E 0", "1: the address is outside 078h to 07Dh"),
        ("readw 77", "2: a word access needs an even address"),
        ("writew 7F 0", "2: a word access needs an even address"),
        ("sample 3", "3: the set-up fits neither I2C nor SPI"),
        ("tick", "3: the set-up fits neither I2C nor SPI"),
        ("sample 4", "4: a level is above 3"),
    ];
    for (command, words) in cases {
        let number = &words[..1];
        let count = format!("refused {number}: 1 of 1 commands refused, the first on line 1");
        assert_eq!(run("session", command), format!("refused {words}\n{count}\n"), "{command}");
    }
}

#[test]
fn of_the_reader() {
    let samples: String = (0..4097).map(|stamp| format!("{stamp} 3\n")).collect();
    let cases = [
        ("decode -", "5 3\n6 4", "4 sample 1 (line 2): a level is above 3"),
        ("decode -", "5 9\n\n6", "5: stamps and levels differ in number; line 3 has no level"),
        ("decode -", &samples, "6: more than 4096 samples"),
        (
            "decode -",
            "5 3\n5 3",
            "7 sample 1 (line 2): a stamp is not above the one before it; its stamp is that of line 1",
        ),
        (
            "dump -",
            "5 3\n4 3",
            "7 sample 1 (line 2): a stamp is not above the one before it; lines 1 and 2 look exchanged: rig sort \
             puts samples in order",
        ),
        ("sort -", "5 3\n5 3", "7 sample 1 (line 2): its stamp is that of line 1"),
        ("decode - --room 0", "5 3\n6 1", "8: the reply needs more room than was lent"),
    ];
    for (arguments, input, words) in cases {
        assert_eq!(run(arguments, input), format!("refused {words}\n"), "{words}");
    }
}

#[test]
fn of_the_dump_reader() {
    let wires = "$var wire 1 ! scl $end\n$var wire 1 \" sda $end\n$enddefinitions $end\n#5 1! 1\"\n";
    let long = " ".repeat(60_000);
    let cases = [
        ("x!\n", "20 byte 76 (line 5): a value is x or z: 'x!'; capture from where both lines have a level"),
        (
            "#5\n",
            "21 byte 76 (line 5): a stamp is not above the one before it: '#5'; packets may have crossed: \
             export the capture again",
        ),
        (
            "0%\n",
            "22 byte 76 (line 5): a value of a wire that is not declared: '0%'; dump only the two wires",
        ),
        (
            "#6",
            "23 byte 78 (line 5): the text ends inside a line, a command or a section; the file may be cut: \
             copy it again",
        ),
        (
            "$var\n",
            "24 byte 76 (line 5): a dump needs just two wires of one bit, and a value for each at its first \
             stamp: '$var'; declare SCL, then SDA, each as wire 1, and dump only these two",
        ),
        (
            "#9876543210\n",
            "25 byte 76 (line 5): a stamp is above 4294967295: '#9876543210'; choose a coarser timescale",
        ),
        (&long, "26: the text is longer than 60000 bytes; dump a shorter time"),
        (
            "r0 !\n",
            "27 byte 76 (line 5): this is not of the form of a dump with two wires: 'r0'; export a Value \
             Change Dump of SCL and SDA alone",
        ),
    ];
    for (values, words) in cases {
        assert_eq!(run("decode -", &format!("{wires}{values}")), format!("refused {words}\n"), "{words}");
    }
}

#[test]
fn of_the_writer() {
    let bytes = format!("512 {} 514", "0 ".repeat(228));
    let cases = [
        ("encode", &bytes[..], "6: more than 4096 samples"),
        ("encode --room 0", "", "8: the reply needs more room than was lent"),
        ("encode", "START", "9: the event list is not complete"),
        ("encode", "gap 0", "10: the gap is 0 or above 1000"),
        ("encode", "gap 1001", "10: the gap is 0 or above 1000"),
        ("encode -", "start 4294967295\n512 0 514", "11: the last stamp is above 4294967295"),
    ];
    for (arguments, input, words) in cases {
        assert_eq!(run(arguments, input), format!("refused {words}\n"), "{words}");
    }
}

#[test]
fn of_arbitration() {
    let seventeen = "board 90\n".repeat(17);
    let long = format!("board 90\nboard {}", "90 ".repeat(65));
    let cases = [
        ("clash -", "", "12: no board"),
        ("clash -", &seventeen, "12: 17 boards, and at most 16 may start together"),
        ("clash -", "board", "13: board 0 (line 2) has no bytes"),
        ("clash -", &long, "13: board 1 (line 3) has 65 bytes, and at most 64 may be sent"),
        ("clash -", "board 90\n\nboard 91", "14: board 1 (line 4) begins with 91, which is odd, a read"),
        (
            "clash -",
            "ack\nboard 90",
            "15: 0 acknowledges (line 2) for the 1 byte of board 0 (line 3), the longest",
        ),
        ("clash -", "board 90\nack 2", "15: acknowledge 0 (line 3) is 2, neither 0 nor 1"),
        (
            "clash -",
            "board 90\nboard 90 0",
            "16: board 0 (line 2) ends with 90, acknowledged, where board 1 (line 3) goes on with 00",
        ),
        ("clash - --room 22", "board 90", "8: the reply needs more room than was lent"),
    ];
    for (arguments, boards, words) in cases {
        let number: String = words.chars().take_while(char::is_ascii_digit).collect();
        let count = format!("see a\nrefused {number}: 1 load: 1 refused");
        let output = run(arguments, &format!("load a\n{boards}"));
        assert_eq!(output, format!("load a\n  refused {words}\n{count}\n"));
    }
}
