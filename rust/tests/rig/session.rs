//! `rig session`: P1 to P6, one answer to each line, and the count at the end.

use super::{last, rig};

const POWERED: &str = "01 01 00 00 00 00 latch=1 enable=0 phase=1 seen=0 scl=0 sda=0 stretch=0 pull=0";

/// The answers without the count.
fn answers(input: &str) -> Vec<String> {
    let output = rig("session", input);
    let mut lines: Vec<String> = output.lines().map(str::to_string).collect();
    lines.pop();
    lines
}

/// The last answer but the count.
fn answer(input: &str) -> String {
    answers(input).pop().unwrap()
}

#[test]
fn p1_to_p3() {
    assert_eq!(answer("write 7B 08\nread USICTL1"), "ok 00");
    assert_eq!(answer("write usicnt 28\nread 079"), "ok 01");
    assert_eq!(answer("write 07B 28\nwrite 7b 0\nread UsiCtl1"), "ok 01");
}

#[test]
fn p4_to_p6() {
    let fit = "write USICKCTL 22\nwrite USICTL1 41\nwrite USICTL0 C8\n";
    assert_eq!(answer(&format!("{fit}lines")), "ok scl=released sda=released");
    assert_eq!(answer(&format!("{fit}write 78 CE\nlines")), "ok scl=released sda=low");
    assert_eq!(answer(&format!("{fit}write 78 CE\nwrite 78 CA\nlines")), "ok scl=released sda=low");
    let slave = "write 7A 2\nwrite 79 40\nwrite 78 C0\nsample 3\nsample 1\n";
    assert_eq!(answer(&format!("{slave}sample 0\nlines")), "ok scl=low sda=released");
    assert_eq!(answer(&format!("{slave}write 7B 80\nsample 0\nlines")), "ok scl=released sda=released");
}

#[test]
fn spi_shows_what_is_driven() {
    let fit = "power A5 0\nwrite USICKCTL 0\nwrite USICTL1 0\nwrite USICTL0 EA\nwrite USICNT 8\n";
    assert_eq!(answer(&format!("{fit}lines")), "ok sclk=low sdo=released");
    assert_eq!(answer(&format!("{fit}tick\nlines")), "ok sclk=high sdo=released");
    let bit = format!("{fit}sample 0\ntick\nsample 1\n");
    assert_eq!(answer(&format!("{bit}lines")), "ok sclk=high sdo=high");
    let module = "ok EA 00 00 08 A5 00 latch=1 enable=1 phase=0 seen=1 scl=1 sda=0 stretch=0 sclk=1 sdo=1";
    assert_eq!(answer(&bit), module);
    let taken = "ok EA 00 00 07 4B 00 latch=1 enable=1 phase=1 seen=1 scl=0 sda=1 stretch=0 sclk=0 sdo=1";
    assert_eq!(answer(&format!("{bit}tick\nsample 2")), taken);
    assert_eq!(answer(&format!("{bit}tick\nsample 2\ntick\nsample 1\nlines")), "ok sclk=high sdo=low");
    assert_eq!(answer(&format!("{bit}write USICTL0 E2\nlines")), "ok sclk=released sdo=high");
    let slave =
        "ok E2 00 00 08 A5 00 latch=1 enable=1 phase=0 seen=1 scl=1 sda=0 stretch=0 sclk=- sdo=1 cleared=00";
    assert_eq!(answer(&format!("{bit}write USICTL0 E2")), slave);
    assert_eq!(answer(&format!("{bit}write USICTL0 CA\nlines")), "ok scl=released sda=released");
    assert_eq!(
        answer(&format!("{bit}write USICTL0 CA\ntick")),
        "refused 3: the set-up fits neither I2C nor SPI"
    );
}

#[test]
fn every_line_is_answered() {
    let input = "\n # comment\npower\npower 5a A5\nreadw 7C\nread 7D\nwritew USISRL 12\nhelp\n";
    let shifted = POWERED.replacen("00 00 00 00", "00 00 5A A5", 1);
    let expected = [
        "ok".to_string(),
        "ok".to_string(),
        format!("ok {POWERED}"),
        format!("ok {shifted}"),
        "ok A55A".to_string(),
        "ok A5".to_string(),
        format!("ok {} cleared=00", POWERED.replacen("00 00 00 00", "00 00 12 00", 1)),
        "ok power [LL HH], read AAA, write AAA VV, readw AAA, writew AAA VVVV, sample L, tick, lines, help"
            .to_string(),
    ];
    assert_eq!(answers(input), expected);
    assert_eq!(last("session", input), "ok 6 commands");
    assert_eq!(last("session -", ""), "ok 0 commands");
    assert_eq!(last("session", "lines"), "ok 1 command");
}

#[test]
fn lines_not_understood() {
    let forms = [
        ("power or power LL HH", "power 1;power 100 0;power 0 x;power 1 2 3"),
        ("read AAA", "read;read 10000;read USI;read 78 78;read 0x78"),
        ("write AAA VV", "write;write 78;write 78 100;write 78 g;write 1FFFF 0"),
        ("readw AAA", "readw;readw 1 1"),
        ("writew AAA VVVV", "writew;writew 78;writew 78 10000"),
        ("sample L", "sample;sample 100;sample 1 1"),
        ("tick", "tick 1"),
        ("lines", "lines 1"),
        ("help", "help me"),
    ];
    for (form, lines) in forms {
        for line in lines.split(';') {
            assert_eq!(answers(line), [format!("error expected {form}")], "{line}");
        }
    }
    for line in ["Tick", "ok", "USICTL0", "-", "tick,"] {
        assert_eq!(answers(line), [format!("error unknown command '{line}'; try help")], "{line}");
    }
}

#[test]
fn an_error_or_a_refusal_changes_nothing() {
    let input = "power 1 2\nwrite 78 100\nwrite 7E 1\nsample 9\ntick\nread 7C\nread 7D\n";
    let expected = [
        "error expected write AAA VV",
        "refused 1: the address is outside 078h to 07Dh",
        "refused 4: a level is above 3",
        "refused 3: the set-up fits neither I2C nor SPI",
        "ok 01",
        "ok 02",
    ];
    assert_eq!(answers(input)[1..], expected);
    let count = "error 1 of 7 commands not understood, the first on line 2";
    assert_eq!(last("session", input), count);
    let refused = "refused 1: 3 of 6 commands refused, the first on line 3";
    assert_eq!(last("session", input.replace("write 78 100", "#")), refused);
    assert_eq!(last("session", "x"), "error 1 of 1 commands not understood, the first on line 1");
}

#[test]
fn long_lines_and_bytes_that_are_no_text() {
    let long = |length: usize| format!("lines{}", " ".repeat(length - 5));
    assert_eq!(answers(&long(4096)), ["ok scl=released sda=released"]);
    assert_eq!(answers(&long(4097)), ["error longer than 4096 bytes"]);
    assert_eq!(
        answers(&(long(100_000) + "\0\ntick 1")),
        ["error longer than 4096 bytes", "error expected tick"]
    );
    assert_eq!(
        answers("#\u{b}\nlines #\u{e9}"),
        ["error a byte that is no text", "ok scl=released sda=released"]
    );
    let count = "error 1 of 2 commands not understood, the first on line 1";
    assert_eq!(last("session", "#\u{b}\nlines #\u{e9}"), count);
}
