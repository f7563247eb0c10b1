//! `rig encode`: P7, the forms of an event, start and gap, limits, and lines that are wrong.

use super::{check_errors, last, rig};

const P7: [u8; 23] = [3, 1, 2, 3, 0, 1, 2, 3, 0, 1, 0, 1, 0, 1, 0, 1, 0, 1, 0, 1, 0, 1, 3];

#[test]
fn p7_whole_in_all_forms() {
    let lines: String = (0..23).map(|index| format!("{} {}\n", 50 * index, P7[index])).collect();
    let expected = lines + "ok 23 samples\n";
    let forms = [
        "START\nA0 ACK\nSTOP\n",
        "START\na0 write ACK\nSTOP",
        "512 160 514",
        "512\r\n160\r\n514\r\n",
        "50: START\n1000: A0 write ACK\n1100: STOP\nok 3 events in 23 samples, no frame open, 0 bits pending\n",
        "x: 512 160\n: STOP # end",
        "note: no sample from 0 to 9\n512 160\nlook 3 events\nSTOP",
        "gap 7\nstart 9\n512\nstart 0\ngap 50\n0160 514",
    ];
    for form in forms {
        assert_eq!(rig("encode", form), expected, "{form:?}");
        assert_eq!(rig("encode --room 23 -", form), expected, "{form:?}");
    }
    let again = rig("encode -", rig("decode -", &expected));
    assert_eq!(again, expected);
}

#[test]
fn an_empty_list_is_one_level() {
    assert_eq!(rig("encode", ""), "0 3\nok 1 sample\n");
    assert_eq!(rig("encode - --room 1", "start 4294967295\ngap 1000"), "4294967295 3\nok 1 sample\n");
    assert_eq!(rig("encode", "ok whatever"), "0 3\nok 1 sample\n");
}

#[test]
fn start_and_gap() {
    let output = rig("encode", "start 10\ngap 1000\nSTART\n5 NACK\nrepeated START\nF read ACK\nSTOP");
    assert!(output.starts_with("10 3\n1010 1\n2010 0\n"), "{output}");
    assert!(output.ends_with("ok 44 samples\n"), "{output}");
    assert_eq!(last("encode", "start 4294966195\n512 160 514"), "ok 23 samples");
    assert_eq!(
        last("encode", "start 4294966196\n512 160 514"),
        "refused 11: the last stamp is above 4294967295"
    );
}

#[test]
fn the_limit_of_events() {
    let numbers = |count: usize| "512 ".repeat(1000) + "\n" + &"1\n".repeat(count - 1000);
    assert_eq!(rig("encode", numbers(4096)), "refused 9: the event list is not complete\n");
    assert_eq!(rig("encode", numbers(4097)), "error line 3098: more than 4096 events\n");
    assert_eq!(rig("encode", numbers(4096) + "START"), "error line 3098: more than 4096 events\n");
}

#[test]
fn errors() {
    let event =
        "line 1: expected START, repeated START, STOP, cut byte, HH ACK, HH NACK or event numbers, not";
    let firsts = "START STOP; START ACK; STOP 1; repeated; repeated STOP; cut; cut byte 5; ACK; A0 write; A1 read; \
        A0 write ack; A0 ACK 5; A0 ACK doubtful; 100 ACK; G0 ACK; write ACK; x; A0; A0 write foo; start:; 5:; :";
    for line in firsts.split("; ") {
        let word = line.split(' ').next().unwrap();
        check_errors("encode", &[(line, &format!("{event} '{word}'"))]);
    }
    let words =
        [("5: start 1", "start"), ("5: ok", "ok"), ("5: 6: START", "6:"), ("512 x", "x"), ("512 -1", "-1")];
    for (line, word) in words {
        check_errors("encode", &[(line, &format!("{event} '{word}'"))]);
    }
    let loads = "; this looks like a file of loads: did you mean rig clash?";
    for (line, word) in
        [("load x", "load"), ("boards a b", "boards"), ("board ACK", "board"), ("ack 0", "ack")]
    {
        check_errors("encode", &[(line, &format!("{event} '{word}'{loads}"))]);
    }
}

#[test]
fn errors_of_settings_and_directions() {
    let direction =
        |word: &str| format!("line 1: an even address byte is a write, an odd one a read: '{word}'");
    let start = |met: &str| format!("line 2: expected start N, from 0 to 4294967295{met}");
    let gap = |met: &str| format!("line 1: expected gap N{met}");
    let cases = [
        ("A1 write ACK", direction("A1")),
        ("0 read NACK", direction("0")),
        ("A0 read", direction("A0")),
        ("A1 write foo", direction("A1")),
        ("\nstart", start("")),
        ("\nstart x", start(", not 'x'")),
        ("\nstart 1 2", start(", not '2'")),
        ("\nstart 4294967296", start(", not '4294967296'")),
        ("gap", gap("")),
        ("gap 5 6", gap(", not '6'")),
        ("gap five", gap(", not 'five'")),
    ];
    for (line, words) in cases {
        check_errors("encode", &[(line, &words)]);
    }
}

#[test]
fn a_damaged_list_is_incomplete() {
    let refused = "refused 9: the event list is not complete\n";
    for list in ["START", "START\nSTOP", "cut byte", "512 515 514", "512 65535 514", "512 65696 514", "160"] {
        assert_eq!(rig("encode", list), refused, "{list}");
    }
    assert_eq!(last("encode", "gap 4294967297\n512 160 514"), "refused 10: the gap is 0 or above 1000");
}

#[test]
fn a_trace_is_known() {
    let hint = "; this looks like a trace: did you mean rig decode?";
    assert_eq!(rig("encode", "0 3\n50 1\n"), format!("refused 9: the event list is not complete{hint}\n"));
    let many: String = (0..3000).map(|stamp| format!("{stamp} 3\n")).collect();
    assert_eq!(rig("encode", many), format!("error line 2049: more than 4096 events{hint}\n"));
    for list in ["0 4\n", "0 3\nSTART", "512 1 514", "5: 0 3", "0 3\n5", ""] {
        assert!(!rig("encode", list).contains("looks like"), "{list}");
    }
}
