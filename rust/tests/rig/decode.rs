//! `rig decode`: P7, cut bytes, open frames, limits, and lines that are wrong.

use super::{check_errors, last, rig};

/// Levels as a file, with stamps 0, 50, 100 and so on.
fn record(levels: &[u8]) -> String {
    levels.iter().enumerate().map(|(index, level)| format!("{} {level}\n", 50 * index)).collect()
}

/// START, bits 1, 0, 1, SCL left low.
const THREE_BITS: [u8; 9] = [3, 1, 2, 3, 0, 1, 2, 3, 2];

const P7: [u8; 23] = [3, 1, 2, 3, 0, 1, 2, 3, 0, 1, 0, 1, 0, 1, 0, 1, 0, 1, 0, 1, 0, 1, 3];

#[test]
fn p7_whole() {
    let expected = "start 0\ngap 50\n50: START\n1000: A0 write ACK\n1100: STOP\n\
        ok 3 events in 23 samples, no frame open, 0 bits pending\n";
    assert_eq!(rig("decode -", record(&P7)), expected);
    assert_eq!(rig("decode -", record(&P7).trim_end()), expected);
    assert_eq!(rig("decode -", record(&P7).replace('\n', " # level\r\n") + "ok 23 samples\n"), expected);
    assert_eq!(rig("decode - --room 3", record(&P7)), expected);
}

#[test]
fn a_byte_that_is_cut() {
    let stop = [&THREE_BITS[..], &[0, 1, 3]].concat();
    let expected = "start 0\ngap 50\n50: START\n550: cut byte\n550: STOP\n\
        look 3 events in 12 samples, no frame open, 0 bits pending, 1 cut byte, no byte in any frame\n";
    assert_eq!(rig("decode -", record(&stop)), expected);
    let start = [&THREE_BITS[..], &[3, 1, 0]].concat();
    let expected = "start 0\ngap 50\n50: START\n500: cut byte\n500: repeated START\n\
        look 3 events in 12 samples, frame open, 0 bits pending, 1 cut byte, no byte in any frame\n";
    assert_eq!(rig("decode -", record(&start)), expected);
}

#[test]
fn a_frame_left_open() {
    let report = |levels: &[u8]| rig("decode -", record(levels));
    let none = "no byte in any frame";
    let expected =
        "start 0\ngap 50\n50: START\nlook 1 event in 9 samples, frame open, 3 bits pending, value 05h";
    assert_eq!(report(&THREE_BITS), format!("{expected}, {none}\n"));
    let expected =
        "start 0\ngap 50\n50: START\nlook 1 event in 5 samples, frame open, 1 bit pending, value 01h";
    assert_eq!(report(&THREE_BITS[..5]), format!("{expected}, {none}\n"));
    let empty = format!("look 0 events in 0 samples, no frame open, 0 bits pending, {none}\n");
    assert_eq!(rig("decode -", ""), empty);
    let one = format!("start 7\nlook 0 events in 1 sample, no frame open, 0 bits pending, {none}\n");
    assert_eq!(rig("decode -", "7 3"), one);
    let open = "look 2 events in 20 samples, frame open, 0 bits pending";
    assert_eq!(last("decode -", record(&P7[..21])), open.replace("20", "21"));
}

/// A record whose gaps are all 50 but for the one before this sample.
fn late(levels: &[u8], sample: usize, gap: usize) -> String {
    let stamp = |index: usize| 50 * index + if index >= sample { gap - 50 } else { 0 };
    levels.iter().enumerate().map(|(index, level)| format!("{} {level}\n", stamp(index))).collect()
}

#[test]
fn a_gap_far_above_the_usual() {
    let note =
        "note: no sample from 450 to 1300 (line 11), 17 times the usual gap: samples may be lost there\n";
    let expected = format!(
        "start 0\n50: START\n{note}1800: A0 write ACK doubtful\n1900: STOP\n\
         look 3 events in 23 samples, no frame open, 0 bits pending, 1 long gap\n"
    );
    assert_eq!(rig("decode -", late(&P7, 10, 850)), expected);
    let lines: String = rig("decode -", late(&P7, 10, 100));
    assert!(lines.ends_with("\nok 3 events in 23 samples, no frame open, 0 bits pending\n"), "{lines}");
}

#[test]
fn between_frames_the_bus_may_rest() {
    let twice = [&P7[..], &P7[1..]].concat();
    let output = rig("decode -", late(&twice, 23, 1_000_000));
    assert!(output.contains(": STOP\n1001100: START\n"), "{output}");
    assert!(output.ends_with("\nok 6 events in 45 samples, no frame open, 0 bits pending\n"), "{output}");
}

#[test]
fn doubt_ends_with_the_next_condition() {
    let list = "START\nA0 ACK\nrepeated START\nA1 ACK\n34 NACK\nSTOP\n";
    let drawn = rig("encode", list);
    let samples = drawn.lines().filter(|line| !line.starts_with("ok"));
    let levels: Vec<u8> = samples.map(|line| line.split(' ').nth(1).unwrap().parse().unwrap()).collect();
    let output = rig("decode -", late(&levels, 5, 3000));
    assert!(output.contains("A0 write ACK doubtful\n"), "{output}");
    assert!(output.contains("A1 read ACK\n") && output.contains("34 NACK\n"), "{output}");
}

#[test]
fn exchanged_wires_have_no_byte() {
    let exchanged: Vec<u8> = P7.iter().map(|level| level % 2 * 2 + level / 2).collect();
    assert!(last("decode -", record(&exchanged)).ends_with(", no byte in any frame"));
}

#[test]
fn start_and_gap_are_kept() {
    let drawn = rig("encode", "start 1000\ngap 7\nSTART\nA0 ACK\nSTOP\n");
    assert_eq!(rig("encode", rig("decode -", &drawn)), drawn);
    assert!(rig("decode -", "0 3\n1000 3").starts_with("start 0\ngap 1000\nlook"));
    assert!(rig("decode -", "0 3\n1001 3").starts_with("start 0\nlook"));
    assert!(rig("decode -", "0 3\n50 3\n101 3").starts_with("start 0\nlook"));
}

#[test]
fn reads_writes_and_data() {
    let list = "START\nA1 ACK\nFF NACK\nrepeated START\n0 NACK\nSTOP\n";
    let expected = "start 0\ngap 50\n50: START\n1000: A1 read ACK\n1900: FF NACK\n2000: repeated START\n\
        2950: 00 write NACK\n3050: STOP\n\
        ok 6 events in 62 samples, no frame open, 0 bits pending\n";
    assert_eq!(rig("decode -", rig("encode", list)), expected);
}

#[test]
fn the_limit_of_samples() {
    let many = |count: usize| record(&vec![3; count]);
    let whole = "look 0 events in 4096 samples, no frame open, 0 bits pending, no byte in any frame";
    assert_eq!(last("decode -", many(4096)), whole);
    assert_eq!(rig("decode -", many(4097)), "refused 6: more than 4096 samples\n");
    assert_eq!(rig("decode -", many(4097) + "x"), "refused 6: more than 4096 samples\n");
    let no_level = "refused 5: stamps and levels differ in number; line 4097 has no level\n";
    assert_eq!(rig("decode -", many(4096) + "999999"), no_level);
    let error = "error line 4097: expected STAMP LEVEL, two decimal numbers, not 'x'\n";
    assert_eq!(rig("decode -", many(4096) + "x"), error);
}

#[test]
fn errors() {
    let expected = "line 1: expected STAMP LEVEL, two decimal numbers, not";
    for (line, word) in [
        ("x 3", "x"),
        ("5 x", "x"),
        ("5 3 1", "1"),
        ("5 x 1", "1"),
        ("4294967296 x", "x"),
        ("0x5 3", "0x5"),
        ("-5 3", "-5"),
        ("OK", "OK"),
        ("refused 9: x", "refused"),
    ] {
        check_errors("decode -", &[(line, &format!("{expected} '{word}'"))]);
    }
    let list = "; this looks like an event list: did you mean rig encode?";
    let loads = "; this looks like a file of loads: did you mean rig clash?";
    for (line, looks) in [
        ("START", list),
        ("gap 5", list),
        ("50: START", list),
        ("cut byte", list),
        ("load x", loads),
        ("boards a b", loads),
        ("ack", loads),
    ] {
        let word = line.split(' ').next().unwrap();
        check_errors("decode -", &[(line, &format!("{expected} '{word}'{looks}"))]);
    }
    let cases = [
        ("4294967296 256", "line 1: the stamp is above 4294967295: '4294967296'"),
        ("99999999999999999999999", "line 1: the stamp is above 4294967295: '99999999999999999999999'"),
        ("5 3\n\n6 256", "line 3: the level is above 255: '256'"),
        ("5\n6 300", "line 2: the level is above 255: '300'"),
        ("5 3\n6 \u{1}", "line 2: a byte that is no text"),
        ("5 3#\u{7f}", "line 1: a byte that is no text"),
    ];
    check_errors("decode -", &cases);
}

/// Each sample twice, or the first many times: the events are the same, at their stamps; all samples are counted.
#[test]
fn thinned() {
    let twice: Vec<u8> = P7.iter().flat_map(|&level| [level, level]).collect();
    let expected = "start 0\ngap 50\n100: START\n2000: A0 write ACK\n2200: STOP\n\
        ok 3 events in 46 samples, no frame open, 0 bits pending\n";
    assert_eq!(rig("decode - --thin", record(&twice)), expected);
    assert_eq!(rig("decode --thin - --room 3", record(&twice)), expected);
    let short = "refused 8: the reply needs more room than was lent\n";
    assert_eq!(rig("decode --thin - --room 2", record(&twice)), short);
    let rested = record(&[&[3; 5000][..], &P7[1..]].concat());
    let expected = "start 0\ngap 50\n250000: START\n250950: A0 write ACK\n251050: STOP\n\
        ok 3 events in 5022 samples, no frame open, 0 bits pending\n";
    assert_eq!(rig("decode - --thin", &rested), expected);
    assert_eq!(rig("decode -", &rested), "refused 6: more than 4096 samples\n");
    let empty = "look 0 events in 0 samples, no frame open, 0 bits pending, no byte in any frame\n";
    assert_eq!(rig("decode - --thin", ""), empty);
}

/// A gap is judged between the samples read: where the bus was sampled on, none is long.
#[test]
fn gaps_of_a_thinned_record() {
    let held = [&P7[..10], &[P7[9]; 16][..], &P7[10..]].concat();
    let output = rig("decode - --thin", record(&held));
    assert!(output.ends_with("\nok 3 events in 39 samples, no frame open, 0 bits pending\n"), "{output}");
    assert_eq!(rig("decode - --thin", late(&P7, 10, 850)), rig("decode -", late(&P7, 10, 850)));
}

#[test]
fn the_limits_of_a_thinned_record() {
    let rest = "no frame open, 0 bits pending, no byte in any frame";
    let many = record(&vec![3; 65_536]);
    assert_eq!(last("decode - --thin", &many), format!("look 0 events in 65536 samples, {rest}"));
    let error = "error line 65537: more than 65536 samples\n";
    assert_eq!(rig("decode - --thin", many.clone() + "9999999 3\nx"), error);
    assert_eq!(rig("decode - --thin", many.clone() + "5"), error);
    let error = "error line 65537: expected STAMP LEVEL, two decimal numbers, not 'x'\n";
    assert_eq!(rig("decode - --thin", many + "x 3"), error);
    let changing = |count: usize| record(&(0..count).map(|index| [3, 1][index % 2]).collect::<Vec<u8>>());
    assert!(rig("decode - --thin", changing(4096)).contains(" in 4096 samples, "));
    assert_eq!(rig("decode - --thin", changing(4097)), "refused 6: more than 4096 samples\n");
    let no_level = "refused 5: stamps and levels differ in number; line 4098 has no level\n";
    assert_eq!(rig("decode - --thin", changing(4097) + "999998\n999999 4\n5 3"), no_level);
    let level = "refused 4 sample 4098 (line 4099): a level is above 3\n";
    assert_eq!(rig("decode - --thin", changing(4097) + "999998 3\n999999 4\n5 3"), level);
    let stamp = "refused 7 sample 4098 (line 4099): a stamp is not above the one before it; \
        its stamp is that of line 4098\n";
    assert_eq!(rig("decode - --thin", changing(4097) + "999998 3\n999998 3"), stamp);
}

#[test]
fn a_dump_is_read_as_ever() {
    let dump = "$timescale 1 us $end $var wire 1 ! scl $end $var wire 1 \" sda $end $enddefinitions $end\n\
        #0 1! 1\"\n#5 0\"\n#7 0!\n#9 1!\n#11 1\"\n";
    let expected = "# a Value Change Dump whose stamps count 1 us\nstart 0\n5: START\n11: STOP\n\
        look 2 events in 5 samples, no frame open, 0 bits pending, no byte in any frame\n";
    assert_eq!(rig("decode - --thin", dump), expected);
}

#[test]
fn places_and_their_lines() {
    assert_eq!(rig("decode -", "# a\n5 3\n6 4\n"), "refused 4 sample 1 (line 3): a level is above 3\n");
    let refused = "refused 7 sample 2 (line 5): a stamp is not above the one before it; \
        its stamp is that of line 3\n";
    assert_eq!(rig("decode -", "5 3\nok\n6 3\n\n6 3\n5 3\n"), refused);
    assert_eq!(last("decode -", "5 3\n4294967295 3")[..4], *"look");
}
