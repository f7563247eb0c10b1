//! `rig sort`, and what `rig decode` and `rig dump` say of a record that it would put in order.

use super::{check_errors, rig};
use rehearsal_model::random::Random;

const EXCHANGED: &str = "look exchanged: rig sort puts samples in order";

/// The text of examples/FILE.
fn example(file: &str) -> String {
    std::fs::read_to_string(format!("{}/../examples/{file}", env!("CARGO_MANIFEST_DIR"))).unwrap()
}

/// A file of these stamps, all with level 3.
fn record(stamps: &[usize]) -> String {
    stamps.iter().map(|stamp| format!("{stamp} 3\n")).collect()
}

/// The one line that these samples get.
fn refused(input: &str, line: &str) {
    assert_eq!(rig("sort -", input), format!("refused {line}\n"), "{input:?}");
}

#[test]
fn the_crossed_example_is_the_clean_one_again() {
    let clean = example("clean.trace");
    let samples: String =
        clean.lines().filter(|line| !line.starts_with('#')).map(|l| format!("{l}\n")).collect();
    let sorted = rig("sort -", example("crossed.trace"));
    assert_eq!(sorted, format!("{samples}ok 98 samples, 1 out of order\n"));
    assert_eq!(rig("decode -", &sorted), rig("decode -", &clean));
    assert_eq!(rig("dump -", &sorted), rig("dump -", &clean));
    assert_eq!(rig("sort -", &clean), format!("{samples}ok 98 samples, all in order\n"));
}

#[test]
fn four_packets_that_crossed() {
    let sorted = "0 3\n10 1\n20 0\n30 1\n40 2\n50 3\n60 1\n70 3\n";
    let packets = ["0 3\n10 1\n", "20 0\n30 1\n", "40 2\n50 3\n", "60 1\n70 3\n"];
    for (order, words) in [
        ([0, 1, 2, 3], "all in order"),
        ([1, 0, 2, 3], "1 out of order"),
        ([1, 2, 3, 0], "1 out of order"),
        ([3, 0, 1, 2], "1 out of order"),
        ([1, 0, 3, 2], "2 out of order"),
        ([2, 0, 3, 1], "2 out of order"),
        ([3, 2, 1, 0], "3 out of order"),
    ] {
        let output = rig("sort -", order.map(|packet| packets[packet]).concat());
        assert_eq!(output, format!("{sorted}ok 8 samples, {words}\n"), "{order:?}");
    }
}

#[test]
fn what_stands_beside_the_samples() {
    let input = "# late\n\n 0050 01 # a level\r\nok 2 samples, all in order\nlook\n\t7 2\nok";
    assert_eq!(rig("sort -", input), "7 2\n50 1\nok 2 samples, 1 out of order\n");
    let largest = "4294967295 3\n0 0\n";
    assert_eq!(rig("sort -", largest), "0 0\n4294967295 3\nok 2 samples, 1 out of order\n");
}

#[test]
fn no_sample_and_one() {
    for input in ["", "\n", "# nothing\n", "ok 5 samples\nlook 0 samples\n"] {
        assert_eq!(rig("sort -", input), "look 0 samples\n", "{input:?}");
    }
    assert_eq!(rig("sort -", "7 3"), "7 3\nok 1 sample, all in order\n");
    assert_eq!(rig("sort -", rig("sort -", "")), "look 0 samples\n");
}

#[test]
fn two_samples_with_one_stamp() {
    refused("5 3\n5 3\n", "7 sample 1 (line 2): its stamp is that of line 1");
    refused("5 3\n6 1\n5 3\n", "7 sample 2 (line 3): its stamp is that of line 1");
    refused("# a\n5 3\nok\n6 3\n\n6 1\n5 3\n", "7 sample 2 (line 6): its stamp is that of line 4");
    refused(&record(&[9, 8, 7, 8, 9]), "7 sample 3 (line 4): its stamp is that of line 2");
    refused(&record(&[1, 2, 3, 1, 1]), "7 sample 3 (line 4): its stamp is that of line 1");
    refused(&record(&[0, 4_294_967_295, 0]), "7 sample 2 (line 3): its stamp is that of line 1");
    refused(
        &(record(&(0..4095).rev().collect::<Vec<_>>()) + "0 1"),
        "7 sample 4095 (line 4096): its stamp is that of line 4095",
    );
}

#[test]
fn as_many_as_there_may_be() {
    let falling = |count: usize| record(&(0..count).rev().collect::<Vec<_>>());
    let expected = record(&(0..4096).collect::<Vec<_>>()) + "ok 4096 samples, 4095 out of order\n";
    assert_eq!(rig("sort -", falling(4096)), expected);
    refused(&falling(4097), "6: more than 4096 samples");
    refused(&(falling(4097) + "x"), "6: more than 4096 samples");
    refused(&record(&[5; 4097]), "6: more than 4096 samples");
    refused(&falling(4097).replace("0 3\n", "0 4\n"), "6: more than 4096 samples");
    let no_level = "5: stamps and levels differ in number; line 4097 has no level";
    refused(&(falling(4096) + "999999"), no_level);
}

#[test]
fn a_line_without_a_level() {
    refused("5 9\n\n4\n4", "5: stamps and levels differ in number; line 3 has no level");
    refused("4", "5: stamps and levels differ in number; line 1 has no level");
}

#[test]
fn a_level_above_3() {
    refused("6 3\n5 4\n", "4 sample 1 (line 2): a level is above 3");
    refused("# a\n5 3\n5 3\n6 255\n4 4\n", "4 sample 2 (line 4): a level is above 3");
}

#[test]
fn errors() {
    let expected = "line 2: expected STAMP LEVEL, two decimal numbers, not";
    let list = "; this looks like an event list: did you mean rig encode?";
    let loads = "; this looks like a file of loads: did you mean rig clash?";
    let dump = "; this looks like a Value Change Dump: did you mean rig decode?";
    for (line, word, looks) in [
        ("x 3", "x", ""),
        ("5 x", "x", ""),
        ("5 3 1", "1", ""),
        ("refused 7 sample 1", "refused", ""),
        ("START", "START", list),
        ("start 5", "start", list),
        ("50: START", "50:", list),
        ("boards a b", "boards", loads),
        ("load x", "load", loads),
        ("$timescale", "$timescale", dump),
    ] {
        check_errors("sort -", &[(&format!("9 3\n{line}\n9 3\n"), &format!("{expected} '{word}'{looks}"))]);
    }
    let cases = [
        ("9 3\n4294967296 3", "line 2: the stamp is above 4294967295: '4294967296'"),
        ("9 3\n9 256", "line 2: the level is above 255: '256'"),
        ("9 3\n9 \u{1}", "line 2: a byte that is no text"),
        (&format!("9 3\n{:04097}", 0), "line 2: longer than 4096 bytes"),
    ];
    check_errors("sort -", &cases);
}

/// In a dump the order of the lines is that of the stamps, so it is not sorted.
#[test]
fn a_dump_is_not_sorted() {
    let looks = "this looks like a Value Change Dump: did you mean rig decode?";
    let error = format!("line 1: expected STAMP LEVEL, two decimal numbers, not '$timescale'; {looks}");
    check_errors("sort -", &[(&example("case.vcd"), &error)]);
}

#[test]
fn the_command_line() {
    for (arguments, words) in [
        ("sort", "expected a file, or - for standard input"),
        ("sort a b", "a second file 'b': sort reads one"),
        ("sort - -", "- stands twice: standard input is read once"),
        ("sort - --room 5", "unknown option '--room' for sort"),
        ("sort --fast -", "unknown option '--fast' for sort"),
        ("sort --corrections x -", "unknown option '--corrections' for sort"),
        ("sort /none", "cannot open /none: no such file"),
        ("sort /", "cannot read /: it is a directory"),
    ] {
        check_errors(arguments, &[("5 3", words)]);
    }
}

/// Samples in any order, against a sort of their own.
#[test]
fn any_order() {
    let mut random = Random::new(7);
    for _ in 0..300 {
        let count = random.between(2, 60);
        let mut samples: Vec<(usize, u8)> = (0..count).map(|at| (7 * at, random.below(4) as u8)).collect();
        let text = |samples: &[(usize, u8)]| -> String {
            samples.iter().map(|(stamp, level)| format!("{stamp} {level}\n")).collect()
        };
        let expected = text(&samples);
        (1..count).for_each(|at| samples.swap(at, random.below(at + 1)));
        let late = (1..count).filter(|&at| samples[at].0 < samples[at - 1].0).count();
        let words = if late == 0 { "all in order".to_string() } else { format!("{late} out of order") };
        let output = rig("sort -", text(&samples));
        assert_eq!(output, format!("{expected}ok {count} samples, {words}\n"));
        assert_eq!(rig("sort -", output), format!("{expected}ok {count} samples, all in order\n"));
    }
}

/// What decode and dump say after the words of 7, at sample P on line L.
fn crossed(stamps: &[usize], place: usize, more: &str) {
    let line = place + 1;
    let words = "a stamp is not above the one before it";
    let expected = format!("refused 7 sample {place} (line {line}): {words}; {more}\n");
    for arguments in ["decode -", "decode - --standard", "decode --fast - --room 0", "dump -"] {
        assert_eq!(rig(arguments, record(stamps)), expected, "{arguments}: {stamps:?}");
    }
}

#[test]
fn lines_that_look_exchanged() {
    let lines = |stamps: &[usize], place: usize, which: &str| {
        crossed(stamps, place, &format!("lines {which} {EXCHANGED}"))
    };
    lines(&[5, 0], 1, "1 and 2");
    lines(&[1, 5, 3, 7], 2, "2 and 3");
    lines(&[1, 5, 6, 3], 3, "2 to 3 and 4");
    lines(&[1, 5, 2, 3, 9], 2, "2 and 3 to 4");
    lines(&[1, 2, 5, 6, 3, 4, 7], 4, "3 to 4 and 5 to 6");
    lines(&[1, 2, 5, 6, 3, 4], 4, "3 to 4 and 5 to 6");
    lines(&[5, 6, 7, 0, 1, 2, 3, 4], 3, "1 to 3 and 4 to 8");
    // the stamps of the second run rise
    lines(&[1, 5, 6, 3, 4, 2], 3, "2 to 3 and 4 to 5");
    lines(&[1, 5, 6, 3, 3, 4], 3, "2 to 3 and 4");
    // and are below the first of the first run
    lines(&[1, 5, 6, 3, 4, 5], 3, "2 to 3 and 4 to 5");
    lines(&[1, 5, 9, 3, 7], 3, "2 to 3 and 4");
    // only the first sample that does not rise is told
    lines(&[1, 5, 4, 9, 8], 2, "2 and 3");
}

#[test]
fn the_line_with_the_same_stamp() {
    crossed(&[5, 5], 1, "its stamp is that of line 1");
    crossed(&[5, 6, 6, 5], 2, "its stamp is that of line 2");
    crossed(&[4, 5, 6, 7, 5, 6], 4, "its stamp is that of line 2");
    crossed(&[0, 4_294_967_295, 0], 2, "its stamp is that of line 1");
}

#[test]
fn lines_of_the_file_are_told() {
    let words = "a stamp is not above the one before it";
    let input = "# a\n1 3\n\n5 3\nok\n6 3\n# b\n3 3\n\n4 3\n9 3\n";
    let expected = format!("refused 7 sample 3 (line 8): {words}; lines 4 to 6 and 8 to 10 {EXCHANGED}\n");
    assert_eq!(rig("decode -", input), expected);
    assert_eq!(rig("dump -", input), expected);
    let output = rig("decode -", example("crossed.trace"));
    let expected =
        format!("refused 7 sample 48 (line 50): {words}; lines 34 to 49 and 50 to 65 {EXCHANGED}\n");
    assert_eq!(output, expected);
    assert_eq!(rig("decode -", "5 3\n5 4\n"), "refused 4 sample 1 (line 2): a level is above 3\n");
}
