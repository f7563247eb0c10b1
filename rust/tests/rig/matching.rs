//! `rig match`: the six rules, the three kinds of difference, what is not on the bus, and the last lines.

use super::{last, rig, P8_WAVE};

/// The block of P8: second wins, first lost.
pub const P8: &str = "\
load p8 two boards
  WON    1 second  90 0F                    sent 2 of 2 bytes
  lost   0 first   90 12                    byte 1 bit 3: sends 1, the bus is 0; 2 bytes still to send
  carried 90 ACK, 0F ACK
";

/// That of P9: the bus stops before the two differ.
const P9: &str = "\
load p9 the same, not acknowledged
  UNDECIDED between 0, 1: the bus stopped after byte 0 (90), before they differ; nothing was sent whole
  in     0 first   90 12                    1 of 2 bytes carried
  in     1 second  90 0F                    1 of 2 bytes carried
  carried 90 NACK
";

/// A message in three parts that is cut, and one that lost.
const CUT_IN: &str = "\
load cut-in byte 2 is not acknowledged
  WON    0 power    50 26 / 52 00 / 54 01    CUT after 3 of 6 bytes: byte 2 (52) not acknowledged; 00 / 54 01 not sent
  lost   1 thermal  62 00                    byte 0 bit 2: sends 1, the bus is 0; 2 bytes still to send
  silent 2 radio
  carried 50 ACK, 26 ACK / 52 NACK
";

pub const SENT: &str = "ok 1 load: 1 sent\n";

/// A load of one board, whose message is one byte.
fn single(name: &str, byte: &str) -> String {
    format!(
        "load {name}\n  WON    0 q  {byte}                       sent 1 of 1 byte\n  carried {byte} ACK\n"
    )
}

/// What `rig decode` prints of these frames, their events with `; ` between: frame N begins at 1000 N, and its events
/// are 10 apart.
pub fn capture(frames: &[&str]) -> String {
    let mut text = "start 0\ngap 10\n".to_string();
    for (index, frame) in frames.iter().enumerate() {
        for (place, event) in frame.split("; ").enumerate() {
            text += &format!("{}: {event}\n", 1000 * (index + 1) + 10 * place);
        }
    }
    text + "ok 9 events in 99 samples, no frame open, 0 bits pending\n"
}

/// These blocks with their last line, and these frames, give this text.
pub fn check(blocks: &str, last_line: &str, frames: &[&str], expected: &str) {
    let input = format!("{blocks}{last_line}{}", capture(frames));
    assert_eq!(rig("match", &input), expected, "{input}");
}

pub const FIRST: &str = "START; 90 write ACK; 12 ACK; STOP";
pub const SECOND: &str = "START; 90 write ACK; 0F ACK; STOP";

#[test]
fn a_frame_as_rehearsed_and_the_one_who_lost() {
    let expected = "\
frame 1, 1000 to 1030: p8 as rehearsed, 2 bytes, won by second
frame 2, 2000 to 2030: p8, message of first, waiting since frame 1
ok 2 frames: 1 as rehearsed, 1 waited
";
    check(P8, SENT, &[SECOND, FIRST], expected);
    check(&P8.replace('\n', "\r\n"), SENT, &[SECOND, FIRST], expected);
}

/// What the mirror itself prints of P8, and of its bus: START at sample 1, the bytes where SCL falls, STOP at 40.
#[test]
fn p8_by_its_own_trace() {
    let loads =
        "boards first second\nload p8 two boards\nboard first 90 12\nboard second 90 0F\nack all\nend 1\n";
    let rehearsal = rig("clash - --wave", loads);
    assert!(rehearsal.contains(P8_WAVE));
    let capture = rig("decode - --thin", rig("clash - --trace p8", loads));
    let expected = "\
frame 1, 50 to 2000: p8 as rehearsed, 2 bytes, won by second
not on the bus: p8, message of first, waiting since frame 1
look 1 frame: 1 as rehearsed; 1 message not on the bus
";
    assert_eq!(rig("match", rehearsal + &capture), expected);
    assert_eq!(rig("match", rig("draw - p8", loads) + &capture), expected);
}

/// The first load that has the frame, from the next on; the loads before it were not there.
#[test]
fn a_later_load_and_none_before() {
    let loads = single("a", "A0") + &single("b", "B0") + &single("c", "C0") + &single("c2", "C0");
    let expected = "\
frame 1, 1000 to 1020: c as rehearsed, 1 byte, won by q
frame 2, 2000 to 2020: c2 as rehearsed, 1 byte, won by q
frame 3, 3000 to 3020: not rehearsed: C0 ACK; the message of q in c
not on the bus: a
not on the bus: b
look 3 frames: 2 as rehearsed, 1 not rehearsed; 2 loads not on the bus
";
    let frame = "START; C0 write ACK; STOP";
    check(&loads, "ok 4 loads: 4 sent\n", &[frame, frame, frame], expected);
}

/// A frame before that of the next load is not rehearsed; where a later load's comes first, it is the next load's.
#[test]
fn a_frame_between() {
    let loads = single("a", "A0") + &single("b", "B0");
    let expected = "\
frame 1, 1000 to 1020: not rehearsed: 22 ACK
frame 2, 2000 to 2020: a as rehearsed, 1 byte, won by q
frame 3, 3000 to 3020: b as rehearsed, 1 byte, won by q
look 3 frames: 2 as rehearsed, 1 not rehearsed
";
    let (junk, a, b) =
        ("START; 22 write ACK; STOP", "START; A0 write ACK; STOP", "START; B0 write ACK; STOP");
    check(&loads, "ok 2 loads: 2 sent\n", &[junk, a, b], expected);
    let expected = "\
frame 1, 1000 to 1020: a differs at byte 0 bit 0: rehearsed A0, bus 22
frame 2, 2000 to 2020: b as rehearsed, 1 byte, won by q
frame 3, 3000 to 3020: a, message of q, waiting since frame 1
look 3 frames: 1 as rehearsed, 1 waited, 1 different
";
    check(&loads, "ok 2 loads: 2 sent\n", &[junk, b, a], expected);
}

/// Another board's bytes: that one has sent its message, the others wait.
#[test]
fn at_a_bit() {
    let expected = "\
frame 1, 1000 to 1030: p8 differs at byte 1 bit 3: rehearsed 0F, bus 12; those are first's bytes
not on the bus: p8, message of second, waiting since frame 1
look 1 frame: 1 different; 1 message not on the bus
";
    check(P8, SENT, &[FIRST], expected);
    let expected = "\
frame 1, 1000 to 1030: p8 differs at byte 1 bit 7: rehearsed 0F, bus 0E
frame 2, 2000 to 2030: p8, message of first, waiting since frame 1
not on the bus: p8, message of second, waiting since frame 1
look 2 frames: 1 waited, 1 different; 1 message not on the bus
";
    check(P8, SENT, &["START; 90 write ACK; 0E ACK; STOP", FIRST], expected);
    let expected = "\
frame 1, 1000 to 1040: p8 differs at byte 1 bit 3: rehearsed 0F, bus 12; those are first's bytes
not on the bus: p8, message of second, waiting since frame 1
not on the bus: p8, message of first, waiting since frame 1
look 1 frame: 1 different; 2 messages not on the bus
";
    check(P8, SENT, &["START; 90 write ACK; 12 NACK; 00 ACK; STOP"], expected);
}

/// The message of another board of the next load stands in its place, even where that of the one that won follows.
#[test]
fn the_other_before_the_one_that_wins() {
    let expected = "\
frame 1, 1000 to 1030: p8 differs at byte 1 bit 3: rehearsed 0F, bus 12; those are first's bytes
frame 2, 2000 to 2030: p8, message of second, waiting since frame 1
look 2 frames: 1 waited, 1 different
";
    check(P8, SENT, &[FIRST, SECOND], expected);
}

/// A frame that came twice is not taken for that of a load far on, where the next load's own follows soon enough:
/// among as many frames as there are loads between.
#[test]
fn a_frame_that_came_twice() {
    let [a, b, c] = ["A0", "B0", "C0"].map(|byte| format!("START; {byte} write ACK; STOP"));
    let (a, b, c, junk) = (&a[..], &b[..], &c[..], "START; 22 write ACK; STOP");
    let loads = ["a A0", "b B0", "c C0", "d D0", "a2 A0"].map(|load| {
        let (name, byte) = load.split_once(' ').unwrap();
        single(name, byte)
    });
    let line = |frames: &[&str], index: usize| {
        let output = rig("match", format!("{}{SENT}{}", loads.concat(), capture(frames)));
        output.lines().nth(index).unwrap().split_once(": ").unwrap().1.to_string()
    };
    let twice = "not rehearsed: A0 ACK; the message of q in a";
    let far_on = "a2 as rehearsed, 1 byte, won by q";
    assert_eq!(line(&[a, a, b, c], 1), twice);
    assert_eq!(line(&[a, a, junk, b, c], 1), twice);
    assert_eq!(line(&[a, a, junk, junk, b, c], 1), far_on);
    assert_eq!(line(&[a, a, c, b], 1), "b differs at byte 0 bit 3: rehearsed B0, bus A0");
    assert_eq!(line(&[a, a, c], 1), far_on);
    assert_eq!(line(&[a, a], 1), far_on);
    assert_eq!(line(&[a, c, b], 1), "c as rehearsed, 1 byte, won by q");
    assert_eq!(line(&[a, c, b], 2), "d differs at byte 0 bit 1: rehearsed D0, bus B0");
}

/// A load that is refused or in error lies between, and counts for nothing.
#[test]
fn loads_between_that_have_no_frame() {
    let [a, b, c] = ["A0", "B0", "C0"].map(|byte| format!("START; {byte} write ACK; STOP"));
    let blocks = single("a", "A0")
        + &single("r", "B0").replace("  carried", "  refused 16: x\n  carried")
        + &(single("e", "C0") + "  ERROR: not rehearsed\n")
        + "load nothing\n"
        + &single("c", "C0")
        + &single("b", "B0");
    let expected = "\
frame 1, 1000 to 1020: c as rehearsed, 1 byte, won by q
frame 2, 2000 to 2020: not rehearsed: A0 ACK; the message of q in a
frame 3, 3000 to 3020: b as rehearsed, 1 byte, won by q
frame 4, 4000 to 4020: not rehearsed: B0 ACK; the message of q in r
not on the bus: a
no rehearsal: r, refused
no rehearsal: e, in error
look 4 frames: 2 as rehearsed, 2 not rehearsed; 1 load not on the bus, 1 load refused, 1 load in error
";
    check(&blocks, SENT, &[&c, &a, &b, &b], expected);
}

/// Doubtful is said last, once, of a frame of any kind.
#[test]
fn doubtful_frames() {
    let expected = "\
frame 1, 1000 to 1030: p8 differs at byte 1 bit 3: rehearsed 0F, bus 12; those are first's bytes; doubtful
frame 2, 2000 to 2030: p8, message of second, waiting since frame 1; doubtful
frame 3, 3000 to 3020: z as rehearsed, 1 byte, won by q; doubtful
frame 4, 4000 to 4020: not rehearsed: A0 ACK; the message of q in z; doubtful
frame 5, 5000 to 5020: not rehearsed: cut byte; doubtful
frame 6, 6000 to 6020: not rehearsed: A1 ACK
look 6 frames: 1 as rehearsed, 1 waited, 1 different, 3 not rehearsed
";
    let frames = [
        &FIRST.replace("write ACK", "write ACK doubtful"),
        &SECOND.replace("0F ACK", "0F ACK doubtful"),
        "START; A0 write ACK doubtful; STOP doubtful",
        "START doubtful; A0 write ACK; STOP",
        "START; cut byte doubtful; STOP",
        "START; A1 read ACK; STOP",
    ];
    check(&(P8.to_string() + &single("z", "A0")), "ok 2 loads: 2 sent\n", &frames, expected);
}

#[test]
fn at_an_acknowledge() {
    let line = |frames: &[&str], blocks: &str| {
        rig("match", format!("{blocks}{SENT}{}", capture(frames))).lines().next().unwrap().to_string()
    };
    assert_eq!(
        line(&["START; 90 write ACK; 0F NACK; STOP"], P8),
        "frame 1, 1000 to 1030: p8 differs at byte 1 (0F): rehearsed ACK, bus NACK; those are second's bytes"
    );
    assert_eq!(
        line(&["START; 90 write NACK; STOP"], P8),
        "frame 1, 1000 to 1020: p8 differs at byte 0 (90): rehearsed ACK, bus NACK; those are second's bytes"
    );
    assert_eq!(
        line(&[FIRST], P9),
        "frame 1, 1000 to 1030: p9 differs at byte 0 (90): rehearsed NACK, bus ACK; those are first's bytes"
    );
    assert_eq!(
        line(&["START; 90 write ACK; 77 ACK; STOP"], P9),
        "frame 1, 1000 to 1030: p9 differs at byte 0 (90): rehearsed NACK, bus ACK; those are first's bytes"
    );
}

/// Events that are not two bytes, and none at all.
#[test]
fn at_any_other_event() {
    let begins = |blocks: &str, frame: &str, words: &str| {
        let output = rig("match", format!("{blocks}{SENT}{}", capture(&[frame])));
        let line = output.lines().next().unwrap();
        assert_eq!(line.split_once(": ").unwrap().1, words, "{frame}");
    };
    begins(P8, "START; 90 write ACK; STOP", "p8 differs at byte 1: rehearsed 0F, bus STOP");
    let more = "START; 90 write ACK; 0F ACK; 00 ACK; STOP";
    begins(P8, more, "p8 differs at byte 2: rehearsed STOP, bus 00");
    begins(P8, "START; 90 write ACK; cut byte; STOP", "p8 differs at byte 1: rehearsed 0F, bus cut byte");
    begins(P8, "START; 90 write ACK; 0F ACK", "p8 differs at byte 2: rehearsed STOP, bus nothing");
    begins(P8, "START; 90 write ACK", "p8 differs at byte 1: rehearsed 0F, bus nothing");
    begins(P8, "START", "p8 differs at byte 0: rehearsed 90, bus nothing");
    let restart = "START; 90 write ACK; repeated START; 0F read ACK; STOP";
    begins(P8, restart, "p8 differs at byte 1: rehearsed 0F, bus repeated START");
    let none = "START; 50 write ACK; 26 ACK; 52 NACK; STOP";
    begins(CUT_IN, none, "cut-in differs at byte 2: rehearsed repeated START, bus 52");
    let after = "START; 50 write ACK; 26 ACK; repeated START; 52 write NACK; STOP; 00 ACK";
    begins(CUT_IN, after, "cut-in differs at byte 3: rehearsed nothing, bus 00");
    let longer = "START; 50 write ACK; 26 ACK; repeated START; 52 write NACK; 00 ACK; STOP";
    begins(CUT_IN, longer, "cut-in differs at byte 3: rehearsed STOP, bus 00");
    let whole =
        "START; 50 write ACK; 26 ACK; repeated START; 52 write ACK; 00 ACK; repeated START; 54 write ACK; \
        01 ACK; STOP";
    let words = "cut-in differs at byte 2 (52): rehearsed NACK, bus ACK; those are power's bytes";
    begins(CUT_IN, whole, words);
}

/// Cut: its message is to be sent again, and so is that of the one who lost; in any order, between other frames.
#[test]
fn a_load_that_is_cut() {
    let carried = "START; 50 write ACK; 26 ACK; repeated START; 52 write NACK; STOP";
    let again =
        "START; 50 write ACK; 26 ACK; repeated START; 52 write ACK; 00 ACK; repeated START; 54 write ACK; \
        01 ACK; STOP";
    let thermal = "START; 62 write ACK; 00 ACK; STOP";
    let expected = "\
frame 1, 1000 to 1050: cut-in as rehearsed, 3 bytes, cut, won by power
frame 2, 2000 to 2030: cut-in, message of thermal, waiting since frame 1
frame 3, 3000 to 3030: p8 as rehearsed, 2 bytes, won by second
frame 4, 4000 to 4090: cut-in, message of power, waiting since frame 1
frame 5, 5000 to 5030: p8, message of first, waiting since frame 3
ok 5 frames: 2 as rehearsed, 3 waited
";
    let blocks = format!("{CUT_IN}{P8}");
    check(&blocks, "look 2 loads: 1 sent, 1 cut\n", &[carried, thermal, SECOND, again, FIRST], expected);
}

#[test]
fn an_undecided_load() {
    let expected = "\
frame 1, 1000 to 1020: p9 as rehearsed, 1 byte, undecided between first, second
frame 2, 2000 to 2030: p9, message of second, waiting since frame 1
not on the bus: p9, message of first, waiting since frame 1
look 2 frames: 1 as rehearsed, 1 waited; 1 message not on the bus
";
    let last = "look 1 load: 1 undecided\n";
    check(P9, last, &["START; 90 write NACK; STOP", SECOND], expected);
    let counted = P9.replace("1 of 2 bytes", "10 of 2 bytes");
    check(&counted, last, &["START; 90 write NACK; STOP", SECOND], expected);
    let expected = "\
frame 1, 1000 to 1020: p9 as rehearsed, 1 byte, undecided between first, second
frame 2, 2000 to 2030: p9, message of second, waiting since frame 1
frame 3, 3000 to 3030: p9, message of first, waiting since frame 1
ok 3 frames: 1 as rehearsed, 2 waited
";
    check(P9, last, &["START; 90 write NACK; STOP", SECOND, FIRST], expected);
}

/// The old form, whose boards have numbers alone; a number in two columns.
#[test]
fn boards_without_names() {
    let block = "\
load old
  WON     1  90 0F                    sent 2 of 2 bytes
  WON     2  90 0F                    sent 2 of 2 bytes
  lost    0  90 12                    byte 1 bit 3: sends 1, the bus is 0; 2 bytes still to send
  lost   10  90 12                    byte 1 bit 3: sends 1, the bus is 0; 2 bytes still to send
  carried 90 ACK, 0F ACK
";
    let expected = "\
frame 1, 1000 to 1030: old as rehearsed, 2 bytes, won by board 1, board 2
frame 2, 2000 to 2030: old, message of board 0, board 10, waiting since frame 1
ok 2 frames: 1 as rehearsed, 1 waited
";
    check(block, SENT, &[SECOND, FIRST], expected);
    let expected = "\
frame 1, 1000 to 1030: old differs at byte 1 bit 3: rehearsed 0F, bus 12; those are board 0's bytes
not on the bus: old, message of board 1, waiting since frame 1
not on the bus: old, message of board 2, waiting since frame 1
look 1 frame: 1 different; 2 messages not on the bus
";
    check(block, SENT, &[FIRST], expected);
}

/// Of two loads whose boards wait with one message, the first is meant.
#[test]
fn the_first_load_that_waits() {
    let blocks = P8.to_string() + &P8.replace("p8", "again");
    let expected = "\
frame 1, 1000 to 1030: p8 as rehearsed, 2 bytes, won by second
frame 2, 2000 to 2030: again as rehearsed, 2 bytes, won by second
frame 3, 3000 to 3030: p8, message of first, waiting since frame 1
frame 4, 4000 to 4030: again, message of first, waiting since frame 2
frame 5, 5000 to 5030: not rehearsed: 90 ACK, 12 ACK; the message of first in p8
look 5 frames: 2 as rehearsed, 2 waited, 1 not rehearsed
";
    check(&blocks, "ok 2 loads: 2 sent\n", &[SECOND, SECOND, FIRST, FIRST, FIRST], expected);
}

#[test]
fn frames_that_are_not_rehearsed() {
    let frames = [
        "START; 50 write ACK; 26 NACK; repeated START; 52 write ACK; cut byte; STOP",
        "START; STOP",
        "START; cut byte; repeated START; 51 read NACK doubtful; cut byte doubtful; repeated START; STOP",
        "START; repeated START; STOP",
    ];
    let expected = "\
frame 1, 1000 to 1060: not rehearsed: 50 ACK, 26 NACK / 52 ACK, cut byte
frame 2, 2000 to 2010: not rehearsed: no byte
frame 3, 3000 to 3060: not rehearsed: cut byte / 51 NACK, cut byte; doubtful
frame 4, 4000 to 4020: not rehearsed: no byte
look 4 frames: 4 not rehearsed
";
    check("", "ok 0 loads: \n", &frames, expected);
}

const REFUSED: &str = "\
load clash-16
  refused 16: power (line 44) restarts after 50 26, acknowledged, where thermal (line 45) ends
";

#[test]
fn loads_that_were_not_rehearsed() {
    let blocks = format!("{REFUSED}{P8}{}", REFUSED.replace("clash-16", "another"));
    let expected = "\
frame 1, 1000 to 1030: p8 as rehearsed, 2 bytes, won by second
frame 2, 2000 to 2030: p8, message of first, waiting since frame 1
no rehearsal: clash-16, refused
no rehearsal: another, refused
refused 16: 2 frames: 1 as rehearsed, 1 waited; 2 loads refused
";
    check(&blocks, "refused 16: 3 loads: 1 sent, 2 refused\n", &[SECOND, FIRST], expected);
    let wrong = "! line 9: load bad: expected all, or acknowledges 0 or 1, not 'x'\nload bad\n  ERROR: not \
        rehearsed\n";
    let expected = "\
! line 9: load bad: expected all, or acknowledges 0 or 1, not 'x'
! the file ends without an end line
frame 1, 1000 to 1030: p8 as rehearsed, 2 bytes, won by second
not on the bus: p8, message of first, waiting since frame 1
no rehearsal: bad, in error
error 1 frame: 1 as rehearsed; 1 message not on the bus, 1 load in error, 2 faults in the loads
";
    let end =
        "! the file ends without an end line\nerror 2 loads: 1 sent, 1 in error, 1 fault outside the loads\n";
    check(&format!("{P8}{wrong}"), end, &[SECOND], expected);
    let both = format!("{REFUSED}{wrong}");
    let last_line = "error 0 frames; 1 load refused, 1 load in error, 1 fault in the loads\n";
    assert!(rig("match", format!("{both}error 2 loads: ..\n{}", capture(&[]))).ends_with(last_line));
    check("load nothing\n  silent 0 q\n", SENT, &[], "look 0 frames\n");
}

/// All that a last line may say.
#[test]
fn last_lines() {
    let note =
        "note: no sample from 450 to 1300 (line 11), 17 times the usual gap: samples may be lost there";
    let blocks = single("z", "A0") + P8 + &P9.replace("p9", "never") + &single("y", "B2");
    let frames = capture(&["START; A0 write ACK; STOP", SECOND, "START; 91 read ACK; STOP"]);
    let input = format!(
        "{blocks}look 4 loads: 3 sent, 1 undecided\n{}",
        frames.replace("2010:", &format!("{note}\n2010:"))
    );
    let expected = format!(
        "{note}\nframe 1, 1000 to 1020: z as rehearsed, 1 byte, won by q\n\
         frame 2, 2000 to 2030: p8 as rehearsed, 2 bytes, won by second\n\
         frame 3, 3000 to 3020: never differs at byte 0 bit 7: rehearsed 90, bus 91\n\
         not on the bus: p8, message of first, waiting since frame 2\n\
         not on the bus: never, message of first, waiting since frame 3\n\
         not on the bus: never, message of second, waiting since frame 3\n\
         not on the bus: y\n\
         look 3 frames: 2 as rehearsed, 1 different; 1 load and 3 messages not on the bus, 1 long gap\n"
    );
    assert_eq!(rig("match", input), expected);
    let gaps = format!("{SENT}{note}\n{}", capture(&[]).replace("gap", "note:"));
    assert_eq!(last("match", gaps), "look 0 frames; 2 long gaps");
    let gap = format!("{}{SENT}{note}\n{}", single("z", "A0"), capture(&["START; A0 write ACK; STOP"]));
    assert_eq!(last("match", gap), "look 1 frame: 1 as rehearsed; 1 long gap");
    for (line, number) in [
        ("refused 12: 1 load", "12"),
        ("refused 8", "8"),
        ("refused x: y", "0"),
        ("refused", "0"),
        ("refused 8:: x", "0"),
        ("refused 8:9", "0"),
        ("refused :", "0"),
        ("refused 007:", "7"),
    ] {
        assert_eq!(last("match", format!("{line}\nok\n")), format!("refused {number}: 0 frames"));
    }
    assert_eq!(rig("match", "ok\nok"), "look 0 frames\n");
    assert_eq!(rig("match", "error\nlook"), "error 0 frames\n");
}
