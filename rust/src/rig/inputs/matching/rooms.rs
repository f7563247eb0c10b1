//! Inputs about as long as can be kept: loads and boards, events, names, and events of a capture.

use crate::random::Random;

/// About as much of one of them as there is room for.
pub fn text(random: &mut Random) -> Vec<u8> {
    let more = random.between(0, 2);
    let (rehearsal, capture) = match random.below(4) {
        0 => (pieces(16_383 + more), events(3)),
        1 => (messages(random, more), events(3)),
        2 => (names(random, more), events(3)),
        _ => (pieces(2), events(4_095 + more)),
    };
    format!("{rehearsal}ok 1 load: 1 sent\n{capture}ok 3 events in 23 samples\n").into_bytes()
}

/// A load and its boards, so many in all.
fn pieces(count: usize) -> String {
    "load x\n".to_string() + &"  lost 0 a 90\n".repeat(count - 1) + "  carried 90 ACK\n"
}

/// Messages of 131,071 events or up to two more, with the rehearsed frame.
fn messages(random: &mut Random, more: usize) -> String {
    let bytes = random.between(500, 1200);
    let events = 131_071 - 5 + more;
    let (count, last) = (events / (bytes + 2), events % (bytes + 2));
    let line = |bytes: usize| format!("  WON 0 a{}\n", " 90".repeat(bytes));
    let last = if last < 2 { line(last + bytes) } else { line(bytes) + &line(last - 2) };
    format!("load x\n{}{last}  carried 90 ACK / 90 NACK\n", line(bytes).repeat(count - 1))
}

/// Names of 262,143 bytes or up to two more.
fn names(random: &mut Random, more: usize) -> String {
    let bytes = random.pick(&[20, 32, 33, 100, 1000, 4000]);
    let (count, last) = (262_143 / bytes, 262_143 % bytes);
    let name = "n".repeat(bytes);
    let line = |index: usize| match index % 2 {
        0 => format!("load {name}\n"),
        _ => format!("  in 1 {name} 90\n"),
    };
    let lines: String = (0..count).map(line).collect();
    format!("{lines}load {}\n  lost 2 {} 90\n  carried 90 ACK\n", "m".repeat(last), "q".repeat(more))
}

/// So many events in frames of a START, a byte and a STOP.
fn events(count: usize) -> String {
    let event = |index: usize| format!("{}: {}\n", 5 * index, ["START", "90 write ACK", "STOP"][index % 3]);
    (0..count).map(event).collect()
}
