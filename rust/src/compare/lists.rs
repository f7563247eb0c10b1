//! Random event lists for the writer: the reply and both whole buffers.

use super::{equal, Counts, Difference};
use crate::bus::{complete, sample_count, GAP, REPEATED_START, SAMPLES, START, STOP};
use crate::packed::{Interface, Model};
use crate::random::Random;

/// One list, drawn by both sides.
pub fn case(other: &dyn Interface, random: &mut Random, counts: &mut Counts) -> Result<(), Difference> {
    let (kind, events) = draw_list(random);
    let gap = draw_gap(random);
    let needed = if complete(&events) { sample_count(&events).min(SAMPLES + 1) } else { 1 };
    let start = draw_start(random, u64::from(gap) * (needed as u64 - 1));
    let (stamps, levels) = (draw_room(random, needed), draw_room(random, needed));
    let salt = random.bits();
    let ask = |side: &dyn Interface| {
        let mut stamps: Vec<u32> = (0..stamps as u64).map(|index| pattern(salt, index) as u32).collect();
        let mut levels: Vec<u8> = (0..levels as u64).map(|index| pattern(salt, index) as u8).collect();
        let reply = side.encode(&events, start, gap, &mut stamps, &mut levels);
        (reply, stamps, levels)
    };
    let (model, other) = (ask(&Model), ask(other));
    counts.add(format!("list: {kind}"));
    counts.add(format!("refused {}", model.0 & 0xFF));
    let inputs = || format!("encode {events:?} start {start} gap {gap} rooms {stamps} {levels}");
    equal(&model, &other, inputs, |answer| {
        let (reply, stamps, levels) = answer;
        format!("refused {} count {}, stamps {stamps:?}, levels {levels:?}", reply & 0xFF, reply >> 8)
    })
}

/// What a buffer holds before a call.
pub fn pattern(salt: u64, index: u64) -> u64 {
    Random::new(salt ^ index).bits()
}

/// A list, complete or not, and what kind it is.
pub fn draw_list(random: &mut Random) -> (&'static str, Vec<u16>) {
    let mut events = complete_list(random);
    match random.below(8) {
        0..=3 => ("complete", events),
        4..=6 => {
            damage(random, &mut events);
            ("damaged", events)
        }
        _ if random.once_in(8) => ("about 4,096 samples", long_list(random)),
        _ => ("any entries", (0..random.below(8)).map(|_| any_entry(random)).collect()),
    }
}

/// Zero to three frames of a few bytes each.
pub fn complete_list(random: &mut Random) -> Vec<u16> {
    let mut events = Vec::new();
    for _ in 0..random.below(4) {
        events.push(START);
        bytes(random, &mut events);
        while random.once_in(3) {
            events.push(REPEATED_START);
            bytes(random, &mut events);
        }
        events.push(STOP);
    }
    events
}

/// One to three bytes, each with its acknowledge.
fn bytes(random: &mut Random, events: &mut Vec<u16>) {
    for _ in 0..random.between(1, 3) {
        events.push(random.below(512) as u16);
    }
}

/// 220 to 240 bytes with repeated STARTs and STOPs among them; now and then far too long.
pub fn long_list(random: &mut Random) -> Vec<u16> {
    let bytes = if random.once_in(8) { random.between(300, 2000) } else { random.between(220, 228) };
    let (repeated, frames) = (random.between(8, 100), random.between(8, 100));
    let mut events = vec![START];
    for _ in 1..bytes {
        events.push(random.below(512) as u16);
        if random.once_in(repeated) {
            events.push(REPEATED_START);
        } else if random.once_in(frames) {
            events.extend([STOP, START]);
        }
    }
    events.extend([random.below(512) as u16, STOP]);
    events
}

/// One or two entries are lost, doubled, put in or replaced, or the end is cut off.
fn damage(random: &mut Random, events: &mut Vec<u16>) {
    for _ in 0..random.between(1, 2) {
        let place = random.below(events.len() + 1);
        let entry = any_entry(random);
        match random.below(4) {
            0 if place < events.len() => drop(events.remove(place)),
            1 if place < events.len() => events[place] = entry,
            2 => events.truncate(place),
            _ => events.insert(place, entry),
        }
    }
}

fn any_entry(random: &mut Random) -> u16 {
    match random.below(4) {
        0 => random.bits() as u16,
        1 => random.below(512) as u16,
        _ => random.between(508, 520) as u16,
    }
}

/// Any gap, often one at the limits.
pub fn draw_gap(random: &mut Random) -> u32 {
    match random.below(16) {
        0 => 0,
        1 => GAP + 1,
        2 => random.bits() as u32,
        3 => u32::MAX,
        4..=6 => 1,
        7..=9 => GAP,
        _ => random.between(1, GAP as usize) as u32,
    }
}

/// Any start, or one whose last stamp, `span` after it, is close to 2^32.
pub fn draw_start(random: &mut Random, span: u64) -> u32 {
    let limit = u64::from(u32::MAX);
    match random.below(4) {
        0 => random.pick(&[0, 1, u32::MAX]),
        1 => random.bits() as u32,
        _ => (limit.saturating_sub(span) + random.below(5) as u64).saturating_sub(2).min(limit) as u32,
    }
}

/// A room for `needed` items: exact, too short by any number, or with a rest.
pub fn draw_room(random: &mut Random, needed: usize) -> usize {
    match random.below(16) {
        0 => random.below(needed + 1),
        1 => needed.saturating_sub(1),
        2..=5 => needed,
        _ => needed + random.between(1, 12),
    }
}
