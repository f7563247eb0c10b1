//! Random records for the reader: the reply and the whole buffer.

use super::lists::{complete_list, draw_room, long_list, pattern};
use super::{equal, Counts, Difference};
use crate::bus::{drawing, SAMPLES};
use crate::packed::{Interface, Model};
use crate::random::Random;

/// One record, read by both sides.
pub fn case(other: &dyn Interface, random: &mut Random, counts: &mut Counts) -> Result<(), Difference> {
    let (kind, mut levels) = draw_levels(random);
    let mut stamps = rising_stamps(random, levels.len());
    let faults = spoil(random, &mut stamps, &mut levels);
    let mut enough = vec![0; levels.len()];
    let needed = (Model.decode(&stamps, &levels, &mut enough) >> 24 & 0xFFFF) as usize;
    let room = draw_room(random, needed);
    let salt = random.bits();
    let ask = |side: &dyn Interface| {
        let mut events: Vec<u16> = (0..room as u64).map(|index| pattern(salt, index) as u16).collect();
        (side.decode(&stamps, &levels, &mut events), events)
    };
    let (model, other) = (ask(&Model), ask(other));
    counts.add(format!("trace: {kind}"));
    counts.add(format!("trace: {faults} faults"));
    counts.add(format!("refused {}", model.0 & 0xFF));
    let inputs = || format!("decode stamps {stamps:?} levels {levels:?} room {room}");
    equal(&model, &other, inputs, |(reply, events)| format!("{}, events {events:?}", reply_words(*reply)))
}

pub(super) fn reply_words(reply: u64) -> String {
    let part = |low: u32, width: u32| reply >> low & ((1 << width) - 1);
    format!(
        "refused {} place {} count {} open {} pending {} value {}",
        part(0, 8),
        part(8, 16),
        part(24, 16),
        part(40, 8),
        part(48, 8),
        part(56, 8)
    )
}

pub(super) fn draw_levels(random: &mut Random) -> (&'static str, Vec<u8>) {
    let mut levels = drawing(&complete_list(random));
    match random.below(10) {
        0..=1 => ("drawn", levels),
        2 => {
            levels.truncate(random.below(levels.len() + 1));
            ("drawn and cut", levels)
        }
        3..=5 => {
            damage(random, &mut levels);
            ("drawn and damaged", levels)
        }
        6..=7 => ("one line changes at a time", walk(random)),
        8 if random.once_in(16) => ("long", long_levels(random)),
        _ => ("any levels", (0..random.below(60)).map(|_| random.byte() % 4).collect()),
    }
}

/// Some samples are changed, lost or doubled, and a beginning is cut off now and then.
fn damage(random: &mut Random, levels: &mut Vec<u8>) {
    for _ in 0..random.between(1, 4) {
        let place = random.below(levels.len());
        match random.below(3) {
            0 => levels[place] ^= random.between(1, 3) as u8,
            1 if levels.len() > 1 => drop(levels.remove(place)),
            _ => levels.insert(place, random.byte() % 4),
        }
    }
    if random.once_in(4) {
        levels.drain(..random.below(levels.len()));
    }
}

/// A walk in which one line changes, SCL more often than SDA, or none.
fn walk(random: &mut Random) -> Vec<u8> {
    let mut level = random.byte() % 4;
    let turns = random.between(2, 12);
    let mut levels = Vec::new();
    for _ in 0..random.below(120) {
        levels.push(level);
        level ^= match random.below(turns) {
            0 => 2,
            1 if level & 1 == 0 => 2,
            2 => 0,
            _ => 1,
        };
    }
    levels
}

/// About 4,096 samples: a long drawing, cut to the limit, or with some samples more.
fn long_levels(random: &mut Random) -> Vec<u8> {
    let mut levels = drawing(&long_list(random));
    if random.once_in(2) {
        levels.resize(SAMPLES + random.below(3) - 1, 3);
    }
    levels
}

pub(super) fn rising_stamps(random: &mut Random, count: usize) -> Vec<u32> {
    let mut stamp = if random.once_in(2) { 0 } else { random.bits() as u32 / 2 };
    let widest = random.pick(&[1, 3, 1000, 100_000]);
    let mut stamps = Vec::new();
    for _ in 0..count {
        stamps.push(stamp);
        stamp += random.between(1, widest) as u32;
    }
    stamps
}

/// Puts in faults, sometimes several: equal or falling stamps, levels above 3, one more or one less.
pub(super) fn spoil(random: &mut Random, stamps: &mut Vec<u32>, levels: &mut Vec<u8>) -> usize {
    let mut faults = 0;
    while levels.len() > 1 && random.once_in(4) {
        let place = random.between(1, levels.len() - 1);
        match random.below(5) {
            0 => stamps[place] = stamps[place - 1],
            1 => stamps[place] = random.below(stamps[place - 1] as usize + 1) as u32,
            2 => levels[place] = random.between(4, 255) as u8,
            3 => levels[0] = random.pick(&[4, 7, 255]),
            _ if faults == 0 && random.once_in(2) => drop(levels.pop()),
            _ if faults == 0 => stamps.push(u32::MAX),
            _ => continue,
        }
        faults += 1;
        if stamps.len() != levels.len() {
            break;
        }
    }
    faults
}
