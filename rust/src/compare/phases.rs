//! Random records for the reader in a mode, with phases of SCL about as long as the mode asks.

use super::lists::{draw_room, pattern};
use super::traces::{draw_levels, reply_words, spoil};
use super::{equal, Counts, Difference};
use crate::packed::{Interface, Model};
use crate::phases::{edges, Mode};
use crate::random::Random;

/// One record, read by both sides in one mode.
pub fn case(other: &dyn Interface, random: &mut Random, counts: &mut Counts) -> Result<(), Difference> {
    let mode = random.pick(&[Mode::Standard, Mode::Fast, Mode::Standard, Mode::Fast, Mode::Unchecked]);
    let (kind, mut levels) = draw_levels(random);
    let mut stamps = stamps_about(random, mode, &levels);
    if random.once_in(3) {
        spoil(random, &mut stamps, &mut levels);
    }
    let mut enough = vec![0; levels.len()];
    let needed = (Model.decode(&stamps, &levels, &mut enough) >> 24 & 0xFFFF) as usize;
    let room = draw_room(random, needed);
    let salt = random.bits();
    let ask = |side: &dyn Interface| {
        let mut events: Vec<u16> = (0..room as u64).map(|index| pattern(salt, index) as u16).collect();
        (side.decode_in(mode, &stamps, &levels, &mut events), events)
    };
    let (model, other) = (ask(&Model), ask(other));
    counts.add(format!("timed: {mode:?}, refused {}", model.0 & 0xFF));
    counts.add(format!("timed: {kind}"));
    counts.add(format!("refused {}", model.0 & 0xFF));
    let inputs = || format!("decode {mode:?} stamps {stamps:?} levels {levels:?} room {room}");
    equal(&model, &other, inputs, |(reply, events)| format!("{}, events {events:?}", reply_words(*reply)))
}

/// Stamps with one gap about as long as the mode's low phase, or with each whole phase about as long as it asks.
fn stamps_about(random: &mut Random, mode: Mode, levels: &[u8]) -> Vec<u32> {
    let limits = mode.limits();
    let start = if random.once_in(2) { 0 } else { random.bits() as u32 / 2 };
    if random.once_in(4) {
        let gap = limits.low.max(2) - 1 + random.below(3) as u32;
        return (0..levels.len() as u32).map(|index| start + gap * index).collect();
    }
    let seldom = random.pick(&[2, 20, 400]);
    let mut stamps = vec![start; levels.len().min(1)];
    for (index, edge) in edges(levels).into_iter().enumerate() {
        let least = if levels[edge - 1] & 1 == 0 { limits.low } else { limits.high };
        let length = match random.below(seldom) {
            _ if index == 0 => 0,
            0 => least.saturating_sub(1),
            1 => least + 100,
            _ => least + random.below(2) as u32,
        };
        rise(random, &mut stamps, edge + 1, length);
    }
    rise(random, &mut stamps, levels.len(), 0);
    stamps
}

/// Adds stamps up to `count`, the last of them `length` after the one that stood last, or more where they must rise.
fn rise(random: &mut Random, stamps: &mut Vec<u32>, count: usize, length: u32) {
    let Some(&from) = stamps.last() else { return };
    let mut last = from;
    while stamps.len() < count {
        let left = (count - stamps.len()) as u32;
        let most = (from + length).saturating_sub(last + left - 1).max(1);
        last += if left == 1 { most } else { random.between(1, most as usize) as u32 };
        stamps.push(last);
    }
}
