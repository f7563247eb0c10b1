//! The frames of a capture: those that were rehearsed and the messages that wait, most of them as they must be.

use crate::bus::{drawing, REPEATED_START, SAMPLES, START, STOP};
use crate::random::Random;
use crate::rig::matching::Load;

/// A frame as levels: from START on, without the level before it.
pub type Levels = Vec<u8>;

/// The frames of these loads in order, among them the messages of the boards that wait, as far as a capture has room.
pub fn drawn(random: &mut Random, loads: &[Load]) -> Vec<Levels> {
    let spoiling = random.pick(&[2, 6, 20, 1000]);
    let (mut frames, mut waiting): (Vec<Levels>, Vec<Vec<u16>>) = (Vec::new(), Vec::new());
    for (index, load) in loads.iter().enumerate() {
        let Some(rehearsed) = load.frame() else { continue };
        let messages = load.boards.iter().map(|board| board.message.clone());
        let others: Vec<Vec<u16>> = messages.filter(|message| message != rehearsed).collect();
        frames.extend(spoilt(random, rehearsed, &others, spoiling));
        if random.once_in(3) && loads[index + 1..].iter().any(|later| later.frame() == Some(rehearsed)) {
            frames.extend(once_more(random, rehearsed));
        }
        let waits = load.boards.iter().filter(|board| board.fate.waits());
        waiting.extend(waits.map(|board| board.message.clone()));
        while !waiting.is_empty() && random.once_in(3) {
            frames.extend(sent_again(random, &mut waiting, spoiling));
        }
    }
    while !waiting.is_empty() && !random.once_in(2 * spoiling) {
        frames.extend(sent_again(random, &mut waiting, spoiling));
    }
    if random.once_in(spoiling) {
        frames.push(levels_of(&junk(random)));
    }
    if !frames.is_empty() && random.once_in(spoiling) {
        let places = [random.below(frames.len()), random.below(frames.len())];
        frames.swap(places[0], places[1]);
    }
    as_many_as_fit(random, frames)
}

/// A message of one that waits; of boards with the same message one frame is all of theirs, mostly.
fn sent_again(random: &mut Random, waiting: &mut Vec<Vec<u16>>, spoiling: usize) -> Vec<Levels> {
    let message = waiting.remove(random.below(waiting.len()));
    if !random.once_in(8) {
        waiting.retain(|other| *other != message);
    }
    spoilt(random, &message, waiting, spoiling)
}

/// The frames that stand for this one: mostly itself.
fn spoilt(random: &mut Random, frame: &[u16], others: &[Vec<u16>], spoiling: usize) -> Vec<Levels> {
    let levels = levels_of(frame);
    if !random.once_in(spoiling) {
        return vec![levels];
    }
    match random.below(18) {
        0..=1 => vec![],
        2..=3 => vec![levels.clone(), levels],
        4 => vec![levels.clone(), levels_of(&junk(random)), levels],
        5 => vec![levels_of(&junk(random)), levels],
        6 => vec![levels, levels_of(&junk(random))],
        7..=8 if !others.is_empty() => vec![other(random, others)],
        9..=10 if !others.is_empty() => vec![other(random, others), levels],
        11..=12 => vec![cut(random, levels)],
        _ => vec![levels_of(&changed(random, frame))],
    }
}

/// A frame that came before, and up to two of no load after it.
fn once_more(random: &mut Random, frame: &[u16]) -> Vec<Levels> {
    let mut frames = vec![levels_of(frame)];
    for _ in 0..random.pick(&[0, 0, 1, 2]) {
        frames.push(levels_of(&junk(random)));
    }
    frames
}

/// One of these messages.
fn other(random: &mut Random, others: &[Vec<u16>]) -> Levels {
    levels_of(&others[random.below(others.len())])
}

/// Another bit or acknowledge, a byte or a repeated START more or less.
fn changed(random: &mut Random, frame: &[u16]) -> Vec<u16> {
    let mut frame = frame.to_vec();
    let place = random.between(1, frame.len() - 1);
    let is_byte = frame[place] < START;
    match random.below(6) {
        0..=1 if is_byte => frame[place] ^= 1 << random.below(8),
        2 if is_byte => frame[place] ^= 256,
        3 => frame.insert(place, if random.once_in(2) { 0 } else { random.byte().into() }),
        4 if frame.len() > 3 && is_byte => drop(frame.remove(place)),
        5 if place > 1 && frame[place - 1] < START && is_byte => frame.insert(place, REPEATED_START),
        _ => frame[1] ^= 16,
    }
    frame
}

/// The bus stops in the frame, with STOP or without.
fn cut(random: &mut Random, mut levels: Levels) -> Levels {
    levels.truncate(random.between(1, levels.len()));
    if !random.once_in(3) {
        levels.extend([0, 1, 3]);
    }
    levels
}

/// A frame of no load; now and then without a byte.
fn junk(random: &mut Random) -> Vec<u16> {
    let mut frame = vec![START];
    let length = random.pick(&[0, 1, 1, 2, 3]);
    frame.extend((0..length).map(|_| random.pick(&[0x90, 0x50, 0x51, 0x190, 0x0F])));
    frame.push(STOP);
    frame
}

/// The levels of a frame, from START on.
fn levels_of(frame: &[u16]) -> Levels {
    drawing(frame)[1..].to_vec()
}

/// Frames are left out where they do not fit; hardly ever they are not.
fn as_many_as_fit(random: &mut Random, mut frames: Vec<Levels>) -> Vec<Levels> {
    let most =
        if random.once_in(200) { 2 * SAMPLES } else { random.pick(&[SAMPLES / 8, SAMPLES / 2, SAMPLES - 8]) };
    let samples = |frames: &[Levels]| frames.iter().map(Vec::len).sum::<usize>();
    while samples(&frames) > most && frames.len() > 1 {
        frames.remove(random.below(frames.len()));
    }
    frames
}
