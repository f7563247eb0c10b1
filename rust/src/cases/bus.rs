//! Scripts of records to decode and lists to encode.

use super::{answer_lines, decimal, decimals, spaced};
use crate::bus::{decode, encode, REPEATED_START, START, STOP};

/// The room of each buffer for a `long` list.
const LONG_ROOM: usize = 4200;
/// The byte a `long` list repeats.
const LONG_BYTE: u16 = 0xA5;

/// Answers a script of records and lists.
pub fn bus(script: &str) -> Result<String, String> {
    answer_lines(script, command)
}

fn command(words: &[&str]) -> Result<String, String> {
    match words {
        ["decode", room, record @ ..] => {
            let (stamps, levels) = samples(record)?;
            Ok(decoded(&stamps, &levels, decimal(room)?))
        }
        ["fill", count] => {
            let count: u32 = decimal(count)?;
            Ok(decoded(&(0..count).collect::<Vec<_>>(), &vec![3; count as usize], 8))
        }
        ["encode", start, gap, stamps, levels, events @ ..] => {
            let rooms = (decimal(stamps)?, decimal(levels)?);
            Ok(encoded(&decimals(events)?, decimal(start)?, decimal(gap)?, rooms))
        }
        ["long", frames, bytes, repeated, start, gap] => {
            let events = long_list(decimal(frames)?, decimal(bytes)?, decimal(repeated)?);
            Ok(encoded_sum(&events, decimal(start)?, decimal(gap)?))
        }
        _ => Err("no such command".to_string()),
    }
}

fn samples(words: &[&str]) -> Result<(Vec<u32>, Vec<u8>), String> {
    let mut record = (Vec::new(), Vec::new());
    for word in words {
        let (stamp, level) = word.split_once(':').ok_or("no pair")?;
        record.0.push(decimal(stamp)?);
        record.1.push(decimal(level)?);
    }
    Ok(record)
}

fn decoded(stamps: &[u32], levels: &[u8], room: usize) -> String {
    let mut events = vec![u16::MAX; room];
    let reply = match decode(stamps, levels, &mut events) {
        Ok(reply) => format!(
            "refused 0 place 0 count {} open {} pending {} value {}",
            reply.count,
            u8::from(reply.open),
            reply.pending,
            reply.value
        ),
        Err(refusal) => {
            format!("refused {} place {} count 0 open 0 pending 0 value 0", refusal.number(), refusal.place)
        }
    };
    format!("{reply} |{}", spaced(events))
}

fn encoded(events: &[u16], start: u32, gap: u32, rooms: (usize, usize)) -> String {
    let (mut stamps, mut levels) = (vec![u32::MAX; rooms.0], vec![u8::MAX; rooms.1]);
    let reply = encode_reply(events, start, gap, &mut stamps, &mut levels);
    let pairs = stamps.iter().zip(&levels).map(|(stamp, level)| format!("{stamp}:{level}"));
    format!("{reply} |{}", spaced(pairs))
}

fn encode_reply(events: &[u16], start: u32, gap: u32, stamps: &mut [u32], levels: &mut [u8]) -> String {
    match encode(events, start, gap, stamps, levels) {
        Ok(count) => format!("refused 0 count {count}"),
        Err(refusal) => format!("refused {} count 0", refusal.number()),
    }
}

/// The first frame has the bytes that are over and all repeated STARTs, every other frame one byte.
fn long_list(frames: usize, bytes: usize, repeated: usize) -> Vec<u16> {
    let mut events = vec![START];
    events.extend(vec![LONG_BYTE; bytes - (frames - 1) - repeated]);
    for _ in 0..repeated {
        events.extend([REPEATED_START, LONG_BYTE]);
    }
    events.push(STOP);
    for _ in 1..frames {
        events.extend([START, LONG_BYTE, STOP]);
    }
    events
}

/// The reply and the sum of both whole buffers, modulo 2^32.
fn encoded_sum(events: &[u16], start: u32, gap: u32) -> String {
    let (mut stamps, mut levels) = (vec![u32::MAX; LONG_ROOM], vec![u8::MAX; LONG_ROOM]);
    let reply = encode_reply(events, start, gap, &mut stamps, &mut levels);
    let levels = levels.into_iter().map(u32::from);
    let sum = levels.chain(stamps).fold(0, u32::wrapping_add);
    format!("{reply} sum {sum}")
}
