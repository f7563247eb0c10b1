//! Random requests of arbitration: messages that share their beginnings, in parts that often do not agree; and
//! requests spoilt so that they are refused.

use crate::arbitration::{Message, Request, MASTERS, MESSAGE_BYTES};
use crate::packed::Asked;
use crate::random::Random;

/// Messages that share beginnings, of one master up to the most, and acknowledges mostly 0.
pub fn draw_request(random: &mut Random) -> Request {
    let base = draw_message(random);
    let most = random.pick(&[3, 8, MASTERS]);
    let masters = random.between(1, most);
    let messages: Vec<Message> = (0..masters).map(|_| relative(random, &base)).collect();
    let acks = draw_acks(random, &messages);
    Request { messages, acks }
}

/// One for each byte of the longest message; now and then one is 1 where a part of some message ends.
fn draw_acks(random: &mut Random, messages: &[Message]) -> Vec<u8> {
    let longest = messages.iter().map(Message::length).max().unwrap_or(0);
    let refusing = random.pick(&[2, 8, 1000, 1000]);
    let mut acks: Vec<u8> = (0..longest).map(|_| u8::from(random.once_in(refusing))).collect();
    if random.once_in(6) {
        let message = &messages[random.below(messages.len())];
        let parts = random.between(1, message.parts.len());
        acks[message.parts[..parts].concat().len() - 1] = 1;
    }
    acks
}

/// Most are short, some are as long as can be.
fn draw_message(random: &mut Random) -> Message {
    let length = match random.below(16) {
        0..=1 => MESSAGE_BYTES - random.below(2),
        2..=4 => random.between(1, MESSAGE_BYTES),
        _ => random.between(1, 5),
    };
    let bytes: Vec<u8> = (0..length).map(|_| random.byte()).collect();
    writes(parted(random, &bytes))
}

/// The bytes in one part, in some, or each in its own.
fn parted(random: &mut Random, bytes: &[u8]) -> Message {
    let cutting = random.pick(&[2, 3, 8, 1000, 1000]);
    let mut message = Message { parts: vec![vec![bytes[0]]] };
    let each = random.once_in(24);
    for &byte in &bytes[1..] {
        if each || random.once_in(cutting) {
            message.parts.push(Vec::new());
        }
        message.parts.last_mut().expect("a part").push(byte);
    }
    message
}

/// The first byte of each part is even: a write.
fn writes(mut message: Message) -> Message {
    message.parts.iter_mut().for_each(|part| part[0] &= 0xFE);
    message
}

/// The base message, one that parts from it at a byte or at an ending, or one of its own.
fn relative(random: &mut Random, base: &Message) -> Message {
    let mut message = base.clone();
    match random.below(12) {
        0..=1 => {}
        2 => message = base.beginning(random.between(1, base.length())),
        3 => {
            let more: Vec<u8> = (0..random.between(1, 3)).map(|_| random.byte()).collect();
            message.parts.last_mut().expect("a part").extend(more);
        }
        4 => message = draw_message(random),
        5 => message.parts.truncate(random.between(1, base.parts.len())),
        6 => message.parts.push((0..random.between(1, 2)).map(|_| random.byte()).collect()),
        7..=8 => message = in_other_parts(random, base),
        _ => message = leaves(random, base),
    }
    writes(message.beginning(MESSAGE_BYTES))
}

/// The same bytes but for the first of a part: a part cut in two, two put together, or all cut anew.
fn in_other_parts(random: &mut Random, base: &Message) -> Message {
    let mut message = base.clone();
    let part = random.below(base.parts.len());
    let length = base.parts[part].len();
    match random.below(3) {
        0 if length > 1 => {
            let rest = message.parts[part].split_off(random.between(1, length - 1));
            message.parts.insert(part + 1, rest);
        }
        1 if part > 0 => {
            let joined = message.parts.remove(part);
            message.parts[part - 1].extend(joined);
        }
        _ => message = parted(random, &base.bytes()),
    }
    message
}

/// One bit differs at some byte; the parts and the length after it may differ too.
fn leaves(random: &mut Random, base: &Message) -> Message {
    let place = random.below(base.length());
    let mut message = base.beginning(place + 1);
    let last = message.parts.last_mut().and_then(|part| part.last_mut()).expect("a byte");
    *last ^= 1 << random.below(8);
    if random.once_in(2) {
        let tail: Vec<u8> = base.bytes()[place + 1..].to_vec();
        message.parts.last_mut().expect("a part").extend(tail);
    } else {
        message.parts.extend((0..random.below(3)).map(|_| vec![0x5A; 2]));
    }
    message
}

/// One to three faults, so that the order of the refusals shows too.
pub fn spoil(random: &mut Random, asked: &mut Asked) {
    for _ in 0..random.between(1, 3) {
        match random.below(16) {
            0 => asked.counts.clear(),
            1 => too_many(random, asked),
            2..=3 => spoil_part(random, asked),
            4..=5 => spoil_count(random, asked),
            6 => parts_run_out(random, asked),
            7 => asked.bytes.push(random.byte()),
            8 => drop(asked.bytes.pop()),
            9..=10 => make_odd(random, asked),
            11 => drop(asked.acks.pop()),
            12 => asked.acks.push(random.byte() % 3),
            13 => too_long(asked),
            _ => {
                let place = random.below(asked.acks.len() + 1);
                asked.acks.splice(place..(place + 1).min(asked.acks.len()), [random.pick(&[2, 3, 255])]);
            }
        }
    }
}

/// A part of no bytes or far too many, one put in or left out.
fn spoil_part(random: &mut Random, asked: &mut Asked) {
    let part = random.below(asked.parts.len() + 1);
    let length = random.pick(&[0, 0, MESSAGE_BYTES as u32 + 1, 300, u32::MAX]);
    match random.below(4) {
        0 => asked.parts.insert(part, length),
        1 if part < asked.parts.len() => drop(asked.parts.remove(part)),
        _ if part < asked.parts.len() => asked.parts[part] = length,
        _ => {}
    }
}

/// A message of no parts, or with one too many, one too few or as many as can be said.
fn spoil_count(random: &mut Random, asked: &mut Asked) {
    if asked.counts.is_empty() {
        return;
    }
    let message = random.below(asked.counts.len());
    let count = asked.counts[message];
    asked.counts[message] = random.pick(&[0, count.saturating_sub(1), count.saturating_add(1), u32::MAX]);
}

/// The last parts are gone, and their bytes mostly too.
fn parts_run_out(random: &mut Random, asked: &mut Asked) {
    for _ in 0..random.between(1, 3) {
        let length = asked.parts.pop().unwrap_or(0) as usize;
        if !random.once_in(4) {
            asked.bytes.truncate(asked.bytes.len().saturating_sub(length));
        }
    }
}

/// One message more than the most, or a few; parts and bytes follow.
fn too_many(random: &mut Random, asked: &mut Asked) {
    let more = random.pick(&[1, 1, 2, 5]);
    while asked.counts.len() < MASTERS + more {
        asked.counts.push(1);
        asked.parts.push(1);
        asked.bytes.push(0x90);
    }
}

/// The last message has one byte more than the most; the acknowledges follow, and so do the bytes.
fn too_long(asked: &mut Asked) {
    let own = asked.counts.last().map_or(0, |&count| asked.parts.len().min(count as usize));
    let length: u64 = asked.parts[asked.parts.len() - own..].iter().map(|&part| u64::from(part)).sum();
    let Some(last) = asked.parts.last_mut() else { return };
    let more = (MESSAGE_BYTES as u64 + 1).saturating_sub(length);
    *last = last.saturating_add(more as u32);
    asked.bytes.resize(asked.bytes.len() + more as usize, 0x5A);
    asked.acks.resize(asked.acks.len().max(MESSAGE_BYTES + 1), 0);
}

/// The first byte of a part becomes odd.
fn make_odd(random: &mut Random, asked: &mut Asked) {
    let before = asked.parts.iter().take(random.below(asked.parts.len().max(1)));
    let first: usize = before.map(|&length| length.min(100) as usize).sum();
    if let Some(byte) = asked.bytes.get_mut(first) {
        *byte |= 1;
    }
}
