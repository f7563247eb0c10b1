//! Standard input for `rig match`: what the mirror prints of random loads, and then what it prints of a capture in
//! which most of their frames are.

use super::{clash, damage, tonight};
use crate::random::Random;
use crate::rig::answer;
use crate::rig::matching::{rehearsed, Load};
use crate::rig::text::{bytes_of, text_of};
use std::ops::Range;

mod capture;
mod frames;
mod rooms;

/// One in four is damaged in one to three ways, as any file is or in its own words.
pub fn some(random: &mut Random) -> Vec<u8> {
    let mut bytes = text(random);
    if random.once_in(4) {
        for _ in 0..random.between(1, 3) {
            match random.below(3) {
                0 => damage::one(random, &mut bytes),
                1 => replace_word(random, &mut bytes),
                _ => spoil_line(random, &mut bytes),
            }
        }
    }
    bytes
}

/// A rehearsal and a capture; now and then about as much of either as there may be.
fn text(random: &mut Random) -> Vec<u8> {
    if random.once_in(400) {
        return rooms::text(random);
    }
    let (rehearsal, loads) = with_frames(random);
    let frames = frames::drawn(random, &loads);
    [rehearsal, capture::text(random, &frames)].concat()
}

/// A rehearsal, mostly one with a rehearsed frame.
fn with_frames(random: &mut Random) -> (Vec<u8>, Vec<Load>) {
    loop {
        let mut rehearsal = rehearsal(random);
        if random.once_in(3) {
            rehearsal = with_blocks_of(&self::rehearsal(random), &rehearsal);
        }
        if random.once_in(5) {
            rehearsal = with_blocks_of(&rehearsal, &rehearsal);
        }
        while random.once_in(3) {
            rehearsal = with_one_again(random, &rehearsal);
        }
        let loads = rehearsed(&text_of(&rehearsal));
        if loads.iter().any(|load| load.frame().is_some()) || random.once_in(4) {
            return (rehearsal, loads);
        }
    }
}

/// The block of a load once more, under another name, before any block: two loads with one rehearsed frame.
fn with_one_again(random: &mut Random, rehearsal: &[u8]) -> Vec<u8> {
    let mut lines = lines(rehearsal);
    let begins: Vec<usize> = (0..lines.len()).filter(|&line| lines[line].starts_with(b"load ")).collect();
    if begins.is_empty() {
        return rehearsal.to_vec();
    }
    let (from, to) = (random.pick(&begins), random.pick(&begins));
    let rest = lines[from + 1..].iter().take_while(|line| line.starts_with(b" "));
    let block: Vec<Vec<u8>> = lines[from..=from].iter().chain(rest).map(|line| renamed(line)).collect();
    lines.splice(to..to, block);
    lines.concat()
}

/// The blocks of another rehearsal, or of the same once more, after the last of this one.
fn with_blocks_of(other: &[u8], rehearsal: &[u8]) -> Vec<u8> {
    let mut lines = lines(rehearsal);
    let end = blocks_of(&lines).end;
    let others = self::lines(other);
    let blocks = others[blocks_of(&others)].iter().filter(|line| is_of_a_block(line));
    lines.splice(end..end, blocks.map(|line| renamed(line)));
    lines.concat()
}

/// From the first load to the last line of the last; nothing where there is none.
fn blocks_of(lines: &[Vec<u8>]) -> Range<usize> {
    let first = lines.iter().position(|line| line.starts_with(b"load "));
    let last = lines.iter().rposition(|line| is_of_a_block(line));
    first.zip(last).map_or(0..0, |(first, last)| first..last + 1)
}

fn is_of_a_block(line: &[u8]) -> bool {
    line.starts_with(b"load ") || line.starts_with(b" ")
}

/// A line that begins a load, with another name.
fn renamed(line: &[u8]) -> Vec<u8> {
    match line.strip_prefix(b"load ") {
        Some(rest) => [b"load again-", rest].concat(),
        None => line.to_vec(),
    }
}

/// What `rig clash` prints of a file of loads, or in one case of six `rig draw` of a load of it.
fn rehearsal(random: &mut Random) -> Vec<u8> {
    let file = clash::text(random);
    let names = tonight::after(&text_of(&file), "load", 1);
    if !names.is_empty() && random.once_in(6) {
        let name = &names[random.below(names.len())];
        return printed(&["draw", "-", name], &file);
    }
    printed(&["clash", "-", "--wave"], &file)
}

/// What the mirror prints for these words.
fn printed(words: &[&str], input: &[u8]) -> Vec<u8> {
    let words: Vec<Vec<u8>> = words.iter().map(|word| bytes_of(word)).collect();
    answer(&words, &mut &input[..]).output
}

/// A word of some line becomes another that means something, or nearly.
fn replace_word(random: &mut Random, bytes: &mut Vec<u8>) {
    const WORDS: &str = "WON in lost silent carried refused ERROR: ! load ok look error CUT of / ACK, NACK, ACK NACK \
        90 9 0f xy 16: 16 x: : 007: 7: 4294967295: 4294967296: x 3 16:: 8:9 00012 4294967296 99999999999999999999 START STOP repeated \
        cut byte write read doubtful note: start gap UNDECIDED a-board a-name-of-more-than-thirty-two-bytes-or-so";
    let words: Vec<&str> = WORDS.split_whitespace().collect();
    let word = random.pick(&words).as_bytes().to_vec();
    let mut lines = lines(bytes);
    let Some(line) = any(random, &mut lines) else { return };
    let mut parts: Vec<Vec<u8>> = line.split_inclusive(|&byte| byte == b' ').map(<[u8]>::to_vec).collect();
    let place = random.below(parts.len());
    let end = parts[place].last().copied().filter(|byte| b" \n".contains(byte));
    parts[place] = [word, end.into_iter().collect()].concat();
    *line = parts.concat();
    *bytes = lines.concat();
}

/// A line is indented or no longer so, loses its last words, or stands somewhere else.
fn spoil_line(random: &mut Random, bytes: &mut Vec<u8>) {
    let mut lines = lines(bytes);
    let place = random.below(lines.len() + 1);
    let Some(line) = any(random, &mut lines) else { return };
    match random.below(6) {
        0 => line.splice(..0, random.pick(&[&b" "[..], b"\t", b"\r", b"  "]).iter().copied()).for_each(drop),
        1 => line.drain(..line.iter().take_while(|&&byte| byte == b' ').count()).for_each(drop),
        2 => line
            .splice(line.len() - 1.., random.pick(&[&b" #x\n"[..], b" \n", b"\r\n", b" x\n"]).to_vec())
            .for_each(drop),
        3 => {
            let end = random.below(line.len());
            line.drain(end..line.len() - 1).for_each(drop);
        }
        _ => {
            let line = std::mem::take(line);
            lines.insert(place, line);
        }
    }
    *bytes = lines.concat();
}

/// The lines, each with its newline.
fn lines(bytes: &[u8]) -> Vec<Vec<u8>> {
    bytes.split_inclusive(|&byte| byte == b'\n').map(<[u8]>::to_vec).collect()
}

fn any<'a>(random: &mut Random, lines: &'a mut [Vec<u8>]) -> Option<&'a mut Vec<u8>> {
    let place = random.below(lines.len().max(1));
    lines.get_mut(place)
}
