//! Texts for the dump reader: written by the writer, cut at a byte, damaged, with every command in every place,
//! and random ones.

use super::lists::pattern;
use super::traces::{draw_levels, rising_stamps};
use super::{equal, Counts, Difference};
use crate::dump::text;
use crate::dump_reader::record;
use crate::packed::{Interface, Model};
use crate::random::Random;

/// Words that have a meaning somewhere, and some that are near one.
const WORDS: [&str; 52] = [
    "$date",
    "$version",
    "$comment",
    "$timescale",
    "$scope",
    "$upscope",
    "$var",
    "$enddefinitions",
    "$end",
    "$dumpvars",
    "$dumpall",
    "$dumpon",
    "$dumpoff",
    "$endless",
    "$",
    "wire",
    "reg",
    "1",
    "01",
    "2",
    "!",
    "\"",
    "#",
    "scl",
    "sda",
    "module",
    "begin",
    "task",
    "10",
    "100",
    "s",
    "ns",
    "1ns",
    "100fs",
    "10us",
    "01ns",
    "#0",
    "#5",
    "#6",
    "#00007",
    "#4294967295",
    "#4294967296",
    "#99999999999999999999",
    "0!",
    "1!",
    "0\"",
    "1\"",
    "x!",
    "Z\"",
    "1#",
    "x",
    "b1",
];

/// A text that is read, with everything that may stand in one.
const FULL: &str = "$date now $end\n$version v $end\n$comment c $end\n$timescale 1ns $end\n\
    $scope module top $end\n$var wire 1 ! I2C SCL $end\n$var wire 01 \" sda [0] $end\n$upscope $end\n\
    $enddefinitions $end\n$comment c $end\n#5\n$dumpvars\n1!\n1\"\n$end\n#6\n0\"\n#7\n$dumpoff\n0!\n$end\n";

/// One text, read by both sides into slices of any lengths about what it needs; its timescale too.
pub fn case(other: &dyn Interface, random: &mut Random, counts: &mut Counts) -> Result<(), Difference> {
    let (kind, text) = draw(random);
    let needed = record(&text).map_or(0, |record| record.stamps.len());
    let (stamp_room, level_room, salt) = (room(random, needed), room(random, needed), random.bits());
    let ask = |side: &dyn Interface| {
        let mut stamps: Vec<u32> = (0..stamp_room as u64).map(|index| pattern(salt, index) as u32).collect();
        let mut levels: Vec<u8> = (0..level_room as u64).map(|index| pattern(!salt, index) as u8).collect();
        let reply = side.read_dump(&text, &mut stamps, &mut levels);
        (reply, side.dump_timescale(&text), stamps, levels)
    };
    let (model, other) = (ask(&Model), ask(other));
    let inputs = || format!("dump text {:?} rooms {stamp_room} {level_room}", String::from_utf8_lossy(&text));
    equal(&model, &other, inputs, |(reply, timescale, stamps, levels)| {
        let (number, place, count) = (reply & 0xFF, reply >> 8 & 0xFFFF, reply >> 24);
        let slices = format!("stamps {stamps:?}, levels {levels:?}");
        format!("refused {number} place {place} count {count} timescale {timescale}, {slices}")
    })?;
    counts.add(format!("text: {kind}"));
    counts.add(format!("refused {}", model.0 & 0xFF));
    Ok(())
}

/// Room for so many samples: just enough, more, or less.
fn room(random: &mut Random, needed: usize) -> usize {
    match random.below(8) {
        0 => random.below(needed + 1),
        1..=2 => needed + random.below(9),
        _ => needed,
    }
}

/// The kind of a text, and the text.
pub fn draw(random: &mut Random) -> (&'static str, Vec<u8>) {
    match random.below(12) {
        0 => ("written", written(random)),
        1 => {
            let mut text = written(random);
            text.truncate(random.below(text.len() + 1));
            ("written and cut", text)
        }
        2..=3 => {
            let mut text = written(random);
            damage(random, &mut text);
            ("written and damaged", text)
        }
        4 => {
            let length = random.below(FULL.len() + 1);
            ("full and cut", FULL.as_bytes()[..length].to_vec())
        }
        5..=7 => ("full with other words", other_words(random)),
        8..=9 => ("definitions and random values", random_values(random)),
        10 => ("random words", random_words(random)),
        _ if random.once_in(20) => ("long", long(random)),
        _ => ("random bytes", (0..random.below(80)).map(|_| random.byte()).collect()),
    }
}

fn written(random: &mut Random) -> Vec<u8> {
    let (_, levels) = draw_levels(random);
    text(&rising_stamps(random, levels.len()), &levels).into_bytes()
}

/// Some bytes are changed, lost or put in.
fn damage(random: &mut Random, text: &mut Vec<u8>) {
    for _ in 0..random.between(1, 3) {
        let place = random.below(text.len());
        let byte = random.pick(b" \n\t\r\x0b01xXzZ#$!\"b9\xff");
        match random.below(3) {
            0 => text[place] = byte,
            1 if text.len() > 1 => drop(text.remove(place)),
            _ => text.insert(place, byte),
        }
    }
}

/// A byte that parts words, a line's end above all.
fn parting(random: &mut Random) -> char {
    random.pick(&['\n', '\n', '\n', ' ', '\t', '\r'])
}

/// Words one after the other, the last one closed or not.
fn joined(random: &mut Random, words: &[&str]) -> Vec<u8> {
    let mut text = String::new();
    for word in words {
        text += word;
        text.push(parting(random));
    }
    if random.once_in(8) {
        text.pop();
    } else if !random.once_in(8) {
        text.push('\n');
    }
    text.into_bytes()
}

/// The full text with words put in, lost or replaced at any places.
fn other_words(random: &mut Random) -> Vec<u8> {
    let mut words: Vec<&str> = FULL.split_whitespace().collect();
    for _ in 0..random.between(1, 2) {
        let place = random.below(words.len());
        match random.below(3) {
            0 => words[place] = random.pick(&WORDS),
            1 => drop(words.remove(place)),
            _ => words.insert(place, random.pick(&WORDS)),
        }
    }
    joined(random, &words)
}

fn random_words(random: &mut Random) -> Vec<u8> {
    let count = random.below(12);
    let words: Vec<&str> = (0..count).map(|_| random.pick(&WORDS)).collect();
    joined(random, &words)
}

/// Sound definitions; then stamps that mostly rise, and values, comments and sections.
fn random_values(random: &mut Random) -> Vec<u8> {
    let mut words = vec!["$var", "wire", "1", "!", "scl", "$end", "$var", "wire", "1", "\"", "sda", "$end"];
    words.extend(["$enddefinitions", "$end", "#5", "1!", "0\""]);
    let stamps = ["#6", "#7", "#8", "#9", "#10", "#200", "#4294967295"];
    let mut next = 0;
    for _ in 0..random.below(30) {
        match random.below(30) {
            0..=9 if next < stamps.len() => {
                words.push(stamps[next]);
                next += 1;
            }
            10..=11 => words.extend(["$comment", "a", "$end"]),
            12 => {
                words.extend([random.pick(&["$dumpvars", "$dumpall", "$dumpon", "$dumpoff"]), "0!", "$end"])
            }
            13 if random.once_in(8) => words.push(random.pick(&WORDS)),
            _ => words.push(random.pick(&["0!", "1!", "0\"", "1\""])),
        }
    }
    joined(random, &words)
}

/// About the most samples, or about the most bytes.
fn long(random: &mut Random) -> Vec<u8> {
    let count = random.between(4090, 4100);
    let mut text = text(&[], &[]).into_bytes();
    for stamp in 0..count {
        let line = match stamp {
            0 => "#0\n0!\n1\"\n".to_string(),
            _ => format!("#{stamp} {}!\n", stamp % 2),
        };
        text.extend_from_slice(line.as_bytes());
    }
    if random.once_in(2) {
        let byte = random.pick(b"\n x");
        text.resize(random.between(59_998, 60_002), byte);
    }
    text
}
