//! Files of corrections, for `--corrections`, mostly for loads and boards of the other file.

use super::damage;
use super::page::Page;
use crate::arbitration::{MASTERS, MESSAGE_BYTES};
use crate::random::Random;
use crate::rig::text::text_of;

/// Corrections for this file of loads, one in six of them damaged.
pub fn some(random: &mut Random, input: &[u8]) -> Vec<u8> {
    let mut bytes = text(random, input);
    if random.once_in(6) {
        damage::one(random, &mut bytes);
    }
    bytes
}

/// The words of a file that follow a first word.
pub fn after(text: &str, first: &str, most: usize) -> Vec<String> {
    let lines = text.lines().map(|line| line.split([' ', '\t', '\r']).filter(|word| !word.is_empty()));
    let mut words = Vec::new();
    for mut line in lines {
        if line.next() == Some(first) {
            words.extend(line.take(most).map(str::to_string));
        }
    }
    words
}

/// Up to four loads of the file, now and then many, or one that the file does not have.
fn text(random: &mut Random, input: &[u8]) -> Vec<u8> {
    let input = text_of(input);
    let (mut loads, mut boards) = (after(&input, "load", 1), after(&input, "boards", MASTERS));
    loads.dedup();
    boards.dedup();
    let spoiling = random.pick(&[2, 10, 1000, 1000]);
    if random.once_in(64) {
        return many(random);
    }
    for _ in 0..loads.len() {
        let turn = random.below(loads.len());
        loads.swap(0, turn);
    }
    loads.truncate(random.below(5));
    if loads.is_empty() && !random.once_in(8) || random.once_in(4 * spoiling) {
        loads.push(random.pick(&["upload-00", "upload-01", "none", "?", "x"]).to_string());
    }
    if random.once_in(8 * spoiling) {
        loads.extend(loads.first().cloned());
    }
    let mut page = Page::new(random);
    for name in &loads {
        load(&mut page, name, &boards, spoiling);
    }
    end(&mut page, loads.len(), spoiling);
    page.finish()
}

fn load(page: &mut Page, name: &str, boards: &[String], spoiling: usize) {
    let mut words = vec!["load".to_string(), name.to_string()];
    match page.random.below(24 * spoiling) {
        0 => words.truncate(1),
        1 => words[1] = "n".repeat(33),
        2 => words.push("title".to_string()),
        3 => page.one_of("board power 50; boards power; ack all; x; end; load"),
        _ => {}
    }
    page.line(&words);
    let count = page.random.between(1, boards.len().max(1));
    let from = page.random.below(boards.len().max(1));
    for index in 0..count {
        let name = boards.get((from + index) % boards.len().max(1)).map_or("power", String::as_str);
        if !page.random.once_in(12 * spoiling) {
            board(page, name, spoiling);
        }
        if page.random.once_in(24 * spoiling) {
            board(page, name, spoiling);
        }
    }
    if page.random.once_in(12 * spoiling) {
        page.one_of(
            "board nobody 50; board 50 26; board; board power; ack all; boards power; expect power 1/1; \
            board nobody - 50; board nobody 5; board nobody 50 -; board a-name-of-17-byte 50",
        );
    }
}

/// A message that shares its beginning with others, or none.
fn board(page: &mut Page, name: &str, spoiling: usize) {
    let mut words = vec!["board".to_string(), name.to_string()];
    if page.random.once_in(4) {
        words.push("-".to_string());
        return page.line(&words);
    }
    let most = page.random.pick(&[2, 4, 8, MESSAGE_BYTES]);
    let mut length = page.random.between(1, most);
    if page.random.once_in(16 * spoiling) {
        length = page.random.pick(&[0, MESSAGE_BYTES - 1, MESSAGE_BYTES, MESSAGE_BYTES + 1, 300]);
    }
    let cutting = page.random.pick(&[0, 0, 2, 6]);
    for index in 0..length {
        let odd = index == 0 && page.random.once_in(8 * spoiling);
        let byte = page.random.pick(&[0x50, 0x50, 0x62, 0x00, 0xFE]) | u8::from(odd);
        let byte = page.two_digits(byte);
        words.push(byte);
        if cutting > 0 && index + 1 < length && page.random.once_in(cutting) {
            words.push("/".to_string());
        }
    }
    if page.random.once_in(16 * spoiling) {
        words.insert(page.random.between(2, words.len()), "/".to_string());
    }
    page.line(&words);
}

/// About 256 corrections of loads that are in no file.
fn many(random: &mut Random) -> Vec<u8> {
    let count = random.between(255, 258);
    let size = random.pick(&[1, 8, 300]);
    let mut text = String::new();
    for index in 0..count {
        if index % size == 0 {
            text += &format!("load upload-{:02}\n", index / size);
        }
        text += &format!("board q{index} 50\n");
    }
    text += &format!("end {}\n", count.div_ceil(size));
    text.into_bytes()
}

fn end(page: &mut Page, loads: usize, spoiling: usize) {
    let count = page.decimal(loads as u64);
    match page.random.below(24 * spoiling) {
        0 => {}
        1 => page.one_of("end; end x; end 1 1; end 99999999999999999999; end 7"),
        2 => {
            page.line(&["end", &count]);
            page.one_of("end 1; load x; x");
        }
        _ => page.line(&["end", &count]),
    }
}
