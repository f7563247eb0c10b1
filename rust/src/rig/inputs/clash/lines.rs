//! The lines of a file with named boards, each right or, once in a while, wrong.

use crate::arbitration::{Message, MASTERS, MESSAGE_BYTES};
use crate::random::Random;
use crate::rig::inputs::page::Page;

/// Different names, one for each of the most boards.
const NAMES: [&str; MASTERS] = [
    "power",
    "thermal",
    "attitude",
    "radio",
    "memory",
    "a-name-of-16-byt",
    "clock",
    "m\u{e9}mo",
    "payload",
    "mission",
    "b&<c>",
    "star",
    "wheel",
    "gyro",
    "sun-sensor",
    "B9z",
];

/// Some of them, or all.
pub fn draw_names(random: &mut Random) -> Vec<String> {
    let most = random.pick(&[4, 8, MASTERS]);
    let count = if random.once_in(8) { MASTERS } else { random.between(1, most) };
    let from = random.below(MASTERS);
    (0..count).map(|index| NAMES[(from + index) % MASTERS].to_string()).collect()
}

pub fn boards(page: &mut Page, names: &[String], spoiling: usize) {
    let mut words = vec!["boards".to_string()];
    words.extend(names.iter().cloned());
    if page.random.once_in(12 * spoiling) {
        let place = page.random.between(1, words.len());
        let wrong = ["ad", "f", "7up", "-", "a-name-of-17-byte", "\u{e9}", "power", "memory", "x", "Z9~"];
        words.insert(place, page.random.pick(&wrong).to_string());
    }
    if names.len() == MASTERS && page.random.once_in(4 * spoiling) {
        words.push("one-more".to_string());
    }
    if page.random.once_in(24 * spoiling) {
        words.truncate(1);
    }
    page.line(&words);
}

/// `load` with a name and a title.
pub fn load(page: &mut Page, spoiling: usize, index: usize) {
    let mut words = vec!["load".to_string()];
    if page.random.once_in(4 * spoiling) {
        words.extend(odd_name(page.random));
    } else {
        words.push(format!("upload-{index:02}"));
    }
    let titles = [
        "",
        "heater limits",
        "m\u{e9}moire",
        "ok error",
        "a title longer than its column",
        "1 < 2 && 2 > 1; \"x\"",
    ];
    words.extend(page.random.pick(&titles).split_whitespace().map(str::to_string));
    if page.random.once_in(8 * spoiling) {
        words.push("t".repeat(page.random.pick(&[30, 50, 64, 65, 3000])));
    }
    page.line(&words);
}

/// None, too long, just not too long, taken, or a word of the form.
fn odd_name(random: &mut Random) -> Option<String> {
    match random.below(8) {
        0 => None,
        1 => Some("n".repeat(random.pick(&[33, 40, 300]))),
        2 => Some("n".repeat(random.pick(&[10, 11, 25, 26, 32]))),
        3..=4 => Some("upload-00".to_string()),
        _ => Some(
            random.pick(&["load", "ok", "refused", "error", "look", "-", "0", "caf\u{e9}:,"]).to_string(),
        ),
    }
}

/// `board` with a message, or `-`; now and then wrong, left out or there twice.
pub fn board(page: &mut Page, names: &[String], board: usize, message: &Option<Message>, spoiling: usize) {
    let mut words = vec!["board".to_string(), names[board].clone()];
    match message {
        Some(message) => words.extend(page.message(message, Page::two_digits)),
        None => words.push("-".to_string()),
    }
    if page.random.once_in(30 * spoiling) {
        let place = page.random.between(1, words.len());
        let wrong =
            ["5", "9x", "0x50", "100", "/", "/", "-", "nobody", "G0", "m\u{e9}mo", "99999999999999999999"];
        words.insert(place, page.random.pick(&wrong).to_string());
    }
    if page.random.once_in(60 * spoiling) {
        words.truncate(1);
    }
    match page.random.below(60 * spoiling) {
        0 => {}
        1 => {
            page.line(&words);
            page.line(&words);
        }
        _ => page.line(&words),
    }
}

/// The words of an `ack` line, if there is one.
pub fn acks(random: &mut Random, acks: &[u8], spoiling: usize) -> Option<Vec<String>> {
    let mut words: Vec<String> = acks.iter().map(|ack| ack.to_string()).collect();
    if random.once_in(2 * spoiling) {
        match random.below(5) {
            0 => drop(words.pop()),
            1 => words.push("0".to_string()),
            2 => words.resize(random.pick(&[0, MESSAGE_BYTES + 1, 1000, 2040]), "1".to_string()),
            _ => {
                let wrong = ["2", "255", "00", "01", "256", "18446744073709551616", "x", "-1", "A", "all"];
                let place = random.below(words.len() + 1);
                words.insert(place, random.pick(&wrong).to_string());
            }
        }
    }
    match random.below(6) {
        0 => None,
        1 => Some(vec!["all".to_string()]),
        _ => Some(words),
    }
}

pub fn put(page: &mut Page, acks: &Option<Vec<String>>) {
    if let Some(acks) = acks {
        page.line(&[vec!["ack".to_string()], acks.clone()].concat());
    }
}

/// A line that has no place in a load.
pub fn wrong(page: &mut Page) {
    page.one_of(
        "bord power 90; boards power; ack 0; board; expect; Load x; 50: START; 0 3; ok; END 3; board power 5",
    );
}

/// `end` with the right number, or wrong, or left out; and perhaps something after it.
pub fn end(page: &mut Page, loads: usize, spoiling: usize) {
    let number = if page.random.once_in(5 * spoiling) { loads + 1 } else { loads };
    let number = page.decimal(number as u64);
    let mut words = vec!["end".to_string(), number];
    if page.random.once_in(20 * spoiling) {
        let wrong = ["x", "-1", "0x3", "1", "99999999999999999999"];
        words.insert(page.random.between(1, 2), page.random.pick(&wrong).to_string());
    }
    if page.random.once_in(40 * spoiling) {
        words.truncate(1);
    }
    if !page.random.once_in(6 * spoiling) {
        page.line(&words);
    }
    if page.random.once_in(15 * spoiling) {
        page.one_of("load more; end 3; board power 90; x");
        page.one_of("load more; end 3; board power 90; x");
    }
}
