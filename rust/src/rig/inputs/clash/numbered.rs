//! Files of the old form, whose boards are numbered by their rows.

use super::{too_long, Draw};
use crate::arbitration::{Message, MASTERS, MESSAGE_BYTES};
use crate::random::Random;
use crate::rig::inputs::page::Page;

/// One to four loads; now and then none, or many.
pub fn text(random: &mut Random, request: Draw) -> Vec<u8> {
    let mut page = Page::new(random);
    let loads = match page.random.below(24) {
        0 => 0,
        1 => page.random.between(5, 30),
        _ => page.random.between(1, 4),
    };
    let spoiling = page.random.pick(&[3, 10, 1000]);
    for _ in 0..loads {
        load(&mut page, spoiling, request);
    }
    page.finish()
}

/// A load, spoilt once in `spoiling`.
fn load(page: &mut Page, spoiling: usize, request: Draw) {
    let name = name(page.random);
    page.line(&["load", &name]);
    let asked = request(page.random);
    let mut boards = asked.messages.clone();
    let mut acks = (!page.random.once_in(3)).then(|| asked.acks.iter().map(|ack| ack.to_string()).collect());
    if page.random.once_in(spoiling) {
        spoil_boards(page.random, &mut boards);
    }
    if page.random.once_in(2 * spoiling) {
        acks = Some(spoilt_acks(page.random, asked.acks.len()));
    }
    write(page, &boards, acks);
    if page.random.once_in(20 * spoiling) {
        page.one_of("ack 0; boards a b; expect a 1/1; end 1; bord 90; board 9x; board 100; ack all");
    }
}

/// The boards in order, and the acknowledges somewhere among them.
fn write(page: &mut Page, boards: &[Message], mut acks: Option<Vec<String>>) {
    let place = page.random.below(2 * boards.len() + 1);
    for (index, board) in boards.iter().enumerate() {
        if index == place {
            write_acks(page, acks.take());
        }
        let mut words = vec!["board".to_string()];
        words.extend(page.message(board, Page::hex));
        page.line(&words);
    }
    write_acks(page, acks);
}

fn write_acks(page: &mut Page, acks: Option<Vec<String>>) {
    if let Some(acks) = acks {
        page.line(&[vec!["ack".to_string()], acks].concat());
    }
}

/// Up to 32 bytes; rarely none, or one too many.
fn name(random: &mut Random) -> String {
    match random.below(64) {
        0 => String::new(),
        1 => "n".repeat(33),
        2 => "two words".to_string(),
        3..=6 => "x".repeat(32),
        7..=10 => "caf\u{e9}:\u{20ac},".to_string(),
        11..=14 => random.pick(&["load", "board", "ack", "ok", "refused", "error", "-", "0"]).to_string(),
        _ => format!("p{}", random.below(1000)),
    }
}

/// No board, too many, an empty or too long one, or a read.
fn spoil_boards(random: &mut Random, boards: &mut Vec<Message>) {
    for _ in 0..random.between(1, 2) {
        if boards.is_empty() {
            return;
        }
        let board = random.below(boards.len());
        match random.below(6) {
            0 => boards.clear(),
            1 => boards.resize(
                random.pick(&[MASTERS - 1, MASTERS, MASTERS + 1, 100]),
                Message::of_one_part(&[0x90]),
            ),
            2 => boards[board] = Message::default(),
            3 => boards[board] = too_long(random),
            4 => boards[board].parts.push(vec![random.byte() | 1]),
            _ => boards.push(boards[board].clone()),
        }
    }
}

/// Too many, too few, or with one that is neither 0 nor 1.
fn spoilt_acks(random: &mut Random, count: usize) -> Vec<String> {
    let mut acks = vec!["0".to_string(); count];
    match random.below(5) {
        0 => drop(acks.pop()),
        1 => acks.push("0".to_string()),
        2 => acks.resize(random.pick(&[0, MESSAGE_BYTES + 1, 1000, 2040]), "1".to_string()),
        _ => {
            let wrong = random.pick(&["2", "255", "00", "01", "256", "18446744073709551616", "x", "-1", "A"]);
            acks[random.below(count)] = wrong.to_string();
        }
    }
    acks
}
