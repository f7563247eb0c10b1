//! `count library|model N decode` or `count library|model N arbitrate MASTERS BYTES`: N equal calls and nothing else,
//! for a count of instructions under callgrind: the difference between N and 2N calls is N calls'.

use linked::Archive;
use rehearsal_model::arbitration::{levels_for, Message};
use rehearsal_model::bus::{drawing, START, STOP};
use rehearsal_model::packed::{Asked, Buffers, Interface, Model};
use std::hint::black_box;

const USAGE: &str = "usage: count library|model N decode | count library|model N arbitrate MASTERS BYTES";

fn main() {
    let words: Vec<String> = std::env::args().skip(1).collect();
    let number = |at: usize| words.get(at).and_then(|word| word.parse().ok()).expect(USAGE);
    let side: &dyn Interface = match words.first().map(String::as_str) {
        Some("library") => &Archive,
        Some("model") => &Model,
        _ => panic!("{USAGE}"),
    };
    match words.get(2).map(String::as_str) {
        Some("arbitrate") => arbitrate(side, number(3), number(4), number(1)),
        Some("decode") => decode(side, number(1)),
        _ => panic!("{USAGE}"),
    }
}

/// So many masters with messages so long, which differ in their last four bytes.
fn arbitrate(side: &dyn Interface, masters: usize, length: usize, count: usize) {
    let bytes = |master: usize| (0..length).map(move |at| message_byte(at, master, length));
    let message = |master: usize| Message::of_one_part(&bytes(master).collect::<Vec<_>>());
    let messages: Vec<Message> = (0..masters).map(message).collect();
    let asked = Asked::new(&messages, vec![0; length]);
    let mut lent = Buffers {
        carried: vec![0; length],
        levels: vec![0; levels_for(length, 0)],
        modules: vec![0; masters],
        seats: vec![0; masters],
    };
    for _ in 0..count {
        assert_eq!(black_box(side.arbitrate(black_box(&asked), lent.lend())) & 0xFF, 0);
    }
}

fn message_byte(at: usize, master: usize, length: usize) -> u8 {
    let shared = (at * 37 % 256) as u8 & 0xFE;
    let differs = at + 1 == length - master % 4;
    shared ^ if differs { 0x10 << (master / 4) } else { 0 }
}

/// 4,091 samples: one message of 227 bytes.
fn decode(side: &dyn Interface, count: usize) {
    let mut list = vec![START];
    list.extend((0..227u16).map(|at| at * 37 % 512));
    list.push(STOP);
    let levels = drawing(&list);
    let stamps: Vec<u32> = (0..levels.len() as u32).map(|sample| 50 * sample).collect();
    let mut events = vec![0; 4096];
    for _ in 0..count {
        assert_eq!(black_box(side.decode(black_box(&stamps), black_box(&levels), &mut events)) & 0xFF, 0);
    }
}
