//! Files of loads, with named boards mostly; `numbered` has the old form.

use super::page::Page;
use crate::arbitration::outcome::least;
use crate::arbitration::{Message, Request, MASTERS, MESSAGE_BYTES};
use crate::compare::arbitration::draw_request;
use crate::compare::night::draw_night;
use crate::random::Random;

mod lines;
mod numbered;

/// How the messages and acknowledges of a load are drawn.
type Draw = fn(&mut Random) -> Request;

/// For `rig clash`.
pub fn text(random: &mut Random) -> Vec<u8> {
    loads(random, draw_request)
}

/// For `rig night`.
pub fn night(random: &mut Random) -> Vec<u8> {
    loads(random, draw_night)
}

/// One to four loads; now and then none, or many.
fn loads(random: &mut Random, request: Draw) -> Vec<u8> {
    match random.below(256) {
        0 if random.once_in(16) => return far_too_many(random),
        1..=63 => return numbered::text(random, request),
        _ => {}
    }
    let mut page = Page::new(random);
    let loads = match page.random.below(24) {
        0 => 0,
        1 => page.random.between(5, 30),
        _ => page.random.between(1, 4),
    };
    let spoiling = page.random.pick(&[3, 10, 1000]);
    let names = lines::draw_names(page.random);
    lines::boards(&mut page, &names, spoiling);
    for index in 0..loads {
        if page.random.once_in(40 * spoiling) {
            page.one_of("bord x; board q 90; ack all; boards q; end; expect q 1/1");
        }
        lines::load(&mut page, spoiling, index);
        let drawn = draw(page.random, names.len(), request);
        load(&mut page, &names, spoiling, drawn);
    }
    lines::end(&mut page, loads, spoiling);
    page.finish()
}

/// About 4,096 loads of one board.
fn far_too_many(random: &mut Random) -> Vec<u8> {
    let loads = random.between(4095, 4098);
    let same = random.below(loads);
    let mut text = b"boards q\n".to_vec();
    for load in 0..loads {
        let name = if load == same { 0 } else { load };
        text.extend(format!("load n{name}\nboard q 90\nack all\n").into_bytes());
    }
    text.extend(format!("end {loads}\n").into_bytes());
    text
}

/// A load as it is before it is spoilt: a message for each board, none where it is silent, and acknowledges.
struct Load {
    messages: Vec<Option<Message>>,
    acks: Vec<u8>,
}

/// The lines of a load after its first, spoilt once in `spoiling`.
fn load(page: &mut Page, names: &[String], spoiling: usize, mut load: Load) {
    if page.random.once_in(spoiling) {
        spoil_messages(page.random, &mut load.messages);
    }
    let mut left: Vec<usize> = (0..names.len()).collect();
    let acks = lines::acks(page.random, &load.acks, spoiling);
    let acks_before = page.random.below(names.len() + 1);
    while !left.is_empty() {
        if left.len() == acks_before {
            lines::put(page, &acks);
        }
        let place = if page.random.once_in(3) { page.random.below(left.len()) } else { 0 };
        let board = left.remove(place);
        lines::board(page, names, board, &load.messages[board], spoiling);
    }
    if acks_before == 0 {
        lines::put(page, &acks);
    }
    if page.random.once_in(3) {
        expect(page, names, &load, spoiling);
    }
    if page.random.once_in(4 * spoiling) {
        lines::wrong(page);
    }
}

/// Messages that share beginnings, for some of the boards.
fn draw(random: &mut Random, boards: usize, request: Draw) -> Load {
    let asked = request(random);
    let mut messages: Vec<Option<Message>> =
        asked.messages.iter().take(boards).map(|message| Some(message.clone())).collect();
    while messages.len() < boards {
        messages.insert(random.below(messages.len() + 1), None);
    }
    let longest = messages.iter().flatten().map(Message::length).max().unwrap_or(0);
    Load { messages, acks: asked.acks[..longest].to_vec() }
}

/// All silent, or an empty or too long message, a read, or one board's message for another.
fn spoil_messages(random: &mut Random, messages: &mut [Option<Message>]) {
    let board = random.below(messages.len());
    match random.below(6) {
        0 => messages.fill(None),
        1 => messages[board] = Some(Message::default()),
        2 => messages[board] = Some(too_long(random)),
        3 => messages[board].get_or_insert_default().parts.push(vec![random.byte() | 1]),
        4 => messages[board] = messages[random.below(messages.len())].clone(),
        _ => {
            let first = messages[board].as_ref().map(|message| message.beginning(1));
            messages[random.below(messages.len())] = first;
        }
    }
}

/// About the most bytes of a message, or many more, now and then in many parts.
fn too_long(random: &mut Random) -> Message {
    let length = random.pick(&[MESSAGE_BYTES - 1, MESSAGE_BYTES, MESSAGE_BYTES + 1, 300, 1000]);
    let part = if random.once_in(2) { length } else { random.between(1, MESSAGE_BYTES + 1) };
    Message { parts: vec![0x5A; length].chunks(part).map(<[u8]>::to_vec).collect() }
}

/// The board and the fraction that the least message and the acknowledges make likely.
fn likely(load: &Load) -> (usize, String) {
    let messages: Vec<Message> = load.messages.iter().flatten().cloned().collect();
    let least = messages.get(least(&messages).0);
    let winner = load.messages.iter().position(|message| message.as_ref() == least && least.is_some());
    let length = least.map_or(0, Message::length);
    let carried = load.acks.iter().position(|&ack| ack == 1).map_or(length, |place| (place + 1).min(length));
    (winner.unwrap_or(0), format!("{carried}/{length}"))
}

/// What is likely, the whole message of any board, or something else.
fn expect(page: &mut Page, names: &[String], load: &Load, spoiling: usize) {
    let (mut board, mut fraction) = likely(load);
    if page.random.once_in(6) {
        board = page.random.below(load.messages.len());
        let length = load.messages[board].as_ref().map_or(0, Message::length);
        fraction = format!("{length}/{length}");
    }
    if page.random.once_in(spoiling) {
        board = page.random.below(MASTERS);
        fraction = page
            .random
            .pick(&["0/0", "1/2", "04/4", "4/99999999999999999999", "4", "/", "4/", "4/4/4"])
            .into();
    }
    let name = names.get(board).map_or("nobody", String::as_str).to_string();
    let mut words = vec!["expect".to_string(), name, fraction];
    if page.random.once_in(20 * spoiling) {
        words.truncate(page.random.between(1, 2));
    }
    if page.random.once_in(20 * spoiling) {
        words.push("4/4".to_string());
    }
    page.line(&words);
    if page.random.once_in(10 * spoiling) {
        page.line(&words);
    }
}
