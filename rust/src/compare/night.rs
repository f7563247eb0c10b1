//! Random nights: the reply and both whole slices; and the rounds from the order of the messages alone.

use super::arbitration::draws::{draw_request, spoil};
use super::lists::{draw_room, pattern};
use super::{equal, Counts, Difference};
use crate::arbitration::outcome::first_difference;
use crate::arbitration::{Message, Request, MASTERS};
use crate::night::{check, prediction};
use crate::packed::{unpack, Asked, Interface, Model};
use crate::random::Random;

/// The registers with which every message's master ends its own round.
const CARRIED: [u8; 6] = [0xC8, 0x45, 0x22, 0x00, 0xFF, 0x00];

/// The number that answers a night, and the two slices: rounds and packed modules.
type Answer = (u64, Vec<u32>, Vec<u64>);

/// One night, asked of both sides.
pub fn case(other: &dyn Interface, random: &mut Random, counts: &mut Counts) -> Result<(), Difference> {
    let Request { messages, acks } = draw_night(random);
    let mut asked = Asked::new(&messages, acks);
    if random.once_in(6) {
        spoil(random, &mut asked);
    }
    let (rounds, modules) = draw_slices(random, asked.counts.len());
    let ask = |side: &dyn Interface| {
        let (mut rounds, mut modules) = (rounds.clone(), modules.clone());
        let reply = side.night(&asked, &mut rounds, &mut modules);
        (reply, rounds, modules)
    };
    let (model, other) = (ask(&Model), ask(other));
    counts.add(format!("refused {}", model.0 & 0xFF));
    if model.0 & 0xFF == 0 {
        counts.add(format!("{} rounds of {} messages", model.0 >> 24, asked.counts.len()));
    }
    let rooms = (rounds.len(), modules.len());
    let inputs = || format!("night {asked:X?}, rooms {rooms:?}");
    equal(&model, &other, inputs, words)?;
    check_rounds(&asked, rooms, &other)
}

fn words((reply, rounds, modules): &Answer) -> String {
    let (number, place, count) = (reply & 0xFF, reply >> 8 & 0xFFFF, reply >> 24);
    format!("refused {number} place {place}, {count} rounds, {rounds:?}, {modules:X?}")
}

/// The rounds follow from the order of the messages alone, and every master ends with the same registers; only 43, 16
/// and 8 refuse what 12 to 15 let through.
fn check_rounds(asked: &Asked, rooms: (usize, usize), answer: &Answer) -> Result<(), Difference> {
    let Ok(request) = asked.request() else { return Ok(()) };
    let messages = request.messages.len();
    let inputs = || format!("the rounds of {request:X?}");
    let short = rooms.0 < messages || rooms.1 < messages;
    let expected = match check(&request) {
        Err(refusal) => (u64::from(refusal.number()), Vec::new(), Vec::new()),
        Ok(()) if short => (8, Vec::new(), Vec::new()),
        Ok(()) => {
            let (count, rounds) = prediction(&request.messages);
            ((count as u64) << 24, rounds, vec![CARRIED; messages])
        }
    };
    let (reply, rounds, modules) = answer;
    let shown = if reply & 0xFF == 0 { messages } else { 0 };
    let registers = modules[..shown].iter().map(|&module| unpack(module).registers).collect();
    let visible = (*reply, rounds[..shown].to_vec(), registers);
    equal(&expected, &visible, inputs, |night| format!("{night:X?}"))
}

/// A night that is mostly not refused, of few rounds or of many.
pub fn draw_night(random: &mut Random) -> Request {
    if random.once_in(4) {
        draw_crowd(random)
    } else {
        draw_family(random)
    }
}

/// Many messages of the same lengths, which differ in some bytes or in none; all bytes are acknowledged.
fn draw_crowd(random: &mut Random) -> Request {
    let lengths: Vec<usize> = (0..random.between(1, 3)).map(|_| random.between(1, 3)).collect();
    let (boards, values) = (random.between(8, MASTERS), random.pick(&[2, 4, 128]));
    let mut part = |length: &usize| (0..*length).map(|_| 2 * random.below(values) as u8).collect();
    let mut message = || Message { parts: lengths.iter().map(&mut part).collect() };
    let messages = (0..boards).map(|_| message()).collect();
    Request { messages, acks: vec![0; lengths.iter().sum()] }
}

/// Messages that share beginnings, all bytes acknowledged mostly, and most of those taken out that would be refused
/// by 16.
fn draw_family(random: &mut Random) -> Request {
    let Request { mut messages, acks } = draw_request(random);
    if !random.once_in(4) {
        let mut kept: Vec<Message> = Vec::new();
        for message in messages {
            if kept.iter().all(|other| parts_at_bytes(other, &message)) {
                kept.push(message);
            }
        }
        messages = kept;
    }
    let longest = messages.iter().map(Message::length).max().unwrap_or(0);
    let acks = if random.once_in(6) { acks[..longest].to_vec() } else { vec![0; longest] };
    Request { messages, acks }
}

/// The two are equal, or first differ at a byte of both.
fn parts_at_bytes(one: &Message, other: &Message) -> bool {
    first_difference(one, other).is_none_or(|difference| !difference.is_at_an_ending())
}

/// Slices with a pattern in them: exact, too short or with a rest.
fn draw_slices(random: &mut Random, messages: usize) -> (Vec<u32>, Vec<u64>) {
    let salt = random.bits();
    let fill = |length: usize| (0..length as u64).map(move |index| pattern(salt, index));
    let rounds = fill(draw_room(random, messages)).map(|bits| bits as u32).collect();
    (rounds, fill(draw_room(random, messages)).collect())
}
