//! Random arbitrations: the reply, the final modules and all whole buffers; and the outcome from the messages alone.

use super::lists::{draw_room, pattern};
use super::{equal, Counts, Difference};
use crate::arbitration::outcome::{first_difference, least, outcome};
use crate::arbitration::{levels_for, Outcome, Request, MASTERS, MESSAGE_BYTES};
use crate::module::AL;
use crate::packed::{unpack, Asked, Buffers, Interface, Model};
use crate::random::Random;
use crate::refusal::{Reason, Refusal};
pub use draws::draw_request;
use draws::spoil;
use std::cmp::Ordering;

pub mod draws;

/// One arbitration, asked of both sides.
pub fn case(other: &dyn Interface, random: &mut Random, counts: &mut Counts) -> Result<(), Difference> {
    let Request { messages, acks } = draw_request(random);
    let mut asked = Asked::new(&messages, acks);
    if random.once_in(4) {
        spoil(random, &mut asked);
    }
    compare_least(other, &asked)?;
    let lent = draw_buffers(random, &asked);
    let ask = |side: &dyn Interface| {
        let mut lent = lent.clone();
        (side.arbitrate(&asked, lent.lend()), lent)
    };
    let (model, other) = (ask(&Model), ask(other));
    count_kinds(&asked, &model, counts);
    let inputs = || {
        let rooms = [lent.carried.len(), lent.levels.len(), lent.modules.len(), lent.seats.len()];
        format!("arbitrate {asked:X?}, rooms {rooms:?}")
    };
    equal(&model, &other, inputs, |(reply, lent)| format!("{}, {lent:X?}", reply_words(*reply)))?;
    check_cleared(&asked, &other)?;
    check_rest(&asked, &lent, &other)?;
    compare_outcome(&asked, &lent, &other)
}

/// Which message is least, and how many comparisons found it: of refused messages too.
fn compare_least(other: &dyn Interface, asked: &Asked) -> Result<(), Difference> {
    let inputs = || format!("least of {asked:X?}");
    equal(&Model.least(asked), &other.least(asked), inputs, |(index, comparisons)| {
        format!("index {index}, {comparisons} comparisons")
    })
}

fn reply_words(reply: u64) -> String {
    let part = |low: u32, width: u32| reply >> low & ((1 << width) - 1);
    format!("refused {} place {} k {}", part(0, 8), part(8, 16), part(24, 16))
}

/// The flags that each master's writes cleared are STTIFG and IFG, whatever the run (demand 3, 02: Ask 12).
fn check_cleared(asked: &Asked, (reply, lent): &(u64, Buffers)) -> Result<(), Difference> {
    if reply & 0xFF > 0 {
        return Ok(());
    }
    let masters = asked.counts.len();
    let cleared: Vec<u32> = lent.seats[..masters].iter().map(|seat| seat >> 1 & 15).collect();
    let inputs = || format!("flags cleared in {asked:X?}");
    equal(&vec![3; masters], &cleared, inputs, |flags| format!("{flags:?}"))
}

/// Both tables past the masters are as they were lent, and at a refusal all of them (02: Ask 6).
fn check_rest(asked: &Asked, before: &Buffers, (reply, after): &(u64, Buffers)) -> Result<(), Difference> {
    let written = if reply & 0xFF == 0 { asked.counts.len() } else { 0 };
    let rest = |lent: &Buffers| (lent.modules[written..].to_vec(), lent.seats[written..].to_vec());
    let inputs = || format!("entries from {written} on, of {asked:X?}");
    equal(&rest(before), &rest(after), inputs, |rest| format!("{rest:X?}"))
}

fn count_kinds(asked: &Asked, model: &(u64, Buffers), counts: &mut Counts) {
    let masters = asked.counts.len();
    let number = model.0 & 0xFF;
    counts.add(format!("refused {number}"));
    counts.add(format!("{masters} masters"));
    let longest = longest(asked);
    if longest.abs_diff(MESSAGE_BYTES) <= 1 {
        counts.add(format!("refused {number} with {longest} bytes at most"));
    }
    if [13, 14].contains(&number) {
        let place = (model.0 >> 8 & 0xFFFF) as usize;
        counts.add(format!("refused {number} at {}", place_words(place, masters)));
    }
    if number == 13 {
        counts.add(format!("refused 13: {}", fault_words(asked)));
    }
    if [0, 8].contains(&number) {
        count_rooms(masters, &model.1, counts);
    }
    if let Ok(request) = asked.request() {
        count_meetings(&request, number, counts);
        count_levels(&request, model.1.levels.len(), counts);
    }
    if number == 0 {
        let losers = model.1.seats[..masters].iter().filter(|&seat| seat & 1 == 0).count();
        counts.add(format!("{losers} lost"));
        counts.add(if model.0 >> 24 & 0xFF > 8 { "carried over 8 bytes" } else { "carried 1 to 8 bytes" });
    }
}

/// The bytes of the longest message, whatever is lent.
fn longest(asked: &Asked) -> usize {
    let mut parts = asked.parts.iter();
    let own = |count: &u32| parts.by_ref().take(*count as usize).map(|&part| part as usize).sum();
    asked.counts.iter().map(own).max().unwrap_or(0)
}

fn place_words(place: usize, masters: usize) -> &'static str {
    match place {
        0 => "the first message",
        _ if place < masters => "a later message",
        _ => "the number of messages",
    }
}

/// What 13 is given for, where the faults allow to say it in a word.
fn fault_words(asked: &Asked) -> &'static str {
    let sum = |numbers: &[u32]| numbers.iter().map(|&number| u64::from(number)).sum::<u64>();
    let (counted, lengths) = (sum(&asked.counts), sum(&asked.parts));
    if asked.counts.contains(&0) {
        "a message of no parts"
    } else if asked.parts.contains(&0) {
        "a part of no bytes"
    } else if counted > asked.parts.len() as u64 {
        "parts that run out"
    } else if counted < asked.parts.len() as u64 {
        "parts left over"
    } else if lengths != asked.bytes.len() as u64 {
        "parts that do not sum to the bytes"
    } else {
        "too many bytes"
    }
}

/// How long the tables are, beside what is needed.
fn count_rooms(masters: usize, lent: &Buffers, counts: &mut Counts) {
    for (table, length) in [("modules", lent.modules.len()), ("seats", lent.seats.len())] {
        counts.add(match length.cmp(&masters) {
            Ordering::Less => format!("{table} shorter than the masters"),
            Ordering::Equal => format!("{table} as long as the masters"),
            Ordering::Greater => format!("{table} longer than the masters"),
        });
    }
}

/// Whether the buffer for levels is at the border.
fn count_levels(request: &Request, room: usize, counts: &mut Counts) {
    let Ok(outcome) = outcome(request) else { return };
    let needed = outcome.levels.len();
    if needed > levels_for(outcome.carried.len(), 0) && room == needed {
        counts.add("levels as many as needed");
    } else if needed > levels_for(outcome.carried.len(), 0) && room + 1 == needed {
        counts.add("levels one short");
    }
}

/// In how many parts the least message is, where it is cut, and how the others part from it.
fn count_meetings(request: &Request, number: u64, counts: &mut Counts) {
    let least = &request.messages[least(&request.messages).0];
    counts.add(match least.parts.len() {
        1 => "the least in one part",
        MESSAGE_BYTES => "the least in 64 parts",
        _ => "the least in some parts",
    });
    let ends = least.parts.iter().scan(0, |end, part| {
        *end += part.len();
        Some(*end)
    });
    if let Some(place) = request.acks.iter().position(|&ack| ack == 1) {
        let at_an_end = ends.take(least.parts.len() - 1).any(|end| end == place + 1);
        counts.add(if at_an_end { "cut where a part ends" } else { "cut elsewhere" });
    }
    for difference in request.messages.iter().filter_map(|other| first_difference(least, other)) {
        if difference.is_at_an_ending() {
            let kind = format!("{:?} against {:?}", difference.one, difference.other);
            let kind = kind.split('(').next().unwrap_or_default();
            counts.add(format!("refused {number} with {kind}"));
        }
    }
}

/// What demand 3 says of a reply, put together from an outcome or read from a reply.
#[derive(PartialEq, Debug)]
struct Visible {
    refusal: u64,
    outcome: Option<Outcome>,
}

/// The other side's answer against the outcome from messages and acknowledges alone.
fn compare_outcome(asked: &Asked, before: &Buffers, answer: &(u64, Buffers)) -> Result<(), Difference> {
    let Ok(request) = asked.request() else { return Ok(()) };
    let masters = request.messages.len();
    let expected = match outcome(&request).and_then(|outcome| enough(outcome, masters, before)) {
        Ok(outcome) => Visible { refusal: 0, outcome: Some(outcome) },
        Err(refusal) => Visible { refusal: u64::from(refusal.number()), outcome: None },
    };
    let inputs = || format!("the outcome of {request:X?}");
    let levels = expected.outcome.as_ref().map_or(0, |outcome| outcome.levels.len());
    equal(&expected, &visible(masters, levels, answer), inputs, |visible| format!("{visible:X?}"))
}

/// Refusal 8, after all others.
fn enough(outcome: Outcome, masters: usize, lent: &Buffers) -> Result<Outcome, Refusal> {
    let tables = lent.modules.len().min(lent.seats.len());
    if lent.carried.len() < outcome.carried.len()
        || lent.levels.len() < outcome.levels.len()
        || tables < masters
    {
        return Err(Reason::ShortBuffer.refusal());
    }
    Ok(outcome)
}

/// What an answer says; `levels` is how many of them were to be written.
fn visible(masters: usize, levels: usize, (reply, lent): &(u64, Buffers)) -> Visible {
    let refusal = reply & 0xFF;
    if refusal > 0 {
        return Visible { refusal, outcome: None };
    }
    let count = (reply >> 24 & 0xFFFF) as usize;
    let outcome = Outcome {
        carried: lent.carried[..count].to_vec(),
        levels: lent.levels[..levels.min(lent.levels.len())].to_vec(),
        remaining: of_masters(masters, |master| lent.seats[master] & 1 == 1),
        positions: of_masters(masters, |master| (lent.seats[master] >> 5) as u16),
        arbitration_lost: of_masters(masters, |master| unpack(lent.modules[master]).is(AL)),
    };
    Visible { refusal, outcome: Some(outcome) }
}

/// A number for each master, and none for the other places.
fn of_masters<T: Default>(masters: usize, one: impl Fn(usize) -> T) -> [T; MASTERS] {
    std::array::from_fn(|place| if place < masters { one(place) } else { T::default() })
}

/// Buffers with a pattern in them: exact, too short or with a rest; the tables seldom too short.
fn draw_buffers(random: &mut Random, asked: &Asked) -> Buffers {
    let outcome = asked.request().and_then(|request| outcome(&request));
    let (count, recorded) = outcome.map_or((0, 5), |outcome| (outcome.carried.len(), outcome.levels.len()));
    let salt = random.bits();
    let fill = |length: usize| (0..length as u64).map(move |index| pattern(salt, index));
    let masters = asked.counts.len();
    let table = |random: &mut Random| match random.below(32) {
        0 => random.below(masters + 1),
        1 => masters.saturating_sub(1),
        2..=15 => masters,
        _ => masters + random.between(1, MASTERS + 4),
    };
    Buffers {
        carried: fill(draw_room(random, count)).map(|bits| bits as u8).collect(),
        levels: fill(draw_room(random, recorded)).map(|bits| bits as u8).collect(),
        modules: fill(table(random)).collect(),
        seats: fill(table(random)).map(|bits| bits as u32).collect(),
    }
}
