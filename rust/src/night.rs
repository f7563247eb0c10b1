//! A night (02: Ask 14): rounds of arbitration until every message is carried.
//!
//! `night` goes round by round over the arbitration's own runner; `prediction` tells the rounds from the order of the
//! messages alone.

use crate::arbitration::outcome::{first_difference, symbols, Symbol};
use crate::arbitration::{runner, Message, Request};
use crate::module::Module;
use crate::refusal::{Reason, Refusal};

/// What a night comes to.
#[derive(Clone, PartialEq, Eq, Debug)]
pub struct Night {
    /// How many rounds it has.
    pub count: usize,
    /// The round in which each message is carried, from 1.
    pub rounds: Vec<u32>,
    /// The module of each message's master as that round left it.
    pub modules: Vec<Module>,
}

/// One call: refusals 12, 13, 14, 15, 43, 16, 8 in this order, all before any round; else the number of rounds. The
/// lent slices have the round of each message, from 1, and its module as that round left it; their rest stays.
pub fn night(
    bytes: &[u8],
    parts: &[u32],
    counts: &[u32],
    acks: &[u8],
    rounds: &mut [u32],
    table: &mut [Module],
) -> Result<usize, Refusal> {
    let request = Request::new(bytes, parts, counts, acks)?;
    check(&request)?;
    let messages = request.messages.len();
    if rounds.len() < messages || table.len() < messages {
        return Err(Reason::ShortBuffer.refusal());
    }
    let night = run(&request)?;
    rounds[..messages].copy_from_slice(&night.rounds);
    table[..messages].copy_from_slice(&night.modules);
    Ok(night.count)
}

/// Refusal 43, an acknowledge 1 anywhere, then 16: two different messages first differ at an ending of either.
pub fn check(request: &Request) -> Result<(), Refusal> {
    if request.acks.contains(&1) {
        return Err(Reason::NotAcknowledged.refusal());
    }
    for one in &request.messages {
        for other in &request.messages {
            if first_difference(one, other).is_some_and(|difference| difference.is_at_an_ending()) {
                return Err(Reason::Undecided.refusal());
            }
        }
    }
    Ok(())
}

/// The rounds: each is an arbitration of the messages not yet carried, from power-up, with as many acknowledges as the
/// longest of them needs. It carries those that are still in at its end.
pub fn run(request: &Request) -> Result<Night, Refusal> {
    let messages = &request.messages;
    let mut night = Night {
        count: 0,
        rounds: vec![0; messages.len()],
        modules: vec![Module::power_up(0, 0); messages.len()],
    };
    let mut left: Vec<usize> = (0..messages.len()).collect();
    while !left.is_empty() {
        night.count += 1;
        let (run, modules) = runner::run(&round(request, &left))?;
        for (seat, &master) in left.iter().enumerate() {
            if run.outcome.remaining[seat] {
                night.rounds[master] = night.count as u32;
                night.modules[master] = modules[seat];
            }
        }
        left.retain(|&master| night.rounds[master] == 0);
    }
    Ok(night)
}

/// What one round is asked.
fn round(request: &Request, left: &[usize]) -> Request {
    let messages: Vec<Message> = left.iter().map(|&master| request.messages[master].clone()).collect();
    let longest = messages.iter().map(Message::length).max().unwrap_or(0);
    Request { messages, acks: request.acks[..longest].to_vec() }
}

/// How many rounds there are, and the round of each message, from the messages alone: round r carries the r-th of the
/// different messages in their order.
pub fn prediction(messages: &[Message]) -> (usize, Vec<u32>) {
    let mut different: Vec<Vec<Symbol>> = messages.iter().map(symbols).collect();
    different.sort();
    different.dedup();
    let round = |message: &Message| {
        let place = different.binary_search(&symbols(message)).expect("one of the different messages");
        place as u32 + 1
    };
    (different.len(), messages.iter().map(round).collect())
}
