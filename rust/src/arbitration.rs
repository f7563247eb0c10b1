//! Arbitration (01: the clash): what is asked, the refusals of the asking, and the reply.
//!
//! 01's words: a plan is a message here, an answer an acknowledge, a loser's place a position.
//! `runner` goes 01's steps on the modules; `outcome` tells the result from messages and acknowledges alone.
//! The two share the types of this file and no rule.

use crate::module::Module;
use crate::refusal::{Reason, Refusal};

pub mod outcome;
pub mod runner;

/// The most masters, and the places of a reply's arrays.
pub const MASTERS: usize = 16;
/// The most bytes of a message.
pub const MESSAGE_BYTES: usize = 64;
/// The most levels of a run: every byte is a part of its own.
pub const LEVELS: usize = levels_for(MESSAGE_BYTES, MESSAGE_BYTES - 1);

/// The levels of a run that carries so many bytes with so many restarts between them: two to the START, two a
/// bit, three a repeated START, three to the STOP.
pub const fn levels_for(carried: usize, restarts: usize) -> usize {
    2 + 2 * 9 * carried + 3 * restarts + 3
}

/// What a master sends (02: Ask 4): one or more parts of one or more bytes. Each part but the last ends in a
/// repeated START, the last in a STOP.
#[derive(Clone, PartialEq, Eq, Default, Debug)]
pub struct Message {
    pub parts: Vec<Vec<u8>>,
}

/// Messages and acknowledges to which none of 12, 13, 14 and 15 applies.
#[derive(Clone, PartialEq, Eq, Debug)]
pub struct Request {
    pub messages: Vec<Message>,
    /// One for each byte place: 0 pulled low, 1 left high.
    pub acks: Vec<u8>,
}

/// What demand 3 speaks of.
#[derive(Clone, PartialEq, Eq, Debug)]
pub struct Outcome {
    /// The carried bytes; their number is 01's k.
    pub carried: Vec<u8>,
    pub levels: Vec<u8>,
    /// Who is still in.
    pub remaining: [bool; MASTERS],
    /// For each loser 9·byte + bit, carried bytes only; 0 for the others.
    pub positions: [u16; MASTERS],
    /// The final AL of each master's module.
    pub arbitration_lost: [bool; MASTERS],
}

/// The whole reply; the final modules are in the lent table (02: Ask 6).
#[derive(Clone, PartialEq, Eq, Debug)]
pub struct Run {
    pub outcome: Outcome,
    /// The flags of USICTL1 that each master's writes cleared over the run, joined (02: Ask 12).
    pub cleared: [u8; MASTERS],
}

/// One call: refusals 12, 13, 14, 15, 16, 8 in this order; else the carried bytes, the levels and the final
/// module of each master are in the lent slices, whose rest stays. What the table held before is not read.
pub fn arbitrate(
    bytes: &[u8],
    parts: &[u32],
    counts: &[u32],
    acks: &[u8],
    carried: &mut [u8],
    levels: &mut [u8],
    table: &mut [Module],
) -> Result<Run, Refusal> {
    let (run, modules) = runner::run(&Request::new(bytes, parts, counts, acks)?)?;
    let outcome = &run.outcome;
    if carried.len() < outcome.carried.len() || levels.len() < outcome.levels.len() {
        return Err(Reason::ShortBuffer.refusal());
    }
    if table.len() < modules.len() {
        return Err(Reason::ShortBuffer.refusal());
    }
    carried[..outcome.carried.len()].copy_from_slice(&outcome.carried);
    levels[..outcome.levels.len()].copy_from_slice(&outcome.levels);
    table[..modules.len()].copy_from_slice(&modules);
    Ok(run)
}

impl Message {
    /// A message without a restart.
    pub fn of_one_part(bytes: &[u8]) -> Message {
        Message { parts: vec![bytes.to_vec()] }
    }

    /// Its bytes, part after part.
    pub fn bytes(&self) -> Vec<u8> {
        self.parts.concat()
    }

    /// How many bytes it has; restarts are none.
    pub fn length(&self) -> usize {
        self.parts.iter().map(Vec::len).sum()
    }

    /// Its first bytes, at most so many, in their parts.
    pub fn beginning(&self, most: usize) -> Message {
        let mut left = most;
        let mut parts = Vec::new();
        for part in &self.parts {
            parts.push(part[..part.len().min(left)].to_vec());
            left -= part.len().min(left);
        }
        parts.retain(|part| !part.is_empty());
        Message { parts }
    }

    /// The bytes after the first so many, in their parts.
    pub fn rest(&self, first: usize) -> Message {
        let mut left = first;
        let mut parts = Vec::new();
        for part in &self.parts {
            parts.push(part[part.len().min(left)..].to_vec());
            left -= part.len().min(left);
        }
        parts.retain(|part| !part.is_empty());
        Message { parts }
    }

    /// The first of its parts whose first byte is odd.
    pub fn read(&self) -> Option<usize> {
        self.parts.iter().position(|part| part[0] % 2 == 1)
    }
}

impl Request {
    /// Cuts the lent bytes into messages; refusals 12, 13, 14, 15.
    pub fn new(bytes: &[u8], parts: &[u32], counts: &[u32], acks: &[u8]) -> Result<Request, Refusal> {
        let messages = messages(bytes, parts, counts)?;
        if let Some(place) = messages.iter().position(|message| message.read().is_some()) {
            return Err(Reason::ReadMessage.at(place));
        }
        let longest = messages.iter().map(Message::length).max();
        if longest != Some(acks.len()) || acks.iter().any(|&ack| ack > 1) {
            return Err(Reason::Acknowledges.refusal());
        }
        Ok(Request { messages, acks: acks.to_vec() })
    }
}

/// The messages, one after the other in the lent bytes: `parts` has the length of every part, `counts` how many
/// parts each message has. Refusals 12 and 13.
pub fn messages(bytes: &[u8], parts: &[u32], counts: &[u32]) -> Result<Vec<Message>, Refusal> {
    if counts.is_empty() || counts.len() > MASTERS {
        return Err(Reason::MasterCount.refusal());
    }
    check_lengths(bytes, parts, counts)?;
    Ok(cut(bytes, parts, counts))
}

/// Refusal 13: the first message of no parts, with a part of no bytes or with too many bytes, else a wrong sum at
/// the message count. A message whose parts run out is judged by those it has.
fn check_lengths(bytes: &[u8], parts: &[u32], counts: &[u32]) -> Result<(), Refusal> {
    let mut rest = parts;
    for (place, &count) in counts.iter().enumerate() {
        let (own, after) = rest.split_at(rest.len().min(count as usize));
        if count == 0 || own.contains(&0) || sum(own) > MESSAGE_BYTES as u64 {
            return Err(Reason::MessageLength.at(place));
        }
        rest = after;
    }
    if sum(counts) != parts.len() as u64 || sum(parts) != bytes.len() as u64 {
        return Err(Reason::MessageLength.at(counts.len()));
    }
    Ok(())
}

fn sum(numbers: &[u32]) -> u64 {
    numbers.iter().map(|&number| u64::from(number)).sum()
}

/// The messages of lengths that fit.
fn cut(bytes: &[u8], parts: &[u32], counts: &[u32]) -> Vec<Message> {
    let (mut parts, mut bytes) = (parts.iter(), bytes.iter().copied());
    let mut part = |&length: &u32| bytes.by_ref().take(length as usize).collect();
    let mut own = |&count: &u32| parts.by_ref().take(count as usize).map(&mut part).collect();
    counts.iter().map(|count| Message { parts: own(count) }).collect()
}
