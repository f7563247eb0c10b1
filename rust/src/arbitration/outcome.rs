//! The outcome of arbitration from messages and acknowledges alone (01: demand 3, in the order of 02: Ask 4); no
//! module is stepped here.

use super::{Message, Outcome, Request, MASTERS};
use crate::bus::{drawing, REPEATED_START, START, STOP};
use crate::refusal::{Reason, Refusal};

/// What a message is made of, in its order: an ending is smaller than any byte, a restart smaller than a STOP.
#[derive(Clone, Copy, PartialEq, Eq, PartialOrd, Ord, Debug)]
pub enum Symbol {
    Restart,
    Stop,
    Byte(u8),
}

/// Where two messages first differ: how many bytes stand before it, and what each of them has there.
#[derive(Clone, Copy, PartialEq, Eq, Debug)]
pub struct Difference {
    pub place: usize,
    pub one: Symbol,
    pub other: Symbol,
}

/// What follows from the request; refusal 16 where the smallest message first differs from another at an ending of
/// either and every byte before it is acknowledged.
pub fn outcome(request: &Request) -> Result<Outcome, Refusal> {
    let smallest = &request.messages[least(&request.messages).0];
    let differences: Vec<_> =
        request.messages.iter().map(|message| first_difference(smallest, message)).collect();
    if differences.iter().flatten().any(|difference| difference.is_undecided(&request.acks)) {
        return Err(Reason::Undecided.refusal());
    }
    let length = smallest.length();
    let refused_at = (0..length).find(|&place| request.acks[place] == 1);
    let count = refused_at.map_or(length, |place| place + 1);
    let mut outcome = Outcome {
        carried: smallest.bytes()[..count].to_vec(),
        levels: levels(smallest, count, &request.acks),
        remaining: [false; MASTERS],
        positions: [0; MASTERS],
        arbitration_lost: [false; MASTERS],
    };
    for (master, difference) in differences.iter().enumerate() {
        let loss = difference.and_then(|difference| difference.loss_below(count));
        outcome.remaining[master] = loss.is_none();
        outcome.positions[master] = loss.unwrap_or(0);
        outcome.arbitration_lost[master] = loss.is_some();
    }
    Ok(outcome)
}

/// A message as it is ordered: each part's bytes, then a restart; after the last part a STOP.
pub fn symbols(message: &Message) -> Vec<Symbol> {
    let mut symbols = Vec::new();
    for part in &message.parts {
        symbols.extend(part.iter().map(|&byte| Symbol::Byte(byte)));
        symbols.push(Symbol::Restart);
    }
    symbols.pop();
    symbols.push(Symbol::Stop);
    symbols
}

/// The first of the least messages, and how many comparisons of two messages found it (02: Ask 3).
pub fn least(messages: &[Message]) -> (usize, usize) {
    let mut comparisons = 0;
    let in_order = |&one: &usize, &other: &usize| {
        comparisons += 1;
        symbols(&messages[one]).cmp(&symbols(&messages[other]))
    };
    let index = (0..messages.len()).min_by(in_order).unwrap_or(0);
    (index, comparisons)
}

/// Where two messages first differ; none if they are equal, in their parts too.
pub fn first_difference(one: &Message, other: &Message) -> Option<Difference> {
    let mut place = 0;
    for (one, other) in symbols(one).into_iter().zip(symbols(other)) {
        if one != other {
            return Some(Difference { place, one, other });
        }
        place += usize::from(matches!(one, Symbol::Byte(_)));
    }
    None
}

impl Difference {
    /// One of the two messages, or both, end a part here.
    pub fn is_at_an_ending(&self) -> bool {
        !matches!((self.one, self.other), (Symbol::Byte(_), Symbol::Byte(_)))
    }

    /// The two part at an ending, and the bus gets there: every byte before it is acknowledged.
    pub fn is_undecided(&self, acks: &[u8]) -> bool {
        self.is_at_an_ending() && acks[..self.place].iter().all(|&ack| ack == 0)
    }

    /// Unequal bytes below k: 9·byte + bit, the first unequal bit counted from the most significant, 0.
    fn loss_below(&self, count: usize) -> Option<u16> {
        match (self.one, self.other) {
            (Symbol::Byte(one), Symbol::Byte(other)) if self.place < count => {
                Some(9 * self.place as u16 + (one ^ other).leading_zeros() as u16)
            }
            _ => None,
        }
    }
}

/// The levels the writer draws for 512, each carried byte plus 256 times its acknowledge, 514; and 513 for each
/// restart between two carried bytes.
fn levels(message: &Message, count: usize, acks: &[u8]) -> Vec<u8> {
    let mut list = vec![START];
    let mut acks = acks[..count].iter();
    for part in &message.parts {
        let bytes = part.iter().zip(acks.by_ref());
        list.extend(bytes.map(|(&byte, &ack)| u16::from(byte) + 256 * u16::from(ack)));
        if acks.len() == 0 {
            break;
        }
        list.push(REPEATED_START);
    }
    list.push(STOP);
    drawing(&list)
}
