//! The rehearsal of a load, and its verdict.

use super::load::{Board, Load};
use super::night::Rounds;
use crate::arbitration::{arbitrate, Message, Run, LEVELS, MASTERS, MESSAGE_BYTES};
use crate::module::Module;
use crate::packed::Asked;
use crate::refusal::Refusal;
use crate::rig::arguments::{Command, Options};

/// What became of the message that won.
#[derive(Clone, Copy, PartialEq, Eq, Debug)]
pub enum Verdict {
    /// All its bytes were carried and acknowledged.
    Sent,
    /// The last byte carried was not acknowledged.
    Cut,
    /// Boards with different messages are still in.
    Undecided,
}

/// A load that was rehearsed.
pub struct Rehearsal<'a> {
    /// The boards that send, in order, each with its message; they are the library's masters.
    pub senders: Vec<(&'a Board, &'a Message)>,
    pub acks: Vec<u8>,
    pub run: Run,
    /// The final modules, from that of the first sender on.
    pub table: [Module; MASTERS],
    pub verdict: Verdict,
    pub as_expected: bool,
}

/// What rehearsing a load comes to.
pub enum Result<'a> {
    InError,
    Refused(Refusal),
    Rehearsed(Box<Rehearsal<'a>>),
    /// In a night: every message is carried.
    Carried(Rounds<'a>),
}

impl<'a> Result<'a> {
    pub fn of(load: &'a Load, options: &Options) -> Result<'a> {
        if load.in_error {
            return Result::InError;
        }
        let result = match load.not_laid {
            Some(refusal) => Err(refusal),
            None if options.command == Command::Night => Rounds::of(load).map(Result::Carried),
            None => Rehearsal::of(load, options).map(|rehearsal| Result::Rehearsed(Box::new(rehearsal))),
        };
        result.unwrap_or_else(Result::Refused)
    }

    /// Of a load that is neither in error nor refused: what became of its messages, and whether that was expected.
    pub fn verdict(&self) -> Option<(Verdict, bool)> {
        match self {
            Result::InError | Result::Refused(_) => None,
            Result::Rehearsed(rehearsal) => Some((rehearsal.verdict, rehearsal.as_expected)),
            Result::Carried(rounds) => Some((Verdict::Sent, rounds.as_expected)),
        }
    }

    /// Whether the load needs a look.
    pub fn is_marked(&self) -> bool {
        self.verdict() != Some((Verdict::Sent, true))
    }
}

/// What the library is asked of a load.
pub fn asked(load: &Load) -> Asked {
    let messages: Vec<Message> = load.senders().into_iter().map(|(_, message)| message.clone()).collect();
    Asked::new(&messages, acknowledges(load))
}

/// The acknowledges given, or one 0 for each byte of the longest message.
pub fn acknowledges(load: &Load) -> Vec<u8> {
    let given = load.acks.as_ref().and_then(|acks| acks.given.clone());
    let longest = load.senders().iter().map(|(_, message)| message.length()).max().unwrap_or(0);
    given.unwrap_or_else(|| vec![0; longest])
}

impl<'a> Rehearsal<'a> {
    fn of(load: &'a Load, options: &Options) -> std::result::Result<Rehearsal<'a>, Refusal> {
        let (senders, Asked { bytes, parts, counts, acks }) = (load.senders(), asked(load));
        let (mut carried, mut levels) = ([0; MESSAGE_BYTES], vec![0; options.room(LEVELS)]);
        let mut table = [Module::power_up(0, 0); MASTERS];
        let run = arbitrate(&bytes, &parts, &counts, &acks, &mut carried, &mut levels, &mut table)?;
        let mut rehearsal = Rehearsal { senders, acks, run, table, verdict: Verdict::Cut, as_expected: true };
        rehearsal.verdict = rehearsal.judged();
        rehearsal.as_expected = rehearsal.meets(load);
        Ok(rehearsal)
    }

    fn judged(&self) -> Verdict {
        let winners = self.winners();
        let message = winners[0].1;
        let carried = self.carried();
        if winners.iter().any(|(_, other)| *other != message) {
            Verdict::Undecided
        } else if carried == message.bytes() && self.acks[carried.len() - 1] == 0 {
            Verdict::Sent
        } else {
            Verdict::Cut
        }
    }

    fn meets(&self, load: &Load) -> bool {
        let Some(expected) = &load.expected else { return true };
        let winners = self.winners();
        let winner = winners.iter().find(|(board, _)| board.number == expected.board);
        let length = winner.map(|(_, message)| message.length() as u64);
        self.verdict != Verdict::Undecided
            && length == Some(expected.length)
            && self.carried().len() as u64 == expected.carried
    }

    /// The bytes the bus carried.
    pub fn carried(&self) -> &[u8] {
        &self.run.outcome.carried
    }

    /// The last byte carried, with its place.
    pub fn last_carried(&self) -> (usize, u8) {
        let place = self.carried().len() - 1;
        (place, self.carried()[place])
    }

    /// The boards still in, each with its message.
    pub fn winners(&self) -> Vec<(&'a Board, &'a Message)> {
        let masters = self.senders.iter().zip(self.run.outcome.remaining);
        masters.filter(|(_, remains)| *remains).map(|(sender, _)| *sender).collect()
    }

    /// The boards that lost, each with its message and its place.
    pub fn losers(&self) -> Vec<(&'a Board, &'a Message, u16)> {
        let outcome = &self.run.outcome;
        let masters = self.senders.iter().zip(outcome.remaining).zip(outcome.positions);
        let lost = masters.filter(|((_, remains), _)| !remains);
        lost.map(|(((board, message), _), place)| (*board, *message, place)).collect()
    }
}
