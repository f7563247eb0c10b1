//! A load in a night: the rounds in which its messages are carried, and their lines in its block.

use super::boards::Boards;
use super::load::{Board, Load};
use super::rehearsal::asked;
use crate::arbitration::{Message, MASTERS};
use crate::module::Module;
use crate::night::night;
use crate::packed::Asked;
use crate::refusal::Refusal;
use crate::rig::text::parted;

pub struct Rounds<'a> {
    /// How many there are.
    count: usize,
    /// The boards that send, in order, each with its message and the round that carries it, from 1.
    carried: Vec<(&'a Board, &'a Message, usize)>,
    pub as_expected: bool,
}

impl<'a> Rounds<'a> {
    pub fn of(load: &'a Load) -> Result<Rounds<'a>, Refusal> {
        let Asked { bytes, parts, counts, acks } = asked(load);
        let (mut rounds, mut table) = ([0; MASTERS], [Module::power_up(0, 0); MASTERS]);
        let count = night(&bytes, &parts, &counts, &acks, &mut rounds, &mut table)?;
        let carried = load.senders().into_iter().zip(rounds);
        let carried = carried.map(|((board, message), round)| (board, message, round as usize)).collect();
        let mut rounds = Rounds { count, carried, as_expected: true };
        rounds.as_expected = rounds.meets(load);
        Ok(rounds)
    }

    /// The board that is expected is carried in round 1, with so many bytes.
    fn meets(&self, load: &Load) -> bool {
        let Some(expected) = &load.expected else { return true };
        let is_expected = |(board, message, round): &(&Board, &Message, usize)| {
            let length = message.length() as u64;
            board.number == expected.board
                && *round == 1
                && (expected.carried, expected.length) == (length, length)
        };
        self.carried.iter().any(is_expected)
    }

    /// A line for each round: its message, and the boards that send it.
    pub fn lines(&self, boards: &Boards) -> Vec<String> {
        let columns = self.count.to_string().len();
        let line = |round: usize| {
            let (message, numbers) = self.round(round);
            let (message, senders) = (parted(&message.parts), boards.list(&numbers));
            format!("  round {round:>columns$}  {message:<23}  sent by {senders}")
        };
        (1..=self.count).map(line).collect()
    }

    /// The message of a round, and the numbers of its boards.
    fn round(&self, round: usize) -> (&Message, Vec<usize>) {
        let own: Vec<_> = self.carried.iter().filter(|(_, _, own)| *own == round).collect();
        (own[0].1, own.iter().map(|(board, _, _)| board.number).collect())
    }
}
