//! Tonight's corrections over the standing catalogue (02: Ask 10).
//!
//! 02's word: a plan is a message here.

use crate::refusal::{Reason, Refusal};
use std::collections::BTreeMap;
use std::ops::Range;

/// A block of bytes in which messages lie one after the other, with the board and the length of each.
#[derive(Clone, PartialEq, Eq, Debug)]
pub struct Catalogue {
    pub block: Vec<u8>,
    pub boards: Vec<u32>,
    pub lengths: Vec<u32>,
}

/// The part of one of the two blocks that is a board's message.
#[derive(Clone, PartialEq, Eq, Debug)]
pub struct Part {
    pub corrected: bool,
    pub bytes: Range<usize>,
}

impl Catalogue {
    /// Refusals 40 and 41.
    fn check(&self) -> Result<(), Refusal> {
        if self.boards.windows(2).any(|pair| pair[1] <= pair[0]) {
            return Err(Reason::BoardsDoNotRise.refusal());
        }
        let sum: u128 = self.lengths.iter().map(|&length| u128::from(length)).sum();
        if self.lengths.len() != self.boards.len() || sum != self.block.len() as u128 {
            return Err(Reason::BoardLengths.refusal());
        }
        Ok(())
    }

    /// Each board with its part of the block.
    fn parts(&self, corrected: bool) -> impl Iterator<Item = (u32, Part)> + '_ {
        let mut end = 0;
        self.boards.iter().zip(&self.lengths).map(move |(&board, &length)| {
            let start = end;
            end += length as usize;
            (board, Part { corrected, bytes: start..end })
        })
    }
}

/// The part that is the board's message: the correction if there is one, else the standing message. Refusals 40 and 41
/// of the corrections, 40 and 41 of the standing catalogue, 42.
pub fn find(board: u32, corrections: &Catalogue, standing: &Catalogue) -> Result<Part, Refusal> {
    corrections.check()?;
    standing.check()?;
    let mut messages: BTreeMap<u32, Part> = standing.parts(false).collect();
    messages.extend(corrections.parts(true));
    messages.remove(&board).ok_or(Reason::BoardAbsent.refusal())
}
