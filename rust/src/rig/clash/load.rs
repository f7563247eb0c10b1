//! A load as the lines of the file give it.

use super::boards::Boards;
use crate::arbitration::Message;
use crate::refusal::Refusal;
use crate::rig::text::{beginning, byte, decimal, expected, short_byte};

pub const NAME_BYTES: usize = 32;
const TITLE_BYTES: usize = 64;

const EMPTY_PART: &str = "/ needs a byte before it and one after it";

/// A board of a load: its number, the line it stands on and its message; none: it is silent.
pub struct Board {
    pub number: usize,
    pub line: usize,
    pub message: Option<Message>,
}

/// An `ack` line.
pub struct Acks {
    pub line: usize,
    /// None: `all`.
    pub given: Option<Vec<u8>>,
}

/// An `expect` line: the board that wins, how many bytes are carried, and how many its message has.
pub struct Expected {
    pub line: usize,
    pub board: usize,
    pub carried: u64,
    pub length: u64,
}

pub struct Load {
    pub name: String,
    pub title: String,
    pub line: usize,
    pub boards: Vec<Board>,
    pub acks: Option<Acks>,
    pub expected: Option<Expected>,
    pub in_error: bool,
    /// The numbers of its corrected boards, in rising order.
    pub corrected: Vec<usize>,
    /// Why the corrections cannot be laid over it.
    pub not_laid: Option<Refusal>,
}

impl Load {
    /// A load, and what is wrong with its own line apart from a name that is taken.
    pub fn begin(line: usize, words: &[&str], named: bool) -> (Load, Option<String>) {
        let name = words.first().copied().unwrap_or("?");
        let rest = words.get(1..).unwrap_or(&[]);
        let title = if named { rest.join(" ") } else { String::new() };
        let wrong = if words.is_empty() || name.chars().count() > NAME_BYTES {
            Some(expected("a name of 1 to 32 bytes", words.first().copied()))
        } else if !named && !rest.is_empty() {
            Some(expected("load NAME, one word", Some(rest[0])) + ": a title needs a boards line")
        } else if title.chars().count() > TITLE_BYTES {
            Some("the title is longer than 64 bytes".to_string())
        } else {
            None
        };
        let (name, title) = (beginning(name, NAME_BYTES), beginning(&title, TITLE_BYTES));
        let boards = Vec::new();
        let (acks, expected, corrected, not_laid) = (None, None, Vec::new(), None);
        let load = Load { name, title, line, boards, acks, expected, in_error: false, corrected, not_laid };
        (load, wrong)
    }

    /// Whether words after `load` begin with a proper name.
    pub fn is_named_by(words: &[&str]) -> bool {
        words.first().is_some_and(|name| name.chars().count() <= NAME_BYTES)
    }

    /// `NAME TITLE`.
    pub fn heading(&self) -> String {
        let space = if self.title.is_empty() { "" } else { " " };
        format!("{}{space}{}", self.name, self.title)
    }

    /// `board NAME ..`, or `board ..` in the old form.
    pub fn board(&mut self, line: usize, words: &[&str], boards: &Boards) -> Result<(), String> {
        if !boards.are_named() {
            let message = parts("bytes of one or two hexadecimal digits", words, short_byte)?;
            let number = self.boards.len();
            self.boards.push(Board { number, line, message: Some(message) });
            return Ok(());
        }
        let name = words.first().ok_or_else(|| expected("board NAME and its bytes, or - for none", None))?;
        let number = boards.number(name)?;
        if let Some(first) = self.boards.iter().find(|board| board.number == number) {
            return Err(format!("a second line for board {name}, the first is line {}", first.line));
        }
        self.boards.push(Board { number, line, message: None });
        let message = message(&words[1..])?;
        self.boards.last_mut().expect("a board was added").message = message;
        Ok(())
    }

    pub fn acknowledges(&mut self, line: usize, words: &[&str]) -> Result<(), String> {
        if let Some(first) = &self.acks {
            return Err(format!("a second ack line, the first is line {}", first.line));
        }
        self.acks = Some(Acks { line, given: None });
        if words != ["all"] {
            let ack = |word: &str| decimal(word).and_then(|ack| u8::try_from(ack).ok());
            let given = bytes("all, or acknowledges 0 or 1", words, ack)?;
            self.acks = Some(Acks { line, given: Some(given) });
        }
        Ok(())
    }

    pub fn expect(&mut self, line: usize, words: &[&str], boards: &Boards) -> Result<(), String> {
        const FORM: &str = "expect NAME N/M";
        if let Some(first) = &self.expected {
            return Err(format!("a second expect line, the first is line {}", first.line));
        }
        self.expected = Some(Expected { line, board: 0, carried: 0, length: 0 });
        let board = boards.number(words.first().ok_or_else(|| expected(FORM, None))?)?;
        let fraction = words.get(1).ok_or_else(|| expected(FORM, None))?;
        let (carried, length) = halves(fraction).ok_or_else(|| expected(FORM, Some(fraction)))?;
        if let Some(third) = words.get(2) {
            return Err(expected(FORM, Some(third)));
        }
        self.expected = Some(Expected { line, board, carried, length });
        Ok(())
    }

    /// The number of each named board that has no line.
    pub fn missing(&self, boards: &Boards) -> Vec<usize> {
        let has_line = |number: &usize| self.boards.iter().any(|board| board.number == *number);
        (0..boards.names().len()).filter(|number| !has_line(number)).collect()
    }

    /// How many columns the number of a board takes in its line of the block: all numbers of a load alike.
    pub fn number_columns(&self) -> usize {
        if self.boards.len() > 10 {
            2
        } else {
            1
        }
    }

    /// The boards that send, in the order of their numbers, each with its message.
    pub fn senders(&self) -> Vec<(&Board, &Message)> {
        let mut senders: Vec<_> =
            self.boards.iter().filter_map(|board| Some((board, board.message.as_ref()?))).collect();
        senders.sort_by_key(|(board, _)| board.number);
        senders
    }
}

/// What a board sends: parts of bytes, or nothing at all after `-`.
pub fn message(words: &[&str]) -> Result<Option<Message>, String> {
    match words {
        ["-"] => Ok(None),
        ["-", extra, ..] => Err(expected("nothing after -", Some(extra))),
        _ => parts("bytes of two hexadecimal digits", words, byte).map(Some),
    }
}

/// Bytes with `/` between two parts, word by word; the first that is wrong is the error. No word at all is a
/// message of no parts.
fn parts(what: &str, words: &[&str], one: impl Fn(&str) -> Option<u8>) -> Result<Message, String> {
    let mut message = Message::default();
    let mut part = Vec::new();
    for word in words {
        if *word != "/" {
            part.push(one(word).ok_or_else(|| expected(what, Some(word)))?);
        } else if part.is_empty() {
            return Err(EMPTY_PART.to_string());
        } else {
            message.parts.push(std::mem::take(&mut part));
        }
    }
    match part.is_empty() {
        false => message.parts.push(part),
        true if message.parts.is_empty() => {}
        true => return Err(EMPTY_PART.to_string()),
    }
    Ok(message)
}

/// Each word by itself; the first that is none is the error.
fn bytes(what: &str, words: &[&str], one: impl Fn(&str) -> Option<u8>) -> Result<Vec<u8>, String> {
    words.iter().map(|word| one(word).ok_or_else(|| expected(what, Some(word)))).collect()
}

/// `N/M`.
fn halves(word: &str) -> Option<(u64, u64)> {
    let (carried, length) = word.split_once('/')?;
    Some((decimal(carried)?, decimal(length)?))
}
