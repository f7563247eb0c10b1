//! Tonight's corrections: their file, and how they are laid over a load.

use super::boards::{check_name, Boards};
use super::load::{message, Board, Load, NAME_BYTES};
use super::reading::said_by_end;
use crate::arbitration::{Message, MESSAGE_BYTES};
use crate::catalogue::{find, Catalogue};
use crate::refusal::Reason;
use crate::rig::files::Contents;
use crate::rig::text::{counted, expected, lines};

/// The most corrections.
const CORRECTIONS: usize = 256;

/// What one board sends tonight; no parts: nothing.
struct Correction {
    line: usize,
    board: String,
    message: Message,
}

/// The corrections of one load, and whether it was met in a file.
struct Corrected {
    line: usize,
    load: String,
    boards: Vec<Correction>,
    met: bool,
}

#[derive(Default)]
pub struct Corrections {
    loads: Vec<Corrected>,
    /// The line of `end`.
    end: Option<usize>,
}

/// What is wrong, and the line it is about where it is not the one that is read.
struct Wrong {
    line: Option<usize>,
    words: String,
}

impl From<String> for Wrong {
    fn from(words: String) -> Wrong {
        Wrong { line: None, words }
    }
}

impl Corrections {
    /// All of a file, or its first fault.
    pub fn read(contents: &Contents) -> Result<Corrections, String> {
        let mut corrections = Corrections::default();
        let said = |line: usize, wrong: Wrong| {
            format!("corrections line {}: {}", wrong.line.unwrap_or(line), wrong.words)
        };
        for (line, words) in lines(&contents.text) {
            let result = match words {
                Ok(words) if words.is_empty() => continue,
                _ if corrections.end.is_some() => Err(corrections.after_end()),
                Ok(words) => corrections.statement(line, &words),
                Err(fault) => Err(fault.words().to_string().into()),
            };
            result.map_err(|wrong| said(line, wrong))?;
        }
        if let Some(failure) = &contents.failure {
            return Err(failure.clone());
        }
        if corrections.end.is_none() {
            corrections.check_last().map_err(|wrong| said(0, wrong))?;
            return Err("corrections: the file ends without an end line".to_string());
        }
        Ok(corrections)
    }

    fn after_end(&self) -> Wrong {
        format!("after end (line {})", self.end.unwrap_or(0)).into()
    }

    /// The last load has a board line.
    fn check_last(&self) -> Result<(), Wrong> {
        match self.loads.last() {
            Some(last) if last.boards.is_empty() => {
                Err(Wrong { line: Some(last.line), words: format!("load {} has no board line", last.load) })
            }
            _ => Ok(()),
        }
    }

    fn statement(&mut self, line: usize, words: &[&str]) -> Result<(), Wrong> {
        match words[0] {
            "load" => self.load(line, &words[1..]),
            "end" => self.end(line, &words[1..]),
            other if self.loads.is_empty() => Err(expected("load or end", Some(other)).into()),
            "board" => Ok(self.board(line, &words[1..])?),
            other => Err(expected("load, board or end", Some(other)).into()),
        }
    }

    fn load(&mut self, line: usize, words: &[&str]) -> Result<(), Wrong> {
        self.check_last()?;
        let name = match words {
            [name] if name.chars().count() <= NAME_BYTES => name.to_string(),
            [name, extra, ..] if name.chars().count() <= NAME_BYTES => {
                return Err(expected("load NAME, one word", Some(extra)).into());
            }
            _ => return Err(expected("a name of 1 to 32 bytes", words.first().copied()).into()),
        };
        if let Some(first) = self.loads.iter().find(|load| load.load == name) {
            return Err(format!("this name was taken on line {}", first.line).into());
        }
        self.loads.push(Corrected { line, load: name, boards: Vec::new(), met: false });
        Ok(())
    }

    fn board(&mut self, line: usize, words: &[&str]) -> Result<(), String> {
        let nothing = || expected("board NAME and its bytes, or - for none", None);
        if self.loads.iter().map(|load| load.boards.len()).sum::<usize>() == CORRECTIONS {
            return Err(format!("more than {CORRECTIONS} corrections"));
        }
        let load = self.loads.last_mut().expect("a load was begun");
        let board = *words.first().ok_or_else(nothing)?;
        check_name(board)?;
        if let Some(first) = load.boards.iter().find(|correction| correction.board == board) {
            return Err(format!("a second line for board {board}, the first is line {}", first.line));
        }
        let message = match message(&words[1..])? {
            None => Message::default(),
            Some(message) if message.parts.is_empty() => return Err(nothing()),
            Some(message) if message.length() > MESSAGE_BYTES => {
                let count = message.length();
                return Err(format!(
                    "board {board} has {count} bytes, and at most {MESSAGE_BYTES} may be sent"
                ));
            }
            Some(message) => message,
        };
        load.boards.push(Correction { line, board: board.to_string(), message });
        Ok(())
    }

    fn end(&mut self, line: usize, words: &[&str]) -> Result<(), Wrong> {
        self.check_last()?;
        let (said, has) = (said_by_end(words)?, self.loads.len());
        if said != has as u64 {
            return Err(format!("end says {said}, and the file has {}", counted(has, "load")).into());
        }
        self.end = Some(line);
        Ok(())
    }

    /// Lays the corrections of this load over it, unless it is in error; answers what is wrong with them.
    pub fn lay_over(&mut self, load: &mut Load, boards: &Boards) -> Vec<String> {
        let mut wrong = Vec::new();
        let Some(tonight) = self.loads.iter_mut().find(|tonight| tonight.load == load.name) else {
            return wrong;
        };
        if !boards.are_named() {
            return wrong;
        }
        tonight.met = true;
        if load.in_error {
            return wrong;
        }
        let mut corrections = Vec::new();
        for correction in &tonight.boards {
            match boards.number(&correction.board) {
                Ok(number) => corrections.push((number, correction.message.clone())),
                Err(words) => {
                    load.in_error = true;
                    wrong.push(format!("corrections line {}: load {}: {words}", correction.line, load.name));
                }
            }
        }
        if !load.in_error {
            corrections.sort_by_key(|(number, _)| *number);
            lay(load, &corrections);
        }
        wrong
    }

    /// The faults of the loads that were in none of the files.
    pub fn not_met(&self) -> Vec<String> {
        let words = |load: &Corrected| {
            format!("corrections line {}: load {} is in none of the files", load.line, load.load)
        };
        self.loads.iter().filter(|load| !load.met).map(words).collect()
    }
}

/// Messages by the numbers of their boards, which rise.
fn catalogue<'a>(messages: impl Iterator<Item = (usize, &'a Message)>) -> Catalogue {
    let mut catalogue = Catalogue { block: Vec::new(), boards: Vec::new(), lengths: Vec::new() };
    for (board, message) in messages {
        catalogue.block.extend(message.bytes());
        catalogue.boards.push(board as u32);
        catalogue.lengths.push(message.length() as u32);
    }
    catalogue
}

/// What each board sends tonight: the part that the catalogues say, in the parts of its own line.
fn lay(load: &mut Load, corrections: &[(usize, Message)]) {
    let tonight = catalogue(corrections.iter().map(|(board, message)| (*board, message)));
    let standing = catalogue(load.senders().into_iter().map(|(board, message)| (board.number, message)));
    load.corrected = corrections.iter().map(|(board, _)| *board).collect();
    for Board { number, message, .. } in &mut load.boards {
        match find(*number as u32, &tonight, &standing) {
            Ok(part) if part.corrected => {
                let own = corrections.iter().find(|(board, _)| board == number).expect("a correction");
                assert_eq!(tonight.block[part.bytes], own.1.bytes());
                *message = Some(own.1.clone()).filter(|message| !message.parts.is_empty());
            }
            Ok(part) => {
                let own = message.as_ref().expect("a message that stands");
                assert_eq!(standing.block[part.bytes], own.bytes());
            }
            Err(refusal) if refusal.reason == Reason::BoardAbsent => *message = None,
            Err(refusal) => load.not_laid = Some(refusal),
        }
    }
}
