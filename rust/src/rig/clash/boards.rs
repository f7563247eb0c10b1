//! The boards of a file: named by its `boards` line, or numbered by the rows of each load.

use crate::arbitration::MASTERS;
use crate::rig::text::{expected, quoted, short_byte};

const NAME_BYTES: usize = 16;

#[derive(Clone, PartialEq, Eq, Debug)]
pub enum Boards {
    Named { line: usize, names: Vec<String> },
    Numbered,
}

impl Boards {
    /// The names of a `boards` line, or what is wrong with it.
    pub fn named(line: usize, words: &[&str]) -> Result<Boards, String> {
        let mut names: Vec<String> = Vec::new();
        for word in words {
            if names.len() == MASTERS {
                return Err(format!("more than {MASTERS} boards"));
            }
            check_name(word)?;
            if names.iter().any(|name| name == word) {
                return Err(format!("board {} is named twice", quoted(word)));
            }
            names.push(word.to_string());
        }
        if names.is_empty() {
            return Err(expected(&format!("boards and 1 to {MASTERS} names"), None));
        }
        Ok(Boards::Named { line, names })
    }

    pub fn are_named(&self) -> bool {
        matches!(self, Boards::Named { .. })
    }

    /// The names, none where boards are numbered.
    pub fn names(&self) -> &[String] {
        match self {
            Boards::Named { names, .. } => names,
            Boards::Numbered => &[],
        }
    }

    /// The line that names them; 0 where boards are numbered.
    pub fn line(&self) -> usize {
        match self {
            Boards::Named { line, .. } => *line,
            Boards::Numbered => 0,
        }
    }

    /// The number of the board of this name.
    pub fn number(&self, word: &str) -> Result<usize, String> {
        let number = self.names().iter().position(|name| name == word);
        number.ok_or_else(|| format!("no board {} on line {}", quoted(word), self.line()))
    }

    /// As the columns show a board: its name, else its number.
    pub fn short(&self, number: usize) -> String {
        self.names().get(number).cloned().unwrap_or_else(|| number.to_string())
    }

    /// Boards in a line: each number with its name, if it has one, and `, ` between two.
    pub fn list(&self, numbers: &[usize]) -> String {
        let one = |&number: &usize| match self.names().get(number) {
            Some(name) => format!("{number} {name}"),
            None => number.to_string(),
        };
        numbers.iter().map(one).collect::<Vec<_>>().join(", ")
    }

    /// As a sentence speaks of a board.
    pub fn called(&self, number: usize) -> String {
        self.names().get(number).cloned().unwrap_or_else(|| format!("board {number}"))
    }

    /// As a line of a block shows a board: its number in so many columns, and its name, padded to the longest.
    pub fn label(&self, number: usize, columns: usize) -> String {
        let longest = self.names().iter().map(|name| name.chars().count()).max().unwrap_or(0);
        match self.names().get(number) {
            Some(name) => format!("{number:>columns$} {name:<longest$}"),
            None => format!("{number:>columns$}"),
        }
    }
}

/// The error if a word is no board's name.
pub fn check_name(word: &str) -> Result<(), String> {
    let letter = word.starts_with(|letter: char| letter.is_ascii_alphabetic());
    if letter && word.chars().count() <= NAME_BYTES && short_byte(word).is_none() {
        return Ok(());
    }
    Err(expected("a name of 1 to 16 bytes that begins with a letter and is no byte", Some(word)))
}
