//! The common rules of input: lines, words, numbers, and how a word is quoted.
//!
//! Inside the mirror a text is a `String` in which every `char` stands for one byte, so that widths count bytes.

use super::files::Contents;

/// The longest line, without its newline.
pub const LINE_BYTES: usize = 4096;

/// The longest part of a word that is quoted.
const QUOTED_BYTES: usize = 32;

/// The words of a line, without its comment.
pub type Words<'a> = Vec<&'a str>;

/// Why a line is not read at all.
#[derive(Clone, Copy, PartialEq, Eq, Debug)]
pub enum Fault {
    TooLong,
    NoText,
}

/// Whether the next line is looked at.
#[derive(Clone, Copy, PartialEq, Eq, Debug)]
pub enum Next {
    Line,
    End,
}

impl Fault {
    pub fn words(self) -> &'static str {
        match self {
            Fault::TooLong => "longer than 4096 bytes",
            Fault::NoText => "a byte that is no text",
        }
    }
}

pub fn text_of(bytes: &[u8]) -> String {
    match String::from_utf8(bytes.to_vec()) {
        Ok(text) if text.is_ascii() => text,
        _ => bytes.iter().map(|&byte| char::from(byte)).collect(),
    }
}

pub fn bytes_of(text: &str) -> Vec<u8> {
    if text.is_ascii() {
        return text.as_bytes().to_vec();
    }
    text.chars().map(|letter| letter as u8).collect()
}

/// Every line as it stands, without its newline.
pub fn whole_lines(text: &str) -> impl Iterator<Item = &str> {
    text.split_inclusive('\n').map(|piece| piece.strip_suffix('\n').unwrap_or(piece))
}

/// Every line with its number from 1: its words, none perhaps, or its fault.
pub fn lines(text: &str) -> impl Iterator<Item = (usize, Result<Words<'_>, Fault>)> {
    whole_lines(text).enumerate().map(|(index, line)| (index + 1, words(line)))
}

/// The lines of a file that have words, each handed on with its number. The first error, which ends it, or why the
/// file could not be read to its end, is the last line of the output.
pub fn each_statement(
    contents: &Contents,
    mut statement: impl FnMut(usize, &[&str]) -> Result<Next, String>,
) -> Result<(), String> {
    for (line, words) in lines(&contents.text) {
        let words = words.map_err(|fault| format!("error line {line}: {}", fault.words()))?;
        if words.is_empty() {
            continue;
        }
        match statement(line, &words) {
            Ok(Next::Line) => {}
            Ok(Next::End) => return Ok(()),
            Err(words) => return Err(format!("error line {line}: {words}")),
        }
    }
    match &contents.failure {
        Some(failure) => Err(format!("error {failure}")),
        None => Ok(()),
    }
}

pub fn words(line: &str) -> Result<Words<'_>, Fault> {
    if line.len() > LINE_BYTES && line.chars().count() > LINE_BYTES {
        return Err(Fault::TooLong);
    }
    if line.bytes().any(|byte| is_control(byte.into()) && !matches!(byte, b'\t' | b'\r')) {
        return Err(Fault::NoText);
    }
    let statement = line.split('#').next().unwrap_or(line);
    Ok(statement.split(is_blank).filter(|word| !word.is_empty()).collect())
}

/// A byte that parts the words of a line.
pub fn is_blank(letter: char) -> bool {
    matches!(letter, ' ' | '\t' | '\r')
}

/// A byte that parts the words of a dump.
pub fn is_parting(letter: char) -> bool {
    matches!(letter, '\t' | '\n' | '\r' | ' ')
}

fn is_control(letter: char) -> bool {
    letter < ' ' || letter == '\u{7F}'
}

/// A decimal number; one too large for 64 bits counts as the largest.
pub fn decimal(word: &str) -> Option<u64> {
    number(word, 10)
}

/// A hexadecimal number; one too large for 64 bits counts as the largest.
pub fn hexadecimal(word: &str) -> Option<u64> {
    number(word, 16)
}

fn number(word: &str, base: u32) -> Option<u64> {
    if word.is_empty() {
        return None;
    }
    word.chars().try_fold(0u64, |number, letter| {
        let digit = letter.to_digit(base)?;
        Some(number.saturating_mul(u64::from(base)).saturating_add(u64::from(digit)))
    })
}

/// A byte of one or two hexadecimal digits.
pub fn short_byte(word: &str) -> Option<u8> {
    hexadecimal(word).filter(|_| word.len() <= 2).map(|byte| byte as u8)
}

/// A byte of two hexadecimal digits.
pub fn byte(word: &str) -> Option<u8> {
    short_byte(word).filter(|_| word.len() == 2)
}

/// A count with its noun: `1 load`, `2 loads`.
pub fn counted(count: usize, noun: &str) -> String {
    format!("{count} {noun}{}", if count == 1 { "" } else { "s" })
}

/// Bytes in hexadecimal, with a space between two.
pub fn hex(bytes: &[u8]) -> String {
    bytes.iter().map(|byte| format!("{byte:02X}")).collect::<Vec<_>>().join(" ")
}

/// The parts of a message in hexadecimal, with ` / ` between two.
pub fn parted(parts: &[Vec<u8>]) -> String {
    parts.iter().map(|part| hex(part)).collect::<Vec<_>>().join(" / ")
}

/// A word with `?` for each control byte.
pub fn printable(word: &str) -> String {
    word.chars().map(|letter| if is_control(letter) { '?' } else { letter }).collect()
}

/// The first bytes of a text, at most so many.
pub fn beginning(text: &str, most: usize) -> String {
    text.chars().take(most).collect()
}

/// A word as errors show it: in quotes, printable, and not too long.
pub fn quoted(word: &str) -> String {
    let more = if word.chars().count() > QUOTED_BYTES { ".." } else { "" };
    format!("'{}{more}'", printable(&beginning(word, QUOTED_BYTES)))
}

/// What was expected, and the word that was met instead, if one was.
pub fn expected(what: &str, met: Option<&str>) -> String {
    format!("expected {what}{}", met.map_or(String::new(), |word| format!(", not {}", quoted(word))))
}
