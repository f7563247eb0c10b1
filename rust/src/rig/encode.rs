//! `rig encode`: events in, the record that draws them out.

use super::arguments::Options;
use super::files::Contents;
use super::refusals;
use super::text::{counted, decimal, each_statement, expected, quoted, short_byte, Next};
use super::{LOOKS_LIKE_LOADS, WORDS_OF_LOADS};
use crate::bus::{self, CUT, REPEATED_START, SAMPLES, START, STOP};
use crate::refusal::{Reason, Refusal};

/// The most events of a list.
const EVENTS: usize = 4096;

const FORMS: &str = "START, repeated START, STOP, cut byte, HH ACK, HH NACK or event numbers";
const LOOKS_LIKE_A_TRACE: &str = "; this looks like a trace: did you mean rig decode?";

/// What the file asks for.
struct List {
    start: u32,
    gap: u32,
    events: Vec<u16>,
    /// How many lines of events there were, and how many of them could be a sample.
    lines: usize,
    pairs: usize,
}

pub fn encode(contents: &Contents, options: &Options) -> String {
    let mut list = List { start: 0, gap: 50, events: Vec::new(), lines: 0, pairs: 0 };
    if let Err(error) = each_statement(contents, |_, words| list.line(words).map(|()| Next::Line)) {
        return error + "\n";
    }
    let room = options.room(SAMPLES);
    let (mut stamps, mut levels) = (vec![0; room], vec![0; room]);
    match bus::encode(&list.events, list.start, list.gap, &mut stamps, &mut levels) {
        Ok(count) => {
            let samples = stamps.iter().zip(&levels).take(count);
            let lines: String = samples.map(|(stamp, level)| format!("{stamp} {level}\n")).collect();
            lines + "ok " + &counted(count, "sample") + "\n"
        }
        Err(refusal) => list.refused(refusal),
    }
}

impl List {
    fn line(&mut self, words: &[&str]) -> Result<(), String> {
        let result = match words {
            ["ok" | "look" | "note:", ..] => Ok(()),
            ["start", rest @ ..] => self.start(rest),
            ["gap", rest @ ..] => self.gap(rest),
            [stamp] if stamp.ends_with(':') => Err(expected(FORMS, Some(stamp))),
            [stamp, rest @ ..] if stamp.ends_with(':') => {
                self.lines += 1;
                self.events(rest)
            }
            _ => {
                self.lines += 1;
                self.pairs += usize::from(is_pair(words));
                self.events(words)
            }
        };
        let loads = result.is_err() && WORDS_OF_LOADS.contains(&words[0]);
        result.map_err(|words| words + if loads { LOOKS_LIKE_LOADS } else { "" })
    }

    fn start(&mut self, words: &[&str]) -> Result<(), String> {
        let number = only_number(words).and_then(|number| u32::try_from(number).ok());
        self.start = number.ok_or_else(|| wrong_number("start N, from 0 to 4294967295", words))?;
        Ok(())
    }

    fn gap(&mut self, words: &[&str]) -> Result<(), String> {
        let number = only_number(words).ok_or_else(|| wrong_number("gap N", words))?;
        self.gap = u32::try_from(number).unwrap_or(u32::MAX);
        Ok(())
    }

    /// One event in words, or any number of event numbers.
    fn events(&mut self, words: &[&str]) -> Result<(), String> {
        match words {
            ["START"] => self.push(START),
            ["STOP"] => self.push(STOP),
            ["repeated", "START"] => self.push(REPEATED_START),
            ["cut", "byte"] => self.push(CUT),
            [byte, "ACK" | "NACK" | "write" | "read", ..] => self.push(byte_event(byte, &words[1..])?),
            _ => words.iter().try_for_each(|word| {
                let number = decimal(word).ok_or_else(|| expected(FORMS, Some(word)))?;
                self.push(u16::try_from(number).unwrap_or(u16::MAX))
            }),
        }
    }

    fn push(&mut self, event: u16) -> Result<(), String> {
        if self.events.len() == EVENTS {
            return Err(format!("more than 4096 events{}", self.hint()));
        }
        self.events.push(event);
        Ok(())
    }

    /// A list of which every line could be a sample is a trace, most likely.
    fn hint(&self) -> &'static str {
        if self.lines > 0 && self.lines == self.pairs {
            LOOKS_LIKE_A_TRACE
        } else {
            ""
        }
    }

    fn refused(&self, refusal: Refusal) -> String {
        let hint = if refusal.reason == Reason::IncompleteList { self.hint() } else { "" };
        format!("{}{hint}\n", refusals::plain(refusal))
    }
}

/// Two numbers, of which the second could be a level.
fn is_pair(words: &[&str]) -> bool {
    match words {
        [stamp, level] => decimal(stamp).is_some() && decimal(level).is_some_and(|level| level <= 3),
        _ => false,
    }
}

fn only_number(words: &[&str]) -> Option<u64> {
    match words {
        [number] => decimal(number),
        _ => None,
    }
}

/// The word met is the one too many, or the one that is no number.
fn wrong_number(what: &str, words: &[&str]) -> String {
    expected(what, words.get(1).or(words.first()).copied())
}

/// A byte with its acknowledge; `write` and `read` must be what the byte says, which is looked at first.
fn byte_event(word: &str, rest: &[&str]) -> Result<u16, String> {
    let wrong = || expected(FORMS, Some(word));
    let byte = u16::from(short_byte(word).ok_or_else(wrong)?);
    let ack = match (rest.first().copied(), byte % 2) {
        (Some("write"), 1) | (Some("read"), 0) => {
            return Err(format!("an even address byte is a write, an odd one a read: {}", quoted(word)));
        }
        (Some("write" | "read"), _) => &rest[1..],
        _ => rest,
    };
    match ack {
        ["ACK"] => Ok(byte),
        ["NACK"] => Ok(byte + 256),
        _ => Err(wrong()),
    }
}
