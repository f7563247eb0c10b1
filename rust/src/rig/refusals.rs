//! The words of the refusals that every command gives in the same way.

use super::text::{is_parting, quoted};
use crate::refusal::{Reason, Refusal};

/// What `rig` says of each refusal; those of arbitration are told with boards, lines and counts instead.
fn words(reason: Reason) -> &'static str {
    match reason {
        Reason::Address => "the address is outside 078h to 07Dh",
        Reason::OddWordAddress => "a word access needs an even address",
        Reason::SetUp => "the set-up fits neither I2C nor SPI",
        Reason::Level => "a level is above 3",
        Reason::StampsAndLevelsDiffer => "stamps and levels differ in number",
        Reason::TooManySamples => "more than 4096 samples",
        Reason::StampNotAbove => "a stamp is not above the one before it",
        Reason::ShortBuffer => "the reply needs more room than was lent",
        Reason::IncompleteList => "the event list is not complete",
        Reason::Gap => "the gap is 0 or above 1000",
        Reason::LastStamp => "the last stamp is above 4294967295",
        Reason::NoWaiting => "a divider of 1 does not wait, and SCL was last seen low",
        Reason::ShortPhase => "a phase of SCL is too short for the mode",
        Reason::EmptyRecord => "the trace has no sample",
        Reason::UnknownValue => "a value is x or z",
        Reason::StampNotRising => "a stamp is not above the one before it",
        Reason::Undeclared => "a value of a wire that is not declared",
        Reason::CutText => "the text ends inside a line, a command or a section",
        Reason::Wires => "a dump needs just two wires of one bit, and a value for each at its first stamp",
        Reason::LargeStamp => "a stamp is above 4294967295",
        Reason::LongText => "the text is longer than 60000 bytes",
        Reason::Form => "this is not of the form of a dump with two wires",
        Reason::BoardsDoNotRise | Reason::BoardLengths | Reason::BoardAbsent => {
            unreachable!("corrections have their own words")
        }
        Reason::MasterCount
        | Reason::MessageLength
        | Reason::ReadMessage
        | Reason::Acknowledges
        | Reason::Undecided
        | Reason::NotAcknowledged => unreachable!("loads have their own words"),
    }
}

/// What to do about a dump that is not read.
fn hint(reason: Reason) -> &'static str {
    match reason {
        Reason::TooManySamples | Reason::LongText => "dump a shorter time",
        Reason::UnknownValue => "capture from where both lines have a level",
        Reason::StampNotRising => "packets may have crossed: export the capture again",
        Reason::Undeclared => "dump only the two wires",
        Reason::CutText => "the file may be cut: copy it again",
        Reason::Wires => "declare SCL, then SDA, each as wire 1, and dump only these two",
        Reason::LargeStamp => "choose a coarser timescale",
        Reason::Form => "export a Value Change Dump of SCL and SDA alone",
        _ => unreachable!("no refusal of the dump reader that has room for all samples"),
    }
}

/// `refused N: WORDS`.
pub fn plain(refusal: Refusal) -> String {
    format!("refused {}: {}", refusal.number(), words(refusal.reason))
}

/// The same with the sample and its line, where 01's table gives a place.
pub fn at_sample(refusal: Refusal, lines: &[usize]) -> String {
    match refusal.reason {
        Reason::Level | Reason::StampNotAbove | Reason::ShortPhase => {
            in_words(refusal, lines, words(refusal.reason))
        }
        _ => plain(refusal),
    }
}

/// The sample and its line, with other words.
pub fn in_words(refusal: Refusal, lines: &[usize], words: &str) -> String {
    let (number, sample) = (refusal.number(), refusal.place);
    format!("refused {number} sample {sample} (line {}): {words}", lines[sample])
}

/// The same with the sample and its stamp.
pub fn at_stamp(refusal: Refusal, stamps: &[u32]) -> String {
    let (number, sample) = (refusal.number(), refusal.place);
    match refusal.reason {
        Reason::ShortPhase => {
            format!("refused {number} sample {sample} (stamp {}): {}", stamps[sample], words(refusal.reason))
        }
        _ => plain(refusal),
    }
}

/// A dump that is not read: the place in its text, the line and the word there, and what to do about it.
pub fn in_dump(refusal: Refusal, text: &str) -> String {
    let (number, place, hint) = (refusal.number(), refusal.place, hint(refusal.reason));
    if matches!(refusal.reason, Reason::LongText | Reason::TooManySamples) {
        return format!("{}; {hint}", plain(refusal));
    }
    let line = 1 + text.chars().take(place).filter(|&letter| letter == '\n').count();
    let word: String = text.chars().skip(place).take_while(|&letter| !is_parting(letter)).collect();
    let met = if text.chars().count() == place { String::new() } else { format!(": {}", quoted(&word)) };
    format!("refused {number} byte {place} (line {line}): {}{met}; {hint}", words(refusal.reason))
}
