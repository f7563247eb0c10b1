//! The dump reader (02, Ask 8): a Value Change Dump (IEEE 1364) with two one-bit wires, SCL declared first.
//!
//! The text is cut into words first; each command then takes its words one after the other.

use crate::bus::SAMPLES;
use crate::refusal::{Reason, Refusal};

mod values;

/// The longest text that is read.
pub const LONGEST: usize = 60_000;

/// What is read: a stamp and a level for each sample, and the unit of the stamps in femtoseconds, 0 if not said.
#[derive(Clone, PartialEq, Eq, Debug, Default)]
pub struct Record {
    pub stamps: Vec<u32>,
    pub levels: Vec<u8>,
    pub timescale: u64,
}

/// Reads a text into the lent slices, whose rest stays; how many samples, and the timescale. Refusals 26, then the
/// one of the earliest place, then 6 and 8.
pub fn read(text: &[u8], stamps: &mut [u32], levels: &mut [u8]) -> Result<(usize, u64), Refusal> {
    let record = record(text)?;
    let count = record.stamps.len();
    if count > SAMPLES {
        return Err(Reason::TooManySamples.refusal());
    }
    if stamps.len() < count || levels.len() < count {
        return Err(Reason::ShortBuffer.refusal());
    }
    stamps[..count].copy_from_slice(&record.stamps);
    levels[..count].copy_from_slice(&record.levels);
    Ok((count, record.timescale))
}

/// The same with no limit on the samples.
pub fn record(text: &[u8]) -> Result<Record, Refusal> {
    if text.len() > LONGEST {
        return Err(Reason::LongText.refusal());
    }
    let mut words = Words::of(text);
    let definitions = definitions(&mut words)?;
    values::record(&mut words, definitions)
}

/// A word and where its first byte stands.
#[derive(Clone, Copy)]
struct Word<'a> {
    place: usize,
    bytes: &'a [u8],
}

impl<'a> Word<'a> {
    fn is(self, name: &str) -> bool {
        self.bytes == name.as_bytes()
    }

    fn commands(self) -> bool {
        self.bytes.starts_with(b"$")
    }

    fn refused<Any>(self, reason: Reason) -> Result<Any, Refusal> {
        Err(reason.at(self.place))
    }
}

/// The words of a text that are whole: a byte that parts words stands after each.
struct Words<'a> {
    text: &'a [u8],
    next: usize,
}

fn parts(byte: u8) -> bool {
    matches!(byte, 0x09 | 0x0A | 0x0D | 0x20)
}

impl<'a> Words<'a> {
    fn of(text: &'a [u8]) -> Words<'a> {
        Words { text, next: 0 }
    }

    /// The next whole word, if any.
    fn try_next(&mut self) -> Option<Word<'a>> {
        let place = self.next + self.text[self.next..].iter().position(|&byte| !parts(byte))?;
        let length = self.text[place..].iter().position(|&byte| parts(byte))?;
        self.next = place + length;
        Some(Word { place, bytes: &self.text[place..self.next] })
    }

    /// The next word of a command: a text that has none ends inside it.
    fn inside(&mut self) -> Result<Word<'a>, Refusal> {
        self.try_next().ok_or(self.cut())
    }

    /// The text ends too early.
    fn cut(&self) -> Refusal {
        Reason::CutText.at(self.text.len())
    }

    /// What is refused at the end of a text that lacks something: 23 where its last line is not closed.
    fn lacking(&self) -> Refusal {
        match self.text.last() {
            Some(0x0A) | None => Reason::Wires.at(self.text.len()),
            _ => self.cut(),
        }
    }

    /// The end of a text that lacks nothing.
    fn closed(&self) -> Result<(), Refusal> {
        match self.text.last() {
            Some(0x0A) => Ok(()),
            _ => Err(self.cut()),
        }
    }

    /// Everything up to `$end`.
    fn skip(&mut self) -> Result<(), Refusal> {
        while !self.inside()?.is("$end") {}
        Ok(())
    }

    /// `$end` and nothing else.
    fn end(&mut self) -> Result<(), Refusal> {
        let word = self.inside()?;
        if word.is("$end") {
            return Ok(());
        }
        word.refused(Reason::Form)
    }
}

/// What the definitions say.
#[derive(Default)]
struct Definitions {
    timescale: u64,
    identifiers: Vec<Vec<u8>>,
}

/// Everything up to `$enddefinitions $end`.
fn definitions(words: &mut Words) -> Result<Definitions, Refusal> {
    let mut definitions = Definitions::default();
    loop {
        let Some(word) = words.try_next() else {
            return Err(words.lacking());
        };
        match word.bytes {
            b"$date" | b"$version" | b"$comment" => words.skip()?,
            b"$timescale" => definitions.timescale = timescale(words)?,
            b"$scope" => scope(words)?,
            b"$upscope" => words.end()?,
            b"$var" if definitions.identifiers.len() == 2 => return word.refused(Reason::Wires),
            b"$var" => variable(words, &mut definitions.identifiers)?,
            b"$enddefinitions" if definitions.identifiers.len() < 2 => return word.refused(Reason::Wires),
            b"$enddefinitions" => {
                words.end()?;
                return Ok(definitions);
            }
            _ => return word.refused(Reason::Form),
        }
    }
}

/// A unit of time in femtoseconds.
fn unit(name: &[u8]) -> Option<u64> {
    let power = [&b"fs"[..], b"ps", b"ns", b"us", b"ms", b"s"].iter().position(|&unit| unit == name)?;
    Some(1000_u64.pow(power as u32))
}

/// 1, 10 or 100 and a unit, in one word or two.
fn timescale(words: &mut Words) -> Result<u64, Refusal> {
    let word = words.inside()?;
    let digits = word.bytes.iter().take_while(|byte| byte.is_ascii_digit()).count();
    let (number, rest) = word.bytes.split_at(digits);
    let number = match number {
        b"1" => 1,
        b"10" => 10,
        b"100" => 100,
        _ => return word.refused(Reason::Form),
    };
    let (name, of) = if rest.is_empty() {
        let second = words.inside()?;
        (second.bytes, second)
    } else {
        (rest, word)
    };
    let Some(unit) = unit(name) else {
        return of.refused(Reason::Form);
    };
    words.end()?;
    Ok(number * unit)
}

/// A type of the standard and a name.
fn scope(words: &mut Words) -> Result<(), Refusal> {
    let kind = words.inside()?;
    if !["begin", "fork", "function", "module", "task"].iter().any(|&name| kind.is(name)) {
        return kind.refused(Reason::Form);
    }
    let name = words.inside()?;
    if name.commands() {
        return name.refused(Reason::Form);
    }
    words.end()
}

/// `wire`, 1, an identifier that is new, and a name of one word or more.
fn variable(words: &mut Words, identifiers: &mut Vec<Vec<u8>>) -> Result<(), Refusal> {
    let kind = words.inside()?;
    if !kind.is("wire") {
        return kind.refused(Reason::Wires);
    }
    let size = words.inside()?;
    if !size.bytes.ends_with(b"1") || size.bytes[..size.bytes.len() - 1].iter().any(|&byte| byte != b'0') {
        return size.refused(Reason::Wires);
    }
    let identifier = words.inside()?;
    if identifier.is("$end") || identifier.bytes.iter().any(|byte| !(0x21..=0x7E).contains(byte)) {
        return identifier.refused(Reason::Form);
    }
    if identifiers.iter().any(|used| used == identifier.bytes) {
        return identifier.refused(Reason::Wires);
    }
    identifiers.push(identifier.bytes.to_vec());
    let name = words.inside()?;
    if name.commands() {
        return name.refused(Reason::Form);
    }
    loop {
        let more = words.inside()?;
        if more.is("$end") {
            return Ok(());
        }
        if more.commands() {
            return more.refused(Reason::Form);
        }
    }
}
