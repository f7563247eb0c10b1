//! Stamps and values, and the samples that they make.

use super::{Definitions, Record, Word, Words};
use crate::refusal::{Reason, Refusal};

/// The values so far.
struct Values {
    identifiers: Vec<Vec<u8>>,
    /// The value of each wire, once it has one.
    wires: [Option<bool>; 2],
    stamp: Option<u32>,
    record: Record,
}

/// The stamps and values up to the end of the text.
pub(super) fn record(words: &mut Words, definitions: Definitions) -> Result<Record, Refusal> {
    let Definitions { timescale, identifiers } = definitions;
    let record = Record { timescale, ..Record::default() };
    let mut values = Values { identifiers, wires: [None; 2], stamp: None, record };
    while let Some(word) = words.try_next() {
        match word.bytes {
            b"$comment" => words.skip()?,
            b"$dumpvars" | b"$dumpall" | b"$dumpon" | b"$dumpoff" => section(words, &mut values)?,
            b"$var" => return word.refused(Reason::Wires),
            _ => values.word(word, false)?,
        }
    }
    if values.level().is_none() {
        return Err(words.lacking());
    }
    words.closed()?;
    values.sample();
    Ok(values.record)
}

/// Values up to `$end`.
fn section(words: &mut Words, values: &mut Values) -> Result<(), Refusal> {
    loop {
        let word = words.inside()?;
        match word.bytes {
            b"$end" => return Ok(()),
            b"$var" => return word.refused(Reason::Wires),
            _ => values.word(word, true)?,
        }
    }
}

impl Values {
    /// A stamp or a value; in a section a stamp has no place.
    fn word(&mut self, word: Word, in_section: bool) -> Result<(), Refusal> {
        match word.bytes {
            [b'#', digits @ ..] if !digits.is_empty() && digits.iter().all(u8::is_ascii_digit) => {
                let stamp = self.judge(word, digits)?;
                if in_section {
                    return word.refused(Reason::Form);
                }
                self.sample();
                self.stamp = Some(stamp);
                Ok(())
            }
            [b'0' | b'1', identifier @ ..] if !identifier.is_empty() => {
                let wire = self.identifiers.iter().position(|declared| declared == identifier);
                let Some(wire) = wire else {
                    return word.refused(Reason::Undeclared);
                };
                if self.stamp.is_none() {
                    return word.refused(Reason::Form);
                }
                self.wires[wire] = Some(word.bytes[0] == b'1');
                Ok(())
            }
            [b'x' | b'X' | b'z' | b'Z', _, ..] => word.refused(Reason::UnknownValue),
            _ => word.refused(Reason::Form),
        }
    }

    /// The stamp that digits say: above the last, after a value for each wire, of 32 bits.
    fn judge(&self, word: Word, digits: &[u8]) -> Result<u32, Refusal> {
        let large = u64::from(u32::MAX) + 1;
        let stamp =
            digits.iter().fold(0, |stamp: u64, digit| large.min(stamp * 10 + u64::from(digit - b'0')));
        match self.stamp {
            Some(last) if stamp <= u64::from(last) => word.refused(Reason::StampNotRising),
            Some(_) if self.level().is_none() => word.refused(Reason::Wires),
            _ if stamp == large => word.refused(Reason::LargeStamp),
            _ => Ok(stamp as u32),
        }
    }

    /// The level of both wires, once each has a value.
    fn level(&self) -> Option<u8> {
        let [scl, sda] = self.wires;
        Some(u8::from(scl?) + 2 * u8::from(sda?))
    }

    /// The sample of the last stamp, where the level is another than the sample's before.
    fn sample(&mut self) {
        if let (Some(stamp), Some(level)) = (self.stamp, self.level()) {
            if self.record.levels.last() != Some(&level) {
                self.record.stamps.push(stamp);
                self.record.levels.push(level);
            }
        }
    }
}
