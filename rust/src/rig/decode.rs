//! `rig decode`: a record of stamps and levels, or a Value Change Dump, in, its events out.

use super::arguments::Options;
use super::files::Contents;
use super::refusals;
use super::text::{counted, decimal, each_statement, expected, quoted, Next};
use super::{LOOKS_LIKE_LOADS, WORDS_OF_LOADS};
use crate::bus::{self, Decoded, CUT, GAP, REPEATED_START, SAMPLES, START, STOP};
use crate::capture::thin;
use crate::phases::decode_in;
use crate::refusal::{Reason, Refusal};
use gaps::Gaps;

mod capture;
pub mod crossed;
pub mod gaps;

/// The most samples that are read to be thinned.
const THICK_SAMPLES: usize = 65_536;

const LOOKS_LIKE_A_LIST: &str = "; this looks like an event list: did you mean rig encode?";
const LOOKS_LIKE_A_DUMP: &str = "; this looks like a Value Change Dump: did you mean rig decode?";

/// The record as the file lends it, with the line of each stamp.
#[derive(Default)]
pub struct Record {
    pub stamps: Vec<u32>,
    pub levels: Vec<u8>,
    pub lines: Vec<usize>,
    /// The first line with a stamp and no level.
    no_level: Option<usize>,
}

pub fn decode(contents: &Contents, options: &Options) -> String {
    let read = if capture::is_dump(&contents.text) { capture::decode } else { decode_lines };
    read(contents, options).unwrap_or_else(|line| line + "\n")
}

/// All that is printed of a record in lines, or the one line where there is nothing else.
fn decode_lines(contents: &Contents, options: &Options) -> Result<String, String> {
    let record = if options.thin { Record::read_thick(contents)? } else { Record::read(contents)? };
    let (events, reply) = record.events(options).map_err(|refusal| record.refused(refusal))?;
    let gaps = Gaps::new(&record.stamps, &bus::frame_open_after(&record.levels));
    Ok(record.report(&events, &reply, &gaps))
}

impl Record {
    pub fn read(contents: &Contents) -> Result<Record, String> {
        let mut record = Record::default();
        each_statement(contents, |line, words| {
            record.line(line, words)?;
            Ok(if record.stamps.len() > SAMPLES { Next::End } else { Next::Line })
        })?;
        Ok(record)
    }

    /// One that is still to be thinned: many more samples, and one too many is an error.
    fn read_thick(contents: &Contents) -> Result<Record, String> {
        let mut record = Record::default();
        each_statement(contents, |line, words| {
            record.line(line, words)?;
            match record.stamps.len() > THICK_SAMPLES {
                true => Err(format!("more than {THICK_SAMPLES} samples")),
                false => Ok(Next::Line),
            }
        })?;
        Ok(record)
    }

    /// `STAMP LEVEL`, or `STAMP` alone.
    fn line(&mut self, line: usize, words: &[&str]) -> Result<(), String> {
        if words[0] == "ok" || words[0] == "look" {
            return Ok(());
        }
        let (stamp, level) = numbers(words).map_err(|word| {
            expected("STAMP LEVEL, two decimal numbers", Some(word)) + looks_like(words[0])
        })?;
        let high =
            |what: &str, most: u64, word: &str| format!("the {what} is above {most}: {}", quoted(word));
        let stamp = u32::try_from(stamp).map_err(|_| high("stamp", u32::MAX.into(), words[0]))?;
        match level {
            Some(level) => {
                let level = u8::try_from(level).map_err(|_| high("level", u8::MAX.into(), words[1]))?;
                self.levels.push(level);
            }
            None => self.no_level = self.no_level.or(Some(line)),
        }
        self.stamps.push(stamp);
        self.lines.push(line);
        Ok(())
    }

    pub fn refused(&self, refusal: Refusal) -> String {
        match (refusal.reason, self.no_level) {
            (Reason::StampsAndLevelsDiffer, Some(line)) => {
                format!("{}; line {line} has no level", refusals::plain(refusal))
            }
            (Reason::StampNotAbove, _) => {
                let more = crossed::hint(&self.stamps, &self.lines, refusal.place);
                format!("{}; {more}", refusals::at_sample(refusal, &self.lines))
            }
            _ => refusals::at_sample(refusal, &self.lines),
        }
    }

    /// What the library reads in it, thinned where that is asked for, in the room that is lent.
    fn events(&self, options: &Options) -> Result<(Vec<u16>, Decoded), Refusal> {
        let mut events = vec![0; options.room(SAMPLES)];
        let reply = if options.thin {
            let (stamps, levels) = self.thinned()?;
            bus::decode(&stamps, &levels, &mut events)?
        } else {
            decode_in(options.mode(), &self.stamps, &self.levels, &mut events)?
        };
        events.truncate(reply.count);
        Ok((events, reply))
    }

    /// The samples that change a level, and the first.
    fn thinned(&self) -> Result<(Vec<u32>, Vec<u8>), Refusal> {
        let (mut stamps, mut levels) = (vec![0; SAMPLES], vec![0; SAMPLES]);
        let count = thin(&self.stamps, &self.levels, &mut stamps, &mut levels)?;
        stamps.truncate(count);
        levels.truncate(count);
        Ok((stamps, levels))
    }

    fn report(&self, events: &[u16], reply: &Decoded, gaps: &Gaps) -> String {
        let settings = self.settings();
        let listed = self.listed(events, gaps);
        format!("{settings}{listed}{}\n", self.summary(events, reply, gaps.long_count()))
    }

    /// Start and gap, where `encode` can draw the record with them.
    fn settings(&self) -> String {
        let start = self.stamps.first().map(|start| format!("start {start}\n"));
        let mut gaps = self.stamps.windows(2).map(|pair| pair[1] - pair[0]);
        let first = gaps.next().filter(|&first| first <= GAP && gaps.all(|gap| gap == first));
        start.unwrap_or_default() + &first.map(|gap| format!("gap {gap}\n")).unwrap_or_default()
    }

    /// A line for each event, and a note before the events of a sample that comes late.
    fn listed(&self, events: &[u16], gaps: &Gaps) -> String {
        let mut listed = events.iter().zip(bus::event_samples(&self.levels)).peekable();
        let mut text = String::new();
        let (mut before, mut doubtful) = (None, false);
        for sample in 0..self.stamps.len() {
            if let Some(times) = gaps.long(sample) {
                text += &self.note(sample, times);
                doubtful = true;
            }
            while let Some((&event, _)) = listed.next_if(|(_, listing)| *listing == sample) {
                doubtful = doubtful && !matches!(event, START | REPEATED_START | STOP);
                let doubt = if doubtful { " doubtful" } else { "" };
                text += &format!("{}: {}{doubt}\n", self.stamps[sample], event_text(event, before));
                before = Some(event);
            }
        }
        text
    }

    fn note(&self, sample: usize, times: u64) -> String {
        let (from, to, line) = (self.stamps[sample - 1], self.stamps[sample], self.lines[sample]);
        let where_ = format!("note: no sample from {from} to {to} (line {line})");
        format!("{where_}, {times} times the usual gap: samples may be lost there\n")
    }

    fn summary(&self, events: &[u16], reply: &Decoded, long_gaps: usize) -> String {
        let (count, samples) = (counted(reply.count, "event"), counted(self.stamps.len(), "sample"));
        let frame = if reply.open { "frame open" } else { "no frame open" };
        let bits = counted(usize::from(reply.pending), "bit");
        let value = if reply.pending > 0 { format!(", value {:02X}h", reply.value) } else { String::new() };
        let cut = events.iter().filter(|&&event| event == CUT).count();
        let mut doubts = String::new();
        if cut > 0 {
            doubts += &format!(", {}", counted(cut, "cut byte"));
        }
        if long_gaps > 0 {
            doubts += &format!(", {}", counted(long_gaps, "long gap"));
        }
        if !events.iter().any(|&event| event < START) {
            doubts += ", no byte in any frame";
        }
        let word = if reply.open || !doubts.is_empty() { "look" } else { "ok" };
        format!("{word} {count} in {samples}, {frame}, {bits} pending{value}{doubts}")
    }
}

/// The stamp, and the level if there is one; else the word that is wrong.
fn numbers<'a>(words: &[&'a str]) -> Result<(u64, Option<u64>), &'a str> {
    let stamp = decimal(words[0]).ok_or(words[0])?;
    if let Some(third) = words.get(2) {
        return Err(third);
    }
    match words.get(1) {
        Some(level) => Ok((stamp, Some(decimal(level).ok_or(*level)?))),
        None => Ok((stamp, None)),
    }
}

/// What the file seems to be, by the first word of a line that is wrong.
fn looks_like(word: &str) -> &'static str {
    match word {
        "START" | "STOP" | "repeated" | "cut" | "start" | "gap" => LOOKS_LIKE_A_LIST,
        _ if word.ends_with(':') => LOOKS_LIKE_A_LIST,
        _ if WORDS_OF_LOADS.contains(&word) => LOOKS_LIKE_LOADS,
        _ if word.starts_with('$') => LOOKS_LIKE_A_DUMP,
        _ => "",
    }
}

/// An event in words; a byte right after START or repeated START is an address, a write or a read.
fn event_text(event: u16, before: Option<u16>) -> String {
    match event {
        0..=511 => {
            let direction = match before {
                Some(START | REPEATED_START) if event % 2 == 1 => " read",
                Some(START | REPEATED_START) => " write",
                _ => "",
            };
            let ack = if event < 256 { "ACK" } else { "NACK" };
            format!("{:02X}{direction} {ack}", event % 256)
        }
        START => "START".to_string(),
        REPEATED_START => "repeated START".to_string(),
        STOP => "STOP".to_string(),
        _ => "cut byte".to_string(),
    }
}
