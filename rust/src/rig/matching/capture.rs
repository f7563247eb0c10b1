//! The capture: what `rig decode` printed, up to its last line, in frames.

use super::{Line, Lines};
use crate::bus::{CUT, REPEATED_START, SAMPLES, START, STOP};
use crate::rig::text::{decimal, expected, short_byte};

/// The most events; a capture has no more of them than samples.
const EVENTS: usize = SAMPLES;

const NO_LAST_LINE: &str = "the capture has no last line";

/// A START and all events up to the next.
pub struct Frame {
    pub events: Vec<u16>,
    /// The stamp of the START, and that of the last event.
    pub from: u32,
    pub to: u32,
    /// An event of it is doubtful.
    pub doubtful: bool,
}

/// A line of the capture.
struct Stamped {
    stamp: u32,
    event: u16,
    doubtful: bool,
}

#[derive(Default)]
pub struct Capture {
    pub frames: Vec<Frame>,
    pub long_gaps: usize,
    events: usize,
}

impl Capture {
    pub fn read(lines: &mut Lines, output: &mut String) -> Result<Capture, String> {
        let mut capture = Capture::default();
        while let Some(line) = lines.next()? {
            match line.first() {
                "ok" | "look" => return Ok(capture),
                "start" | "gap" | "" => {}
                "note:" => {
                    capture.long_gaps += 1;
                    line.hand_on(output);
                }
                _ => capture.line(&line)?,
            }
        }
        Err(NO_LAST_LINE.to_string())
    }

    /// A line that must be an event.
    fn line(&mut self, line: &Line) -> Result<(), String> {
        let stamped = stamped(&line.words)
            .ok_or_else(|| line.error(&expected("what rig decode prints", Some(line.first()))))?;
        if self.events == EVENTS {
            return Err(line.error(&format!("more than {EVENTS} events")));
        }
        self.events += 1;
        self.put(&stamped);
        Ok(())
    }

    /// A START begins a frame; events before the first are no frame's.
    fn put(&mut self, &Stamped { stamp, event, doubtful }: &Stamped) {
        if event == START {
            self.frames.push(Frame { events: Vec::new(), from: stamp, to: stamp, doubtful: false });
        }
        if let Some(frame) = self.frames.last_mut() {
            frame.events.push(event);
            frame.to = stamp;
            frame.doubtful |= doubtful;
        }
    }
}

/// `STAMP: EVENT`, perhaps doubtful.
fn stamped(words: &[&str]) -> Option<Stamped> {
    let (stamp, words) = words.split_first()?;
    let stamp = u32::try_from(decimal(stamp.strip_suffix(':')?)?).ok()?;
    let (words, doubtful) = match words {
        [words @ .., "doubtful"] => (words, true),
        words => (words, false),
    };
    Some(Stamped { stamp, event: event(words)?, doubtful })
}

/// An event in words, as `rig encode` reads them.
fn event(words: &[&str]) -> Option<u16> {
    match words {
        ["START"] => Some(START),
        ["repeated", "START"] => Some(REPEATED_START),
        ["STOP"] => Some(STOP),
        ["cut", "byte"] => Some(CUT),
        [value, "write", ack] => entry(short_byte(value).filter(|byte| byte % 2 == 0)?, ack),
        [value, "read", ack] => entry(short_byte(value).filter(|byte| byte % 2 == 1)?, ack),
        [value, ack] => entry(short_byte(value)?, ack),
        _ => None,
    }
}

fn entry(byte: u8, ack: &str) -> Option<u16> {
    match ack {
        "ACK" => Some(u16::from(byte)),
        "NACK" => Some(u16::from(byte) + 256),
        _ => None,
    }
}
