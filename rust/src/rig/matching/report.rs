//! What is printed: a line for each frame, what is not on the bus, and the last line.

use super::capture::{Capture, Frame};
use super::rehearsal::{Failure, Fate, Load, Rehearsal, Verdict};
use super::rules::{Found, Match};
use crate::bus::{CUT, REPEATED_START, START, STOP};
use crate::capture::{compare, Difference, Part};
use crate::rig::text::counted;

/// Why there is no rehearsal of a load, in words.
const FAILURES: [(Failure, &str); 2] = [(Failure::Refused, "refused"), (Failure::InError, "in error")];

pub struct Report<'a> {
    rehearsal: &'a Rehearsal,
    capture: &'a Capture,
    found: &'a Match,
}

impl<'a> Report<'a> {
    pub fn new(rehearsal: &'a Rehearsal, capture: &'a Capture, found: &'a Match) -> Report<'a> {
        Report { rehearsal, capture, found }
    }

    pub fn text(&self) -> String {
        let mut lines: Vec<String> = (0..self.capture.frames.len()).map(|frame| self.frame(frame)).collect();
        for load in 0..self.rehearsal.loads.len() {
            lines.extend(self.left(load));
        }
        lines.push(self.last_line());
        lines.join("\n") + "\n"
    }

    fn frame(&self, index: usize) -> String {
        let frame = &self.capture.frames[index];
        let load = |load: usize| &self.rehearsal.loads[load];
        let what = match &self.found.found[index] {
            Found::Waited { load: of, boards, since } => {
                let boards = load(*of).called(boards.iter().copied());
                format!("{}, message of {boards}, waiting since frame {}", load(*of).name, since + 1)
            }
            Found::Next(of) | Found::Later(of) => as_rehearsed(load(*of), frame),
            Found::Different(of) => different(load(*of), frame),
            Found::Between | Found::NotRehearsed => {
                format!("not rehearsed: {}{}", bytes_of(frame), self.message_of(frame))
            }
        };
        let doubtful = if frame.doubtful { "; doubtful" } else { "" };
        format!("frame {}, {} to {}: {what}{doubtful}", index + 1, frame.from, frame.to)
    }

    /// The first board of all loads whose message this is, if there is one.
    fn message_of(&self, frame: &Frame) -> String {
        let boards =
            self.rehearsal.loads.iter().flat_map(|load| load.boards.iter().map(move |board| (load, board)));
        let sender = boards.into_iter().find(|(_, board)| board.message == frame.events);
        sender.map_or(String::new(), |(load, board)| {
            format!("; the message of {} in {}", board.called(), load.name)
        })
    }

    /// What of a load is not on the bus, and why it has no rehearsal.
    fn left(&self, index: usize) -> Vec<String> {
        let load = &self.rehearsal.loads[index];
        let mut lines = Vec::new();
        if self.is_missing(index) {
            lines.push(format!("not on the bus: {}", load.name));
        }
        for (board, since) in load.boards.iter().zip(&self.found.waiting[index]) {
            lines.extend(since.map(|since| {
                let message = format!("{}, message of {}", load.name, board.called());
                format!("not on the bus: {message}, waiting since frame {}", since + 1)
            }));
        }
        for (failure, what) in FAILURES {
            lines.extend(load.is(failure).then(|| format!("no rehearsal: {}, {what}", load.name)));
        }
        lines
    }

    /// It has a rehearsed frame, and no frame stands for it.
    fn is_missing(&self, load: usize) -> bool {
        self.rehearsal.loads[load].frame().is_some() && !self.found.met[load]
    }

    fn last_line(&self) -> String {
        let frames = self.frame_counts();
        let rest = self.rest_counts();
        let mut line = counted(self.capture.frames.len(), "frame");
        if !frames.is_empty() {
            line += &format!(": {}", frames.join(", "));
        }
        if !rest.is_empty() {
            line += &format!("; {}", rest.join(", "));
        }
        match self.rehearsal.verdict {
            Verdict::Error => format!("error {line}"),
            Verdict::Refused(number) => format!("refused {number}: {line}"),
            Verdict::Whole if self.needs_a_look() => format!("look {line}"),
            Verdict::Whole => format!("ok {line}"),
        }
    }

    fn needs_a_look(&self) -> bool {
        let is_wrong = |found: &Found| found.is_not_rehearsed() || matches!(found, Found::Different(_));
        let (loads, messages) = self.not_on_the_bus();
        let frames = &self.found.found;
        frames.is_empty() || frames.iter().any(is_wrong) || loads + messages + self.capture.long_gaps > 0
    }

    /// How many frames there are of each kind that there is.
    fn frame_counts(&self) -> Vec<String> {
        let count = |is: fn(&Found) -> bool| self.found.found.iter().filter(|found| is(found)).count();
        let counts = [
            (count(Found::is_as_rehearsed), "as rehearsed"),
            (count(|found| matches!(found, Found::Waited { .. })), "waited"),
            (count(|found| matches!(found, Found::Different(_))), "different"),
            (count(Found::is_not_rehearsed), "not rehearsed"),
        ];
        let some = counts.into_iter().filter(|(count, _)| *count > 0);
        some.map(|(count, what)| format!("{count} {what}")).collect()
    }

    /// Loads and messages that are not on the bus.
    fn not_on_the_bus(&self) -> (usize, usize) {
        let loads = (0..self.rehearsal.loads.len()).filter(|&load| self.is_missing(load)).count();
        (loads, self.found.waiting.iter().flatten().flatten().count())
    }

    fn rest_counts(&self) -> Vec<String> {
        let (loads, messages) = self.not_on_the_bus();
        let missing = [counted(loads, "load"), counted(messages, "message")];
        let missing = match (loads, messages) {
            (0, 0) => None,
            (_, 0) => Some(missing[0].clone()),
            (0, _) => Some(missing[1].clone()),
            _ => Some(missing.join(" and ")),
        };
        let mut counts: Vec<String> =
            missing.map(|what| format!("{what} not on the bus")).into_iter().collect();
        let gaps = self.capture.long_gaps;
        counts.extend((gaps > 0).then(|| counted(gaps, "long gap")));
        for (failure, what) in FAILURES {
            let loads = self.rehearsal.loads.iter().filter(|load| load.is(failure)).count();
            counts.extend((loads > 0).then(|| format!("{} {what}", counted(loads, "load"))));
        }
        let faults = self.rehearsal.faults;
        counts.extend((faults > 0).then(|| format!("{} in the loads", counted(faults, "fault"))));
        counts
    }
}

/// The boards that are still in, or that won.
fn as_rehearsed(load: &Load, frame: &Frame) -> String {
    let bytes = counted(frame.events.iter().filter(|&&event| event < START).count(), "byte");
    let these = |fates: &[Fate]| -> Vec<usize> {
        (0..load.boards.len()).filter(|&board| fates.contains(&load.boards[board].fate)).collect()
    };
    let (undecided, winners) = (these(&[Fate::In]), these(&[Fate::Won, Fate::Cut]));
    let cut = winners.first().is_some_and(|&board| load.boards[board].fate == Fate::Cut);
    let fate = match (undecided.is_empty(), cut) {
        (false, _) => format!("undecided between {}", load.called(undecided)),
        (_, true) => format!("cut, won by {}", load.called(winners)),
        _ => format!("won by {}", load.called(winners)),
    };
    format!("{} as rehearsed, {bytes}, {fate}", load.name)
}

/// Where the frame is not the one rehearsed, and whose bytes it has there.
fn different(load: &Load, frame: &Frame) -> String {
    let rehearsed = load.frame().expect("a load with a rehearsed frame");
    let difference = compare(rehearsed, &frame.events).expect("another frame");
    let events = [rehearsed.get(difference.index), frame.events.get(difference.index)];
    let place = place(&difference, events[0]);
    let [rehearsed, bus] = match difference.part {
        Part::Acknowledge => events.map(acknowledge),
        _ => events.map(event_or_nothing),
    };
    let whose = whose(load, frame, difference.index);
    format!("{} differs at {place}: rehearsed {rehearsed}, bus {bus}{whose}", load.name)
}

/// Bits are counted as they are sent.
fn place(difference: &Difference, rehearsed: Option<&u16>) -> String {
    let byte = difference.byte;
    match (difference.part, rehearsed) {
        (Part::Bit(bit), _) => format!("byte {byte} bit {}", 7 - bit),
        (Part::Acknowledge, Some(event)) => format!("byte {byte} ({:02X})", event % 256),
        _ => format!("byte {byte}"),
    }
}

fn acknowledge(event: Option<&u16>) -> String {
    let acknowledged = event.is_some_and(|&event| event < 256);
    if acknowledged { "ACK" } else { "NACK" }.to_string()
}

fn event_or_nothing(event: Option<&u16>) -> String {
    match event {
        None => "nothing".to_string(),
        Some(&byte @ 0..=511) => format!("{:02X}", byte % 256),
        Some(&START) => "START".to_string(),
        Some(&REPEATED_START) => "repeated START".to_string(),
        Some(&STOP) => "STOP".to_string(),
        Some(_) => "cut byte".to_string(),
    }
}

/// The first board whose message is on the bus up to this event and with it, whatever its acknowledge.
fn whose(load: &Load, frame: &Frame, index: usize) -> String {
    let is_on_the_bus = |message: &[u16]| match compare(message, &frame.events) {
        None => true,
        Some(difference) => {
            difference.index > index || difference.index == index && difference.part == Part::Acknowledge
        }
    };
    let board = load.boards.iter().find(|board| is_on_the_bus(&board.message));
    board.map_or(String::new(), |board| format!("; those are {}'s bytes", board.called()))
}

/// Bytes and cut bytes with their acknowledges, parted where the bus restarted.
fn bytes_of(frame: &Frame) -> String {
    let (mut text, mut parting) = (String::new(), ", ");
    for &event in &frame.events {
        let shown = match event {
            0..=255 => format!("{event:02X} ACK"),
            256..=511 => format!("{:02X} NACK", event - 256),
            CUT => "cut byte".to_string(),
            REPEATED_START => {
                parting = " / ";
                continue;
            }
            _ => continue,
        };
        if !text.is_empty() {
            text += parting;
        }
        text += &shown;
        parting = ", ";
    }
    if text.is_empty() {
        "no byte".to_string()
    } else {
        text
    }
}
