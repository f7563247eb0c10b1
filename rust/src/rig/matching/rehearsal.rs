//! The rehearsal: what `rig clash --wave` or `rig draw` printed, up to its last line.

use super::room::Room;
use super::{Line, Lines};
use crate::bus::{REPEATED_START, START, STOP};
use crate::rig::text::{byte, decimal};

/// Added to a byte that is not acknowledged.
const NACK: u16 = 256;

/// The largest number of a board.
const NUMBER: u64 = 4_294_967_295;

const NO_LAST_LINE: &str = "the rehearsal has no last line";
const TOO_LONG: &str = "the rehearsal is too long to be kept: name a load";

/// What became of a board in the rehearsal.
#[derive(Clone, Copy, PartialEq, Eq, Debug)]
pub enum Fate {
    Won,
    /// It won, and its message was cut.
    Cut,
    /// Still in where the bus stopped, undecided.
    In,
    Lost,
}

pub struct Board {
    number: u64,
    /// None in the old form.
    name: Option<String>,
    /// As events, all acknowledged.
    pub message: Vec<u16>,
    pub fate: Fate,
}

#[derive(Default)]
pub struct Load {
    pub name: String,
    pub boards: Vec<Board>,
    /// As events.
    carried: Option<Vec<u16>>,
    failure: Option<Failure>,
}

/// Why a load was not rehearsed.
#[derive(Clone, Copy, PartialEq, Eq, Debug)]
pub enum Failure {
    Refused,
    InError,
}

/// How the last line of a rehearsal begins.
#[derive(Clone, Copy, PartialEq, Eq, Debug)]
pub enum Verdict {
    /// `ok` or `look`.
    Whole,
    /// By this number.
    Refused(u64),
    Error,
}

pub struct Rehearsal {
    pub loads: Vec<Load>,
    /// How many lines tell a fault in the loads.
    pub faults: usize,
    pub verdict: Verdict,
}

impl Fate {
    /// After it the message is still to be sent.
    pub fn waits(self) -> bool {
        self != Fate::Won
    }
}

impl Board {
    /// By its name, or its number where it has none.
    pub fn called(&self) -> String {
        self.name.clone().unwrap_or_else(|| format!("board {}", self.number))
    }

    /// The board of a line, from its second word on; none where that is no number.
    fn of(fate: Fate, words: &[&str]) -> Option<Board> {
        let number = decimal(words.first()?)?.min(NUMBER);
        let name = words.get(1).filter(|word| byte(word).is_none()).map(|word| word.to_string());
        let rest = &words[(if name.is_some() { 2 } else { 1 }).min(words.len())..];
        let (message, after) = parted_from(rest);
        let fate = if fate == Fate::Won && after == Some(&"CUT") { Fate::Cut } else { fate };
        Some(Board { number, name, message: acknowledged(message), fate })
    }
}

impl Rehearsal {
    pub fn read(lines: &mut Lines, output: &mut String) -> Result<Rehearsal, String> {
        let mut rehearsal = Rehearsal { loads: Vec::new(), faults: 0, verdict: Verdict::Whole };
        let mut room = Room::default();
        while let Some(line) = lines.next()? {
            if let Some(verdict) = verdict(&line) {
                return Ok(Rehearsal { verdict, ..rehearsal });
            }
            rehearsal.line(&line, &mut room, output);
            if !room.holds() {
                return Err(TOO_LONG.to_string());
            }
        }
        Err(NO_LAST_LINE.to_string())
    }

    /// A line before the last.
    fn line(&mut self, line: &Line, room: &mut Room, output: &mut String) {
        match line.first() {
            _ if line.begins_with_a_blank() => {
                self.loads.iter_mut().next_back().into_iter().for_each(|load| load.line(line, room));
            }
            "!" => {
                self.faults += 1;
                line.hand_on(output);
            }
            "load" => self.loads.push(begun(line, room)),
            _ => {}
        }
    }
}

impl Load {
    /// The rehearsed frame, as events. One that is refused or in error has none.
    pub fn frame(&self) -> Option<&[u16]> {
        self.carried.as_deref().filter(|_| self.failure.is_none())
    }

    pub fn is(&self, failure: Failure) -> bool {
        self.failure == Some(failure)
    }

    /// A line of its block.
    fn line(&mut self, line: &Line, room: &mut Room) {
        let words = line.after_first();
        match line.first() {
            "WON" => self.board(Fate::Won, words, room),
            "in" => self.board(Fate::In, words, room),
            "lost" => self.board(Fate::Lost, words, room),
            "carried" => {
                let frame = carried(words);
                room.events(&frame);
                self.carried = Some(frame);
            }
            "refused" => self.failure = Some(Failure::Refused),
            "ERROR:" => self.failure = self.failure.or(Some(Failure::InError)),
            _ => {}
        }
    }

    fn board(&mut self, fate: Fate, words: &[&str], room: &mut Room) {
        let Some(board) = Board::of(fate, words) else { return };
        room.piece(board.name.as_deref().unwrap_or_default());
        room.events(&board.message);
        self.boards.push(board);
    }

    /// The names of these boards.
    pub fn called(&self, boards: impl IntoIterator<Item = usize>) -> String {
        boards.into_iter().map(|board| self.boards[board].called()).collect::<Vec<_>>().join(", ")
    }
}

/// How the rehearsal ends, if it is with this line.
fn verdict(line: &Line) -> Option<Verdict> {
    match line.first() {
        _ if line.begins_with_a_blank() => None,
        "ok" | "look" => Some(Verdict::Whole),
        "refused" => Some(Verdict::Refused(refusal(line.after_first()))),
        "error" => Some(Verdict::Error),
        _ => None,
    }
}

/// The first of these words as a number, without a colon at its end; 0 where it is none.
fn refusal(words: &[&str]) -> u64 {
    let number = words.first().map(|word| word.strip_suffix(':').unwrap_or(word));
    number.and_then(decimal).unwrap_or(0)
}

/// The load of a line that begins one.
fn begun(line: &Line, room: &mut Room) -> Load {
    let name = line.after_first().first().map(|word| word.to_string()).unwrap_or_default();
    room.piece(&name);
    Load { name, ..Load::default() }
}

/// The words of a message, and the word after them. A count before `of` is no byte of it.
fn parted_from<'a, 'b>(words: &'b [&'a str]) -> (&'b [&'a str], Option<&'b &'a str>) {
    let alike = words.iter().take_while(|word| **word == "/" || byte(word).is_some()).count();
    let count = if words.get(alike) == Some(&"of") { alike.saturating_sub(1) } else { alike };
    (&words[..count], words.get(count))
}

/// A message as events.
fn acknowledged(words: &[&str]) -> Vec<u16> {
    let event = |word: &&str| byte(word).map_or(REPEATED_START, u16::from);
    framed(words.iter().map(event))
}

/// The words after `carried` as events, up to one that cannot be told.
fn carried(words: &[&str]) -> Vec<u16> {
    let (mut events, mut words) = (Vec::new(), words.iter());
    while let Some(word) = words.next() {
        match byte(word) {
            Some(byte) => {
                let refused = matches!(words.next(), Some(&"NACK" | &"NACK,"));
                events.push(u16::from(byte) + if refused { NACK } else { 0 });
            }
            None if *word == "/" => events.push(REPEATED_START),
            None => break,
        }
    }
    framed(events)
}

/// Between START and STOP.
fn framed(events: impl IntoIterator<Item = u16>) -> Vec<u16> {
    let mut frame = vec![START];
    frame.extend(events);
    frame.push(STOP);
    frame
}
