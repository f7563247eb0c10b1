//! The waveform of a load, a column a recorded level: rows of three bytes with their labels.

use super::boards::Boards;
use super::rehearsal::Rehearsal;

const ROW_BYTES: usize = 3;

const START_COLUMNS: usize = 2;
const BYTE_COLUMNS: usize = 18;
const ENDING_COLUMNS: usize = 3;

/// What the bus shows right after a byte, if it is no further byte.
#[derive(Clone, Copy, PartialEq, Eq, Debug)]
pub enum Ending {
    RepeatedStart,
    Stop,
}

/// A byte that was carried.
#[derive(Clone, Copy, PartialEq, Eq, Debug)]
pub struct Byte {
    pub value: u8,
    pub acknowledged: bool,
    pub ending: Option<Ending>,
    /// Its first column in its row.
    pub column: usize,
}

/// A board that lost, and the first column of the bit where it did.
pub struct Loss {
    pub board: usize,
    pub column: usize,
}

/// Up to three bytes, with all that stands before and after them.
pub struct Row {
    /// The number of its first byte.
    pub first: usize,
    pub bytes: Vec<Byte>,
    /// The levels of its columns.
    pub levels: Vec<u8>,
    /// The level just before them, in the row before.
    before: Option<u8>,
    /// In the order of the boards' numbers.
    pub losses: Vec<Loss>,
}

/// One of the two lines of the bus.
#[derive(Clone, Copy, PartialEq, Eq, Debug)]
pub enum Line {
    Scl,
    Sda,
}

impl Line {
    pub fn is_high(self, level: u8) -> bool {
        match self {
            Line::Scl => level % 2 == 1,
            Line::Sda => level / 2 == 1,
        }
    }
}

impl Ending {
    pub fn label(self) -> &'static str {
        match self {
            Ending::RepeatedStart => "Sr",
            Ending::Stop => "P",
        }
    }
}

impl Byte {
    /// Its bits and its acknowledge, each with its first column.
    pub fn bits(&self) -> Vec<(usize, char)> {
        let acknowledge = if self.acknowledged { 'A' } else { 'N' };
        let bits = format!("{:08b}{acknowledge}", self.value);
        bits.chars().enumerate().map(|(bit, letter)| (self.column + 2 * bit, letter)).collect()
    }

    /// The first column after its acknowledge.
    pub fn end(&self) -> usize {
        self.column + BYTE_COLUMNS
    }
}

/// Every row of a load that was rehearsed.
pub fn rows(rehearsal: &Rehearsal) -> Vec<Row> {
    let levels = &rehearsal.run.outcome.levels;
    let (mut rows, mut from) = (Vec::new(), 0);
    for (index, bytes) in carried(rehearsal).chunks(ROW_BYTES).enumerate() {
        let first = ROW_BYTES * index;
        let (bytes, columns) = in_columns(bytes, if index == 0 { START_COLUMNS } else { 0 });
        let before = levels[..from].last().copied();
        let losses = losses(rehearsal, first, &bytes);
        rows.push(Row { first, bytes, levels: levels[from..from + columns].to_vec(), before, losses });
        from += columns;
    }
    rows
}

/// The bytes carried, not yet in their columns.
fn carried(rehearsal: &Rehearsal) -> Vec<Byte> {
    let message = rehearsal.winners()[0].1.beginning(rehearsal.carried().len());
    let mut acks = rehearsal.acks.iter();
    let mut byte =
        |&value: &u8| Byte { value, acknowledged: acks.next() == Some(&0), ending: None, column: 0 };
    let mut bytes: Vec<Byte> = Vec::new();
    for part in &message.parts {
        bytes.extend(part.iter().map(&mut byte));
        bytes.last_mut().expect("a part has a byte").ending = Some(Ending::RepeatedStart);
    }
    bytes.last_mut().expect("a byte was carried").ending = Some(Ending::Stop);
    bytes
}

/// These bytes one after another from a column on, and the first column after them.
fn in_columns(bytes: &[Byte], mut column: usize) -> (Vec<Byte>, usize) {
    let place = |byte: &Byte| {
        let placed = Byte { column, ..*byte };
        column = placed.end() + if placed.ending.is_some() { ENDING_COLUMNS } else { 0 };
        placed
    };
    let bytes = bytes.iter().map(place).collect();
    (bytes, column)
}

/// The boards that lost at one of these bytes.
fn losses(rehearsal: &Rehearsal, first: usize, bytes: &[Byte]) -> Vec<Loss> {
    let loss = |board: usize, place: usize| {
        let byte = bytes.get((place / 9).checked_sub(first)?)?;
        Some(Loss { board, column: byte.column + 2 * (place % 9) })
    };
    let losers = rehearsal.losers().into_iter();
    losers.filter_map(|(board, _, place)| loss(board.number, usize::from(place))).collect()
}

/// The lines of all rows.
pub fn lines(rehearsal: &Rehearsal, boards: &Boards) -> Vec<String> {
    rows(rehearsal).iter().flat_map(|row| row.lines(boards)).collect()
}

impl Row {
    fn lines(&self, boards: &Boards) -> Vec<String> {
        let mut lines = vec![
            line(&format!("byte {}", self.first), &placed(self.labels())),
            line("", &placed(self.bytes.iter().flat_map(Byte::bits))),
            line("scl", &self.signal(Line::Scl)),
            line("sda", &self.signal(Line::Sda)),
        ];
        let lost = |loss: &Loss| placed([(loss.column, format!("^ {}", boards.list(&[loss.board])))]);
        lines.extend(self.losses.iter().map(|loss| line("lost", &lost(loss))));
        lines
    }

    /// START, the bytes and what follows them, each with its column.
    fn labels(&self) -> Vec<(usize, String)> {
        let mut labels = Vec::new();
        if self.before.is_none() {
            labels.push((1, "S".to_string()));
        }
        for byte in &self.bytes {
            labels.push((byte.column, format!("|{:02X}", byte.value)));
            if let Some(ending) = byte.ending {
                let label = ending.label();
                labels.push((byte.end() + ENDING_COLUMNS - label.len(), label.to_string()));
            }
        }
        labels
    }

    /// A character a column: `"` high, `.` low, `/` risen and `\` fallen since the column before.
    fn signal(&self, line: Line) -> String {
        let mut before = self.before;
        let mut text = String::new();
        for &level in &self.levels {
            text.push(match (before.map(|before| line.is_high(before)), line.is_high(level)) {
                (Some(false), true) => '/',
                (Some(true), false) => '\\',
                (_, true) => '"',
                (_, false) => '.',
            });
            before = Some(level);
        }
        text
    }
}

/// A line of a row: its word, then its columns.
fn line(word: &str, columns: &str) -> String {
    format!("  {word:<8}{columns}")
}

/// Texts at their columns, from left to right.
fn placed<Text: ToString>(texts: impl IntoIterator<Item = (usize, Text)>) -> String {
    let put = |line: String, (column, text): (usize, Text)| format!("{line:<column$}{}", text.to_string());
    texts.into_iter().fold(String::new(), put)
}
