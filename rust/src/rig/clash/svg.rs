//! A load as an SVG document: the rows of its waveform one below the other, an element a line.

use super::boards::Boards;
use super::load::Load;
use super::rehearsal::Rehearsal;
use super::wave::{self, Byte, Line, Row};

/// The most columns of a row, and as many as the longest heading needs.
const ROW_COLUMNS: usize = 65;
const HEADING_COLUMNS: usize = 45;
/// Where the first row begins, how high a row is without losers, and how high the line of a loser.
const TOP: usize = 30;
const ROW_HEIGHT: usize = 112;
const LOSER_HEIGHT: usize = 14;

const STROKE: &str = r##"fill="none" stroke="#1b4f72" stroke-width="2"/>"##;

/// A row in its place.
struct Placed<'a> {
    row: &'a Row,
    boards: &'a Boards,
    /// Its upper border.
    top: usize,
}

pub fn document(load: &Load, boards: &Boards, rehearsal: &Rehearsal) -> String {
    let rows = wave::rows(rehearsal);
    let heading = escaped(&load.heading());
    let mut elements = vec![
        opened(&rows),
        format!("<title>{heading}</title>"),
        r#"<rect width="100%" height="100%" fill="white"/>"#.to_string(),
        text(8, 20, &heading),
    ];
    let mut top = TOP;
    for row in &rows {
        elements.extend(Placed { row, boards, top }.elements());
        top += height(row);
    }
    elements.push("</svg>\n".to_string());
    elements.join("\n")
}

/// The first element, with the size of all.
fn opened(rows: &[Row]) -> String {
    let columns: usize = rows.iter().map(|row| row.levels.len()).sum();
    let width = 180 + 12 * columns.clamp(HEADING_COLUMNS, ROW_COLUMNS);
    let height = TOP + rows.iter().map(height).sum::<usize>();
    format!(
        "<svg xmlns=\"http://www.w3.org/2000/svg\" width=\"{width}\" height=\"{height}\" \
         viewBox=\"0 0 {width} {height}\" font-family=\"monospace\" font-size=\"12\">"
    )
}

fn height(row: &Row) -> usize {
    ROW_HEIGHT + LOSER_HEIGHT * row.losses.len()
}

/// Where a column of a row begins.
fn x(column: usize) -> usize {
    80 + 12 * column
}

fn text(x: usize, y: usize, text: &str) -> String {
    format!("<text x=\"{x}\" y=\"{y}\">{text}</text>")
}

/// As XML has it, and ASCII alone.
fn escaped(text: &str) -> String {
    let escape = |letter| match letter {
        '&' => "&amp;".to_string(),
        '<' => "&lt;".to_string(),
        '>' => "&gt;".to_string(),
        '\u{80}'.. => "?".to_string(),
        _ => letter.to_string(),
    };
    text.chars().map(escape).collect()
}

impl Placed<'_> {
    fn elements(&self) -> Vec<String> {
        let Placed { row, top, .. } = self;
        let mut elements: Vec<String> = row.losses.iter().map(|loss| self.mark(loss.column)).collect();
        elements.push(text(8, top + 12, &format!("byte {}", row.first)));
        if row.first == 0 {
            elements.push(text(x(1), top + 12, "S"));
        }
        elements.extend(row.bytes.iter().flat_map(|byte| self.byte(byte)));
        elements.push(text(8, top + 54, "SCL"));
        elements.push(self.path(Line::Scl, top + 40, top + 58));
        elements.push(text(8, top + 88, "SDA"));
        elements.push(self.path(Line::Sda, top + 74, top + 92));
        elements.extend(self.losers());
        elements
    }

    /// The bit at which a board lost.
    fn mark(&self, column: usize) -> String {
        let (x, y) = (x(column), self.top + 16);
        format!("<rect x=\"{x}\" y=\"{y}\" width=\"24\" height=\"80\" fill=\"#f9e79f\"/>")
    }

    /// A byte, its bits, and what follows it.
    fn byte(&self, byte: &Byte) -> Vec<String> {
        let label = |column, label: &str| text(x(column), self.top + 12, label);
        let bit = |(column, bit): (usize, char)| text(x(column), self.top + 30, &bit.to_string());
        let mut elements = vec![label(byte.column, &format!("{:02X}", byte.value))];
        elements.extend(byte.bits().into_iter().map(bit));
        elements.extend(byte.ending.map(|ending| label(byte.end() + 1, ending.label())));
        elements
    }

    /// A line of the bus, between these two heights.
    fn path(&self, line: Line, high: usize, low: usize) -> String {
        let heights = self.row.levels.iter().map(|&level| if line.is_high(level) { high } else { low });
        let mut at = None;
        let mut path = String::new();
        for (column, y) in heights.enumerate() {
            match at.replace(y) {
                None => path += &format!("M{} {y}", x(column)),
                Some(before) if before != y => path += &format!(" V{y}"),
                Some(_) => {}
            }
            path += &format!(" H{}", x(column + 1));
        }
        format!("<path d=\"{path}\" {STROKE}")
    }

    /// The boards that lost, below the bits where they did.
    fn losers(&self) -> Vec<String> {
        let losses = self.row.losses.iter().enumerate();
        let loser = |(index, loss): (usize, &wave::Loss)| {
            let board = escaped(&self.boards.list(&[loss.board]));
            text(x(loss.column), self.top + 110 + LOSER_HEIGHT * index, &format!("{board} lost"))
        };
        losses.map(loser).collect()
    }
}
