//! `rig match`: what a rehearsal and a capture printed, one after the other, in; which frame is which load's out.

use super::files::Contents;
use super::text::{is_blank, text_of, whole_lines, words, Words};
use capture::Capture;
pub use rehearsal::Load;
use rehearsal::Rehearsal;
use report::Report;
use rules::{Found, Match};

mod capture;
mod rehearsal;
mod report;
mod room;
mod rules;

/// All that is printed; what is read before an error, too.
pub fn matched(contents: &Contents) -> String {
    let mut output = String::new();
    match read(contents, &mut output) {
        Ok((rehearsal, capture)) => {
            let found = Match::of(&rehearsal.loads, &capture.frames);
            output + &Report::new(&rehearsal, &capture, &found).text()
        }
        Err(words) => output + &format!("error {words}\n"),
    }
}

/// Both parts of the input. Lines that are handed on as they are go to `output` when they are read.
fn read(contents: &Contents, output: &mut String) -> Result<(Rehearsal, Capture), String> {
    let mut lines = Lines::new(contents);
    let rehearsal = Rehearsal::read(&mut lines, output)?;
    let capture = Capture::read(&mut lines, output)?;
    Ok((rehearsal, capture))
}

/// The loads of a rehearsal; none where it cannot be read.
pub fn rehearsed(text: &str) -> Vec<Load> {
    let contents = Contents { text: text.to_string(), failure: None };
    let rehearsal = Rehearsal::read(&mut Lines::new(&contents), &mut String::new());
    rehearsal.map_or_else(|_| Vec::new(), |rehearsal| rehearsal.loads)
}

/// For each frame of this standard input the rule that told what it is, from 1; none where it cannot be read.
pub fn rules(input: &[u8]) -> Vec<usize> {
    let contents = Contents { text: text_of(input), failure: None };
    match read(&contents, &mut String::new()) {
        Ok((rehearsal, capture)) => {
            let found = Match::of(&rehearsal.loads, &capture.frames).found;
            found.iter().map(Found::rule).collect()
        }
        Err(_) => Vec::new(),
    }
}

/// The lines of standard input that are not read yet.
struct Lines<'a> {
    rest: Box<dyn Iterator<Item = (usize, &'a str)> + 'a>,
    failure: &'a Option<String>,
}

/// One of them.
struct Line<'a> {
    number: usize,
    text: &'a str,
    words: Words<'a>,
}

impl<'a> Lines<'a> {
    fn new(contents: &'a Contents) -> Lines<'a> {
        let lines = whole_lines(&contents.text).enumerate();
        Lines { rest: Box::new(lines.map(|(index, text)| (index + 1, text))), failure: &contents.failure }
    }

    /// The next line; none at the end of the input. An error where it is no text or could not be read.
    fn next(&mut self) -> Result<Option<Line<'a>>, String> {
        match (self.rest.next(), self.failure) {
            (Some((number, text)), _) => {
                let words = words(text).map_err(|fault| format!("line {number}: {}", fault.words()))?;
                Ok(Some(Line { number, text, words }))
            }
            (None, Some(failure)) => Err(failure.clone()),
            (None, None) => Ok(None),
        }
    }
}

impl Line<'_> {
    /// The first word; none is empty.
    fn first(&self) -> &str {
        self.words.first().copied().unwrap_or_default()
    }

    /// The words after the first.
    fn after_first(&self) -> &[&str] {
        self.words.get(1..).unwrap_or_default()
    }

    fn begins_with_a_blank(&self) -> bool {
        self.text.starts_with(is_blank)
    }

    /// With its number before what is wrong with it.
    fn error(&self, words: &str) -> String {
        format!("line {}: {words}", self.number)
    }

    /// As it is.
    fn hand_on(&self, output: &mut String) {
        output.push_str(self.text);
        output.push('\n');
    }
}
