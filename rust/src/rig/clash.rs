//! `rig clash`: loads of boards that start at the same time, who wins each, and whether its message goes out whole.
//! `rig draw`: a picture of one of them. `rig night`: the same loads by rounds, in which who lost tries again.

use super::arguments::Options;
use super::files;
use super::text::{printable, quoted};
use corrections::Corrections;
use reading::Reading;
use std::io::Read;
use tally::Tally;

mod block;
mod boards;
mod corrections;
mod draw;
mod load;
mod night;
mod reading;
mod refused;
mod registers;
mod rehearsal;
mod svg;
mod table;
mod tally;
mod wave;

/// What is printed so far, on standard output and as notes, and what was counted.
struct Report<'a> {
    options: &'a Options,
    output: String,
    notes: String,
    tally: Tally,
    corrections: Corrections,
}

/// Standard output and the notes.
pub fn clash(options: &Options, input: &mut dyn Read) -> (String, String) {
    let mut report = Report {
        options,
        output: String::new(),
        notes: String::new(),
        tally: Tally::default(),
        corrections: Corrections::default(),
    };
    if options.table {
        report.line(table::header());
    }
    let corrections = options.corrections.as_ref().map(|file| Corrections::read(&files::read(file, input)));
    match corrections.transpose() {
        Ok(corrections) => report.rehearse(corrections.unwrap_or_default(), input),
        Err(words) => report.fault(&format!("{words}; nothing is rehearsed")),
    }
    let last = report.tally.last_lines(options.only.is_none());
    (report.output + &last, report.notes)
}

impl Report<'_> {
    /// Every file, with these corrections over its loads.
    fn rehearse(&mut self, corrections: Corrections, input: &mut dyn Read) {
        self.corrections = corrections;
        let files = &self.options.files;
        for file in files {
            if files.len() > 1 && self.options.only.is_none() {
                self.line(format!("file {}", printable(file)));
            }
            Reading::new(self, file).whole(&files::read(file, input));
        }
        for words in self.corrections.not_met() {
            self.fault(&words);
        }
        if let (Some(name), true) = (&self.options.only, self.tally.is_empty()) {
            self.fault(&format!("no load {} in the files", quoted(name)));
        }
    }

    fn line(&mut self, line: String) {
        self.output += &line;
        self.output.push('\n');
    }

    /// Something wrong outside the loads.
    fn fault(&mut self, words: &str) {
        self.tally.faults += 1;
        self.line(format!("! {words}"));
    }
}
