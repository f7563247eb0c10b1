//! One file, line by line: a load is rehearsed where it ends, and a line that is wrong costs its own load only.

use super::boards::Boards;
use super::load::Load;
use super::rehearsal::Result as Rehearsed;
use super::{block, draw, table, Report};
use crate::rig::arguments::Command;
use crate::rig::files::Contents;
use crate::rig::text::{counted, decimal, expected, lines, printable, Fault, Words};
use std::collections::HashMap;

/// The most loads of a file with boards.
const LOADS: usize = 4096;

const NOT_READ: &str = "; the file is not read";
const REST_NOT_READ: &str = "; the rest of the file is not read";

pub struct Reading<'a, 'b> {
    report: &'a mut Report<'b>,
    file: &'a str,
    /// None before the first statement.
    boards: Option<Boards>,
    load: Option<Load>,
    /// How many loads were begun, and the line of the last.
    loads: usize,
    last_load: usize,
    /// The line of the load that took each name.
    names: HashMap<String, usize>,
    /// The line of `end`.
    end: Option<usize>,
}

/// Whether a file is read on.
enum Next {
    Line,
    /// After what stands behind `end`.
    End,
    /// Nothing more is said of it.
    Abandoned,
}

impl<'a, 'b> Reading<'a, 'b> {
    pub fn new(report: &'a mut Report<'b>, file: &'a str) -> Self {
        let names = HashMap::new();
        Reading { report, file, boards: None, load: None, loads: 0, last_load: 0, names, end: None }
    }

    pub fn whole(mut self, contents: &Contents) {
        for (line, words) in lines(&contents.text) {
            if words.as_ref().is_ok_and(|words| words.is_empty()) {
                continue;
            }
            match self.line(line, words) {
                Next::Line => {}
                Next::End => return self.no_load(),
                Next::Abandoned => return,
            }
        }
        match &contents.failure {
            Some(failure) => self.failed(failure),
            None => self.at_the_end(),
        }
    }

    fn line(&mut self, line: usize, words: Result<Words, Fault>) -> Next {
        if let Some(end) = self.end {
            self.report.fault(&format!("line {line}: after end (line {end}){REST_NOT_READ}"));
            return Next::End;
        }
        match (words, &self.boards) {
            (words, None) => self.first(line, words),
            (Err(fault), _) => self.wrong(line, fault.words().to_string()),
            (Ok(words), Some(Boards::Numbered)) => self.numbered(line, &words),
            (Ok(words), Some(_)) => self.named(line, &words),
        }
    }

    /// The first statement tells which form the file has.
    fn first(&mut self, line: usize, words: Result<Words, Fault>) -> Next {
        let words = words.map_err(|fault| fault.words().to_string());
        let boards = words.and_then(|words| match words[0] {
            "boards" => Boards::named(line, &words[1..]),
            "load" => {
                self.boards = Some(Boards::Numbered);
                self.note_numbers();
                self.begin(line, &words[1..]);
                Ok(Boards::Numbered)
            }
            other => Err(expected("boards or load first", Some(other))),
        });
        match boards {
            Ok(boards) => {
                self.boards = Some(boards);
                Next::Line
            }
            Err(words) => {
                self.report.fault(&format!("line {line}: {words}{NOT_READ}"));
                Next::Abandoned
            }
        }
    }

    fn note_numbers(&mut self) {
        let name = if self.file == "-" { "standard input".to_string() } else { printable(self.file) };
        let note = format!("rig: {name}: no boards line, so boards are numbered by their rows\n");
        self.report.notes += &note;
    }

    fn numbered(&mut self, line: usize, words: &[&str]) -> Next {
        let load = self.load.as_mut().expect("the first statement begins a load");
        let result = match words[0] {
            "load" => {
                self.finish(false);
                self.begin(line, &words[1..]);
                return Next::Line;
            }
            "board" => load.board(line, &words[1..], &Boards::Numbered),
            "ack" => load.acknowledges(line, &words[1..]),
            "boards" => Err("boards must stand before the first load".to_string()),
            other => Err(expected("load, board or ack", Some(other))),
        };
        result.map_or_else(|words| self.wrong(line, words), |()| Next::Line)
    }

    fn named(&mut self, line: usize, words: &[&str]) -> Next {
        let boards = self.boards.as_ref().expect("the first statement names boards");
        let result = match (words[0], &mut self.load) {
            ("load", _) => return self.next_load(line, &words[1..]),
            ("end", _) => return self.end(line, &words[1..]),
            ("boards", _) => Err(format!("a second boards line, the first is line {}", boards.line())),
            ("board", Some(load)) => load.board(line, &words[1..], boards),
            ("ack", Some(load)) => load.acknowledges(line, &words[1..]),
            ("expect", Some(load)) => load.expect(line, &words[1..], boards),
            (other, Some(_)) => Err(expected("load, board, ack, expect or end", Some(other))),
            (other, None) => Err(expected("load or end", Some(other))),
        };
        result.map_or_else(|words| self.wrong(line, words), |()| Next::Line)
    }

    /// A line that is wrong costs its load; outside a load it is a fault.
    fn wrong(&mut self, line: usize, words: String) -> Next {
        match &mut self.load {
            Some(load) => {
                load.in_error = true;
                let said = format!("! line {line}: load {}: {words}", load.name);
                self.report.line(said);
            }
            None => self.report.fault(&format!("line {line}: {words}")),
        }
        Next::Line
    }

    fn next_load(&mut self, line: usize, words: &[&str]) -> Next {
        self.finish(false);
        if self.loads == LOADS {
            self.report.fault(&format!("line {line}: more than {LOADS} loads{REST_NOT_READ}"));
            return Next::Abandoned;
        }
        self.begin(line, words);
        Next::Line
    }

    fn begin(&mut self, line: usize, words: &[&str]) {
        self.loads += 1;
        self.last_load = line;
        let named = self.boards.as_ref().is_some_and(Boards::are_named);
        let (load, mut wrong) = Load::begin(line, words, named);
        if named && Load::is_named_by(words) {
            let taken = *self.names.entry(load.name.clone()).or_insert(line);
            if taken != line {
                wrong = wrong.or(Some(format!("this name was taken on line {taken}")));
            }
        }
        self.load = Some(load);
        if let Some(words) = wrong {
            self.wrong(line, words);
        }
    }

    fn end(&mut self, line: usize, words: &[&str]) -> Next {
        self.finish(false);
        self.end = Some(line);
        match said_by_end(words) {
            Ok(number) if number == self.loads as u64 => Next::Line,
            Ok(number) => self.wrong(line, self.wrong_count(number)),
            Err(words) => self.wrong(line, words),
        }
    }

    fn wrong_count(&self, number: u64) -> String {
        let last =
            if self.loads > 0 { format!(", the last from line {}", self.last_load) } else { String::new() };
        format!("end says {number}, and the file has {}{last}", counted(self.loads, "load"))
    }

    /// The load that is open ends here, and is shown; answers whether it was said that `end` is missing.
    fn finish(&mut self, end_of_file: bool) -> bool {
        let (Some(mut load), Some(boards)) = (self.load.take(), &self.boards) else { return false };
        if !load.in_error {
            for number in load.missing(boards) {
                load.in_error = true;
                let words =
                    format!("no line for board {} (boards: line {})", boards.called(number), boards.line());
                self.report.line(format!("! line {}: load {}: {words}", load.line, load.name));
            }
        }
        let cut_short = end_of_file && !load.in_error;
        if cut_short {
            load.in_error = true;
            let words = "the file ends without an end line; this load may be cut short";
            self.report.line(format!("! load {}: {words}", load.name));
        }
        for words in self.report.corrections.lay_over(&mut load, boards) {
            self.report.line(format!("! {words}"));
        }
        self.report.show(&load, boards);
        cut_short
    }

    fn at_the_end(&mut self) {
        let end_is_missing = self.end.is_none() && self.boards.as_ref().is_some_and(Boards::are_named);
        let said = self.finish(end_is_missing);
        if end_is_missing && !said {
            self.report.fault("the file ends without an end line");
        }
        self.no_load();
    }

    fn no_load(&mut self) {
        if self.loads == 0 {
            self.report.fault("no load in the file");
        }
    }

    /// The file could not be opened or read; the load that is open is lost.
    fn failed(&mut self, failure: &str) {
        self.report.fault(failure);
        if let Some(load) = &mut self.load {
            load.in_error = true;
        }
        self.finish(false);
    }
}

/// The number after `end`.
pub fn said_by_end(words: &[&str]) -> Result<u64, String> {
    const FORM: &str = "end N, the number of loads";
    match words {
        [] => Err(expected(FORM, None)),
        [word] => decimal(word).ok_or_else(|| expected(FORM, Some(word))),
        [word, extra, ..] => Err(expected(FORM, Some(if decimal(word).is_some() { extra } else { word }))),
    }
}

impl Report<'_> {
    /// Rehearses a load, prints what is shown of it, and counts it; where one load is asked for, only that one, but
    /// every load in error is counted.
    fn show(&mut self, load: &Load, boards: &Boards) {
        let result = Rehearsed::of(load, self.options);
        let is_asked_for = self.options.only.as_ref().is_none_or(|name| load.name == *name);
        if is_asked_for {
            self.output += &self.shown(load, boards, &result);
        }
        if is_asked_for || load.in_error {
            self.tally.count(load, &result);
        }
    }

    /// A picture, a row, the levels or a block.
    fn shown(&self, load: &Load, boards: &Boards, result: &Rehearsed) -> String {
        let options = self.options;
        match options.command {
            Command::Draw => draw::picture(load, boards, result, options),
            _ if options.table => table::row(load, boards, result),
            _ if options.only.is_some() => block::trace(result),
            _ => block::block(load, boards, result, options),
        }
    }
}
