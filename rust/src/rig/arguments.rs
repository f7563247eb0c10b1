//! The command line, read from left to right: the first thing that is wrong is the error.

use super::text::{decimal, quoted};
use crate::phases::Mode;

/// The longest argument.
const ARGUMENT_BYTES: usize = 4096;

const NO_COMMAND: &str =
    "expected a command: clash, decode, draw, dump, encode, match, night, session or sort";
const NO_FILE: &str = "expected a file, or - for standard input";
const INPUT_TWICE: &str = "- stands twice: standard input is read once";
const NO_NUMBER: &str = "expected a number after --room";
const NO_CORRECTIONS: &str = "expected a file after --corrections";
const LONG_ARGUMENT: &str = "an argument is longer than 4096 bytes";
const ONE_MODE: &str = "--standard does not go with --fast";
const THIN_ALONE: &str = "--thin goes with neither --standard nor --fast";
const NO_TRACE: &str = "expected a load after --trace";
const TRACE_ALONE: &str = "--trace goes with none of --table, --registers and --wave";
const NO_LOAD: &str = "expected a load after the file";
const TABLE_ALONE: &str = "--table goes with neither --registers nor --wave";

#[derive(Clone, Copy, PartialEq, Eq, Debug)]
pub enum Command {
    Clash,
    Decode,
    Draw,
    Dump,
    Encode,
    Match,
    Night,
    Session,
    Sort,
}

/// What is to be run, on what, and how it is shown.
#[derive(Clone, PartialEq, Eq, Debug)]
pub struct Options {
    pub command: Command,
    /// `-` is standard input; all but clash and night have one, that of match is standard input.
    pub files: Vec<String>,
    pub table: bool,
    pub registers: bool,
    pub wave: bool,
    pub standard: bool,
    pub fast: bool,
    /// Samples that change no level are dropped before the rest is counted.
    pub thin: bool,
    pub room: Option<u64>,
    /// The file of tonight's corrections; `-` is standard input.
    pub corrections: Option<String>,
    /// The name of the one load that is shown: its levels in clash, a picture in draw.
    pub only: Option<String>,
    /// The picture is an SVG document.
    pub svg: bool,
    /// `-` stands among the words.
    reads_input: bool,
}

impl Command {
    fn from_word(word: &str) -> Option<Command> {
        let commands = [
            Command::Clash,
            Command::Decode,
            Command::Draw,
            Command::Dump,
            Command::Encode,
            Command::Match,
            Command::Night,
            Command::Session,
            Command::Sort,
        ];
        commands.into_iter().find(|command| command.word() == word)
    }

    fn word(self) -> &'static str {
        match self {
            Command::Clash => "clash",
            Command::Decode => "decode",
            Command::Draw => "draw",
            Command::Dump => "dump",
            Command::Encode => "encode",
            Command::Match => "match",
            Command::Night => "night",
            Command::Session => "session",
            Command::Sort => "sort",
        }
    }

    /// Reads files of loads, with corrections over them.
    pub fn reads_loads(self) -> bool {
        matches!(self, Command::Clash | Command::Draw | Command::Night)
    }
}

impl Options {
    pub fn new(command: Command) -> Options {
        let files = Vec::new();
        let (table, registers, wave) = (false, false, false);
        let (standard, fast, thin) = (false, false, false);
        let (room, corrections, only, svg, reads_input) = (None, None, None, false, false);
        Options {
            command,
            files,
            table,
            registers,
            wave,
            standard,
            fast,
            thin,
            room,
            corrections,
            only,
            svg,
            reads_input,
        }
    }

    /// The room lent: the lesser of `most` and what `--room` says.
    pub fn room(&self, most: usize) -> usize {
        self.room.map_or(most, |room| room.min(most as u64) as usize)
    }

    /// The mode in which a record is read.
    pub fn mode(&self) -> Mode {
        match (self.standard, self.fast) {
            (true, _) => Mode::Standard,
            (_, true) => Mode::Fast,
            _ => Mode::Unchecked,
        }
    }

    /// Standard input is read once.
    fn file(&mut self, word: &str) -> Result<String, String> {
        if word == "-" && std::mem::replace(&mut self.reads_input, true) {
            return Err(INPUT_TWICE.to_string());
        }
        Ok(word.to_string())
    }

    /// The word after the file of draw; there is no third.
    fn load(&mut self, word: &str) -> Result<(), String> {
        match self.only.replace(word.to_string()) {
            None => Ok(()),
            Some(_) => Err(format!("unexpected {} after the load", quoted(word))),
        }
    }

    /// One word after the command; `--room` and `--corrections` take the next one too.
    fn word<'a>(&mut self, word: &str, rest: &mut impl Iterator<Item = &'a String>) -> Result<(), String> {
        let clash = self.command == Command::Clash;
        match short(word)? {
            word if self.command == Command::Match => {
                return Err(format!("unexpected {} after match", quoted(word)));
            }
            "--table" if clash => self.table = true,
            "--registers" if clash => self.registers = true,
            "--wave" if clash => self.wave = true,
            "--standard" if self.command == Command::Decode => self.standard = true,
            "--fast" if self.command == Command::Decode => self.fast = true,
            "--thin" if self.command == Command::Decode => self.thin = true,
            "--room" if matches!(self.command, Command::Clash | Command::Decode | Command::Encode) => {
                self.room = Some(room(rest.next())?)
            }
            "--corrections" if self.command.reads_loads() => {
                let file = short(rest.next().ok_or(NO_CORRECTIONS)?)?;
                self.corrections = Some(self.file(file)?);
            }
            "--svg" if self.command == Command::Draw => self.svg = true,
            "--trace" if clash => self.only = Some(short(rest.next().ok_or(NO_TRACE)?)?.to_string()),
            word if word.starts_with("--") => {
                return Err(format!("unknown option {} for {}", quoted(word), self.command.word()));
            }
            word if self.command == Command::Draw && !self.files.is_empty() => self.load(word)?,
            "-" if self.reads_input => return Err(INPUT_TWICE.to_string()),
            word if !self.command.reads_loads() && !self.files.is_empty() => {
                return Err(format!("a second file {}: {} reads one", quoted(word), self.command.word()));
            }
            word => {
                let file = self.file(word)?;
                self.files.push(file);
            }
        }
        Ok(())
    }

    /// What is found when all words are read.
    fn finished(mut self) -> Result<Options, String> {
        if self.files.is_empty() {
            match self.command {
                Command::Encode | Command::Match | Command::Session => self.files.push("-".to_string()),
                _ => return Err(NO_FILE.to_string()),
            }
        }
        if self.table && (self.registers || self.wave) {
            return Err(TABLE_ALONE.to_string());
        }
        if self.only.is_some() && (self.table || self.registers || self.wave) {
            return Err(TRACE_ALONE.to_string());
        }
        if self.command == Command::Draw {
            self.only.as_ref().ok_or(NO_LOAD)?;
            self.wave = true;
        }
        if self.standard && self.fast {
            return Err(ONE_MODE.to_string());
        }
        if self.thin && (self.standard || self.fast) {
            return Err(THIN_ALONE.to_string());
        }
        Ok(self)
    }
}

/// The arguments after the program's name, or what is wrong with them.
pub fn parse(arguments: &[String]) -> Result<Options, String> {
    let mut rest = arguments.iter();
    let first = short(rest.next().ok_or(NO_COMMAND)?)?;
    let unknown = || {
        let commands = "clash, decode, draw, dump, encode, match, night, session or sort";
        format!("unknown command {}: expected {commands}", quoted(first))
    };
    let mut options = Options::new(Command::from_word(first).ok_or_else(unknown)?);
    while let Some(word) = rest.next() {
        options.word(word, &mut rest)?;
    }
    options.finished()
}

fn short(word: &str) -> Result<&str, String> {
    if word.chars().count() > ARGUMENT_BYTES {
        return Err(LONG_ARGUMENT.to_string());
    }
    Ok(word)
}

fn room(word: Option<&String>) -> Result<u64, String> {
    let word = short(word.ok_or(NO_NUMBER)?)?;
    decimal(word).ok_or_else(|| format!("{NO_NUMBER}, not {}", quoted(word)))
}
