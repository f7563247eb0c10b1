//! The program `rig` once more, on the model: the same arguments and input give the same standard output.

use std::io::Read;

pub mod arguments;
mod clash;
mod decode;
pub mod differ;
mod dump;
mod encode;
mod files;
pub mod inputs;
pub mod matching;
mod refusals;
mod session;
mod sort;
mod text;

pub use decode::gaps;

use arguments::{Command, Options};
use text::{bytes_of, text_of};

/// What `rig` prints.
pub struct Answer {
    /// On standard output.
    pub output: Vec<u8>,
    /// On standard error, but for progress.
    pub notes: Vec<u8>,
}

/// All that `rig` with these arguments prints.
pub fn answer(arguments: &[Vec<u8>], input: &mut dyn Read) -> Answer {
    let arguments: Vec<String> = arguments.iter().map(|argument| text_of(argument)).collect();
    let (output, notes) = match arguments::parse(&arguments) {
        Ok(options) if options.command.reads_loads() => clash::clash(&options, input),
        Ok(options) => (one_file(&options, input), String::new()),
        Err(words) => (format!("error {words}\n"), String::new()),
    };
    Answer { output: bytes_of(&output), notes: bytes_of(&notes) }
}

/// A command that reads one file.
fn one_file(options: &Options, input: &mut dyn Read) -> String {
    let contents = files::read(&options.files[0], input);
    match options.command {
        Command::Decode => decode::decode(&contents, options),
        Command::Dump => dump::dumped(&contents),
        Command::Encode => encode::encode(&contents, options),
        Command::Match => matching::matched(&contents),
        Command::Sort => sort::sorted(&contents),
        _ => session::session(&contents),
    }
}

/// First words by which a file of loads is known where another is read.
const WORDS_OF_LOADS: [&str; 4] = ["boards", "load", "board", "ack"];
const LOOKS_LIKE_LOADS: &str = "; this looks like a file of loads: did you mean rig clash?";
