//! Files by their names, and what can be wrong with one.

use super::text::{bytes_of, printable, text_of};
use std::ffi::OsStr;
use std::fs::File;
use std::io::{self, Read};
use std::os::unix::ffi::OsStrExt;
use std::path::Path;

/// What a file gave: all its text, or the whole lines before it failed and why it did.
pub struct Contents {
    pub text: String,
    /// `cannot open FILE: REASON`.
    pub failure: Option<String>,
}

/// The whole of a file; `-` is standard input.
pub fn read(file: &str, input: &mut dyn Read) -> Contents {
    if file == "-" {
        return read_from(input, "standard input");
    }
    let name = bytes_of(file);
    match File::open(Path::new(OsStr::from_bytes(&name))) {
        Ok(mut opened) => read_from(&mut opened, file),
        Err(problem) => Contents { text: String::new(), failure: Some(failure("open", file, &problem)) },
    }
}

fn read_from(input: &mut dyn Read, name: &str) -> Contents {
    let mut bytes = Vec::new();
    let result = input.read_to_end(&mut bytes);
    if result.is_err() {
        bytes.truncate(bytes.iter().rposition(|&byte| byte == b'\n').map_or(0, |newline| newline + 1));
    }
    Contents { text: text_of(&bytes), failure: result.err().map(|problem| failure("read", name, &problem)) }
}

fn failure(doing: &str, file: &str, problem: &io::Error) -> String {
    let reason = match problem.raw_os_error() {
        Some(2) => "no such file".to_string(),
        Some(9) => "it is not open".to_string(),
        Some(13) => "permission denied".to_string(),
        Some(21) => "it is a directory".to_string(),
        Some(36) => "the name is too long".to_string(),
        number => format!("error number {}", number.unwrap_or(0)),
    };
    format!("cannot {doing} {}: {reason}", printable(file))
}
