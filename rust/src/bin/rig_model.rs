//! `rig_model`: takes the arguments of `rig` and prints what `rig` must print, by the model.

use rehearsal_model::rig::answer;
use std::fs::File;
use std::io::{stderr, stdin, stdout, Read, Write};
use std::os::fd::AsFd;
use std::os::unix::ffi::OsStringExt;
use std::process::ExitCode;

/// Standard input itself: the library's own takes one that cannot be read for an empty one.
struct StandardInput;

impl Read for StandardInput {
    fn read(&mut self, bytes: &mut [u8]) -> std::io::Result<usize> {
        File::from(stdin().as_fd().try_clone_to_owned()?).read(bytes)
    }
}

fn main() -> ExitCode {
    let arguments: Vec<Vec<u8>> = std::env::args_os().skip(1).map(|argument| argument.into_vec()).collect();
    let answer = answer(&arguments, &mut StandardInput);
    let written = stderr().write_all(&answer.notes).and_then(|()| stdout().write_all(&answer.output));
    match written {
        Ok(()) => ExitCode::SUCCESS,
        Err(_) => ExitCode::FAILURE,
    }
}
