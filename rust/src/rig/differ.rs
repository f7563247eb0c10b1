//! The program `rig` against the mirror: the same inputs, the standard outputs byte for byte.

use super::inputs::{Case, Kind, Source};
use crate::compare::Counts;
use std::ffi::OsStr;
use std::fs::{self, File};
use std::io::{self, Read, Write};
use std::os::unix::ffi::OsStrExt;
use std::path::{Path, PathBuf};
use std::process::{Child, ChildStdin, Command, ExitStatus, Stdio};
use std::sync::mpsc::channel;
use std::thread;
use std::time::Duration;

/// How long one run may take.
const PATIENCE: Duration = Duration::from_secs(20);

/// The program, and the folder in which each input is written; one for each thread.
pub struct Differ {
    program: PathBuf,
    folder: PathBuf,
    /// The exit status is 0 to 3 by the last line; otherwise it is always 0.
    status_by_last_line: bool,
}

/// What the program did.
struct Ran {
    output: Vec<u8>,
    status: ExitStatus,
}

/// A run that is not as it must be; the folder holds its input and both outputs.
pub struct Difference {
    pub problem: String,
    pub arguments: String,
    pub source: Source,
    pub folder: PathBuf,
}

impl Differ {
    /// Number `number` of this process.
    pub fn new(program: &str, status_by_last_line: bool, number: usize) -> io::Result<Differ> {
        let program = fs::canonicalize(program)?;
        let folder = std::env::temp_dir().join(format!("rig_differ.{}.{number}", std::process::id()));
        fs::create_dir_all(&folder)?;
        Ok(Differ { program, folder, status_by_last_line })
    }

    /// The folder and all in it, once it is of no use.
    pub fn remove_folder(&self) -> io::Result<()> {
        fs::remove_dir_all(&self.folder)
    }

    /// One case of a kind; counts how it ended.
    pub fn compare(&self, kind: &Kind, seed: u64, counts: &mut Counts) -> Result<(), Difference> {
        let file = self.folder.join("input");
        let tonight = self.folder.join("tonight");
        let case = kind.draw(seed, file.as_os_str().as_bytes(), tonight.as_os_str().as_bytes());
        if case.source == Source::Standard || case.names(file.as_os_str().as_bytes()) {
            self.keep("input", &case.input);
        }
        if case.names(tonight.as_os_str().as_bytes()) {
            self.keep("tonight", &case.tonight);
        }
        let standard = if case.source == Source::File { &[][..] } else { &case.input[..] };
        let expected = super::answer(&case.arguments, &mut &standard[..]).output;
        counts.add(format!("{}: {}", kind.word, ending(&expected)));
        let problem = match self.run(&case, &file) {
            Ok(ran) => match self.problem(&expected, &ran) {
                None => return Ok(()),
                Some(problem) => {
                    self.keep("output", &ran.output);
                    problem
                }
            },
            Err(problem) => problem,
        };
        self.keep("input", &case.input);
        self.keep("tonight", &case.tonight);
        self.keep("expected", &expected);
        Err(Difference {
            problem,
            arguments: argument_text(&case.arguments),
            source: case.source,
            folder: self.folder.clone(),
        })
    }

    fn keep(&self, name: &str, bytes: &[u8]) {
        write_anew(&self.folder.join(name), bytes).expect("the folder takes the inputs and outputs");
    }

    /// Runs the program to its end.
    fn run(&self, case: &Case, file: &Path) -> Result<Ran, String> {
        let words = |problem: io::Error| format!("the program cannot be run: {problem}");
        let mut child = self.spawn(case, file).map_err(words)?;
        if let Some(pipe) = child.stdin.take() {
            fill(pipe, case);
        }
        let mut stdout = child.stdout.take().expect("standard output is a pipe");
        let (sender, receiver) = channel();
        thread::spawn(move || {
            let mut output = Vec::new();
            let read = stdout.read_to_end(&mut output).map(|_| output);
            sender.send(read)
        });
        let output = receiver.recv_timeout(PATIENCE);
        if output.is_err() {
            child.kill().map_err(words)?;
        }
        let status = child.wait().map_err(words)?;
        let output = output.map_err(|_| format!("no end after {} s", PATIENCE.as_secs()))?;
        Ok(Ran { output: output.map_err(words)?, status })
    }

    fn spawn(&self, case: &Case, file: &Path) -> io::Result<Child> {
        let input = match case.source {
            Source::File => Stdio::null(),
            Source::Standard => File::open(file)?.into(),
            Source::Pipe(_) => Stdio::piped(),
        };
        Command::new(self.program_for(case))
            .args(case.arguments.iter().map(|argument| OsStr::from_bytes(argument)))
            .stdin(input)
            .stdout(Stdio::piped())
            .stderr(create_anew(&self.folder.join("errors"))?)
            .spawn()
    }

    /// The program of a command: `rig_clash` beside `rig` is that of clash, draw and night, `rig_match` that of match.
    fn program_for(&self, case: &Case) -> PathBuf {
        let name = match case.arguments.first().map(|word| &word[..]) {
            Some(b"clash" | b"draw" | b"night") => "rig_clash",
            Some(b"match") => "rig_match",
            _ => return self.program.clone(),
        };
        let own = self.program.with_file_name(name);
        if own.exists() {
            own
        } else {
            self.program.clone()
        }
    }

    /// What is wrong with a run, if anything is.
    fn problem(&self, expected: &[u8], ran: &Ran) -> Option<String> {
        let Some(verdict) = verdict(&ran.output) else {
            return Some(format!("the last line is none of ok, look, refused, error; {}", ran.status));
        };
        let code = if self.status_by_last_line { verdict } else { 0 };
        if ran.status.code() != Some(code) {
            return Some(format!("{} where {code} is right", ran.status));
        }
        (ran.output != expected).then(|| first_difference(expected, &ran.output))
    }
}

/// A new file in the place of the old one: one that is cut to nothing and filled again is put on the disk at once.
fn create_anew(path: &Path) -> io::Result<File> {
    match fs::remove_file(path) {
        Err(problem) if problem.kind() != io::ErrorKind::NotFound => Err(problem),
        _ => File::create(path),
    }
}

pub fn write_anew(path: &Path, bytes: &[u8]) -> io::Result<()> {
    create_anew(path)?.write_all(bytes)
}

/// Fills the pipe in pieces; a program that reads no more is no fault.
fn fill(mut pipe: ChildStdin, case: &Case) {
    let Source::Pipe(size) = case.source else { return };
    let input = case.input.clone();
    let size = size.max(input.len() / 1000);
    thread::spawn(move || input.chunks(size).try_for_each(|piece| pipe.write_all(piece)));
}

/// The last line, without its newline.
fn last_line(output: &[u8]) -> &[u8] {
    let whole = output.strip_suffix(b"\n").unwrap_or(output);
    whole.split(|&byte| byte == b'\n').next_back().unwrap_or(whole)
}

/// 0, 1, 2, 3 for a last line that begins with `ok`, `refused N`, `error` or `look` and ends in a newline.
pub fn verdict(output: &[u8]) -> Option<i32> {
    let line = last_line(output);
    let mut words = line.split(|&byte| byte == b' ');
    match words.next() {
        _ if !output.ends_with(b"\n") => None,
        Some(b"ok") => Some(0),
        Some(b"refused") => words.next()?.first().filter(|byte| byte.is_ascii_digit()).map(|_| 1),
        Some(b"error") => Some(2),
        Some(b"look") => Some(3),
        _ => None,
    }
}

/// How an output ends, in a word or two, to count by.
fn ending(output: &[u8]) -> String {
    let line = String::from_utf8_lossy(last_line(output)).into_owned();
    let words: Vec<&str> = line.split([' ', ':']).collect();
    match words[..] {
        ["refused", number, ..] => format!("refused {number}"),
        [word, ..] => word.to_string(),
        [] => String::new(),
    }
}

/// The first line in which two outputs differ.
fn first_difference(expected: &[u8], output: &[u8]) -> String {
    let text = |line: Option<&[u8]>| match line {
        Some(line) => format!("`{}`", line.escape_ascii()),
        None => "nothing".to_string(),
    };
    let mut pairs =
        (expected.split_inclusive(|&byte| byte == b'\n'), output.split_inclusive(|&byte| byte == b'\n'));
    for number in 1.. {
        let (right, wrong) = (pairs.0.next(), pairs.1.next());
        if right != wrong || right.is_none() {
            return format!(
                "line {number} of the output\n  model:   {}\n  program: {}",
                text(right),
                text(wrong)
            );
        }
    }
    String::new()
}

/// The arguments as a shell would take them, near enough.
pub fn argument_text(arguments: &[Vec<u8>]) -> String {
    let word = |argument: &Vec<u8>| match argument.escape_ascii().to_string() {
        plain if !plain.is_empty() && !plain.contains([' ', '\\', '\'']) => plain,
        other => format!("$'{other}'"),
    };
    arguments.iter().map(word).collect::<Vec<_>>().join(" ")
}
