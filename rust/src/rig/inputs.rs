//! Pseudo-random inputs for `rig`: a kind and a seed give the same file and the same arguments everywhere.
//!
//! Input `i` of seed `s` is input 0 of seed `s + i`, so that any one is drawn again by its seed.

use crate::random::Random;

mod arguments;
mod clash;
mod damage;
mod decode;
mod dump;
mod encode;
mod matching;
mod page;
mod session;
mod sort;
mod tonight;

/// A kind of input: the command it is for, and how its file is drawn.
#[derive(Clone, Copy)]
pub struct Kind {
    pub word: &'static str,
    command: &'static str,
    text: fn(&mut Random) -> Vec<u8>,
}

/// Well-formed files, one in four of them damaged; random bytes for each command; and command lines.
pub const KINDS: [Kind; 14] = [
    Kind { word: "clash", command: "clash", text: |random| damage::some(random, clash::text) },
    Kind { word: "decode", command: "decode", text: |random| damage::some(random, decode::text) },
    Kind { word: "draw", command: "draw", text: |random| damage::some(random, clash::text) },
    Kind { word: "dump", command: "dump", text: |random| damage::some(random, decode::lines) },
    Kind { word: "encode", command: "encode", text: |random| damage::some(random, encode::text) },
    Kind { word: "match", command: "match", text: matching::some },
    Kind { word: "night", command: "night", text: |random| damage::some(random, clash::night) },
    Kind { word: "session", command: "session", text: |random| damage::some(random, session::text) },
    Kind { word: "sort", command: "sort", text: |random| damage::some(random, sort::text) },
    Kind { word: "clash-bytes", command: "clash", text: damage::bytes },
    Kind { word: "decode-bytes", command: "decode", text: damage::bytes },
    Kind { word: "encode-bytes", command: "encode", text: damage::bytes },
    Kind { word: "session-bytes", command: "session", text: damage::bytes },
    Kind { word: "arguments", command: "", text: arguments::text },
];

/// How the input reaches the program.
#[derive(Clone, Copy, PartialEq, Eq, Debug)]
pub enum Source {
    /// By its name.
    File,
    /// The file is standard input.
    Standard,
    /// Standard input is a pipe, filled in pieces of this many bytes.
    Pipe(usize),
}

/// One run of the program.
pub struct Case {
    pub arguments: Vec<Vec<u8>>,
    pub input: Vec<u8>,
    pub source: Source,
    /// A second file, of corrections, which the arguments may name.
    pub tonight: Vec<u8>,
}

impl Case {
    /// Whether an argument is this name, or begins with it.
    pub fn names(&self, file: &[u8]) -> bool {
        self.arguments.iter().any(|argument| argument.starts_with(file))
    }
}

impl Kind {
    pub fn named(word: &str) -> Option<Kind> {
        KINDS.into_iter().find(|kind| kind.word == word)
    }

    /// The case of this seed; `file` and `tonight` are the names under which the program finds the two files.
    pub fn draw(&self, seed: u64, file: &[u8], tonight: &[u8]) -> Case {
        let salt = self.word.bytes().fold(0, |salt: u64, byte| salt.wrapping_mul(257) + u64::from(byte));
        let mut random = Random::new(Random::new(seed).bits() ^ salt);
        let input = (self.text)(&mut random);
        let source = match (draw_source(&mut random), self.command) {
            (Source::File, "match") => Source::Standard,
            (source, _) => source,
        };
        let mut arguments = match self.command {
            "match" => vec![b"match".to_vec()],
            "" => arguments::any(&mut random, file, tonight),
            "draw" => arguments::draw(&mut random, source, file, &input),
            command => arguments::proper(&mut random, command, source, file),
        };
        let corrected = ["clash", "draw", "night"].contains(&self.command) && random.once_in(3);
        if corrected {
            arguments::correct(&mut random, &mut arguments, file, tonight);
        }
        let tonight = if corrected { tonight::some(&mut random, &input) } else { b"end 0\n".to_vec() };
        Case { arguments, input, source, tonight }
    }
}

fn draw_source(random: &mut Random) -> Source {
    match random.below(8) {
        0..=4 => Source::File,
        5..=6 => Source::Standard,
        _ => Source::Pipe(random.pick(&[1, 7, 100, 4095, 4096, 4097, 65_536])),
    }
}
