//! A file being written line by line: tidy, or with the blanks, comments and spellings that the rules allow.

use crate::arbitration::Message;
use crate::random::Random;

pub struct Page<'a> {
    pub random: &'a mut Random,
    text: Vec<u8>,
    tidy: bool,
    line_end: &'static str,
}

impl Page<'_> {
    pub fn new(random: &mut Random) -> Page<'_> {
        let tidy = !random.once_in(3);
        let line_end = if random.once_in(12) { "\r\n" } else { "\n" };
        Page { random, text: Vec::new(), tidy, line_end }
    }

    /// The file; its last line may lack the newline.
    pub fn finish(mut self) -> Vec<u8> {
        if self.random.once_in(8) && !self.tidy {
            self.text.pop();
        }
        self.text
    }

    /// Lines that are there already.
    pub fn copy(&mut self, lines: &[u8]) {
        self.text.extend(lines);
    }

    pub fn line<Word: AsRef<str>>(&mut self, words: &[Word]) {
        let untidy = !self.tidy && self.random.once_in(3);
        if untidy && self.random.once_in(3) {
            self.put_pick(&["", " ", "\t \r", "# a comment", "  #", "#ok refused error"]);
            self.put(self.line_end);
        }
        if untidy {
            self.put_pick(&["", " ", "  ", "\t"]);
        }
        for (index, word) in words.iter().enumerate() {
            if index > 0 {
                self.put_pick(if untidy { &[" ", "  ", "\t", " \t ", "\r"] } else { &[" "] });
            }
            self.put(word.as_ref());
        }
        if untidy {
            self.put_pick(&["", " ", "\t", " # a comment", "#x", "\r", " ###", "# \u{e9}\u{20ac}"]);
        }
        self.put(self.line_end);
    }

    /// One of the lines of a list, in which `; ` stands between two.
    pub fn one_of(&mut self, list: &str) {
        let lines: Vec<&str> = list.split("; ").collect();
        let line = self.random.pick(&lines);
        self.line(&line.split(' ').collect::<Vec<_>>());
    }

    fn put(&mut self, text: &str) {
        self.text.extend(text.as_bytes());
    }

    fn put_pick(&mut self, texts: &[&str]) {
        let text = self.random.pick(texts);
        self.text.extend(text.as_bytes());
    }

    /// A byte in two digits, or untidily.
    pub fn hex(&mut self, byte: u8) -> String {
        match if self.tidy { 3 } else { self.random.below(6) } {
            0 => format!("{byte:x}"),
            1 => format!("{byte:X}"),
            2 => format!("{byte:02x}"),
            _ => format!("{byte:02X}"),
        }
    }

    /// A byte in two digits, in either case.
    pub fn two_digits(&mut self, byte: u8) -> String {
        if !self.tidy && self.random.once_in(4) {
            format!("{byte:02x}")
        } else {
            format!("{byte:02X}")
        }
    }

    /// The words of a message, each byte as `byte` writes it, with `/` between two parts.
    pub fn message(&mut self, message: &Message, byte: fn(&mut Self, u8) -> String) -> Vec<String> {
        let mut words = Vec::new();
        for (index, part) in message.parts.iter().enumerate() {
            if index > 0 {
                words.push("/".to_string());
            }
            words.extend(part.iter().map(|&one| byte(self, one)));
        }
        words
    }

    /// A number, now and then with zeros before it.
    pub fn decimal(&mut self, number: u64) -> String {
        match if self.tidy { 3 } else { self.random.below(20) } {
            0 => format!("{number:012}"),
            1 => format!("0{number}"),
            _ => number.to_string(),
        }
    }
}
