//! `rig session`: one module, one answer to each line, and a count at the end.

use super::files::Contents;
use super::refusals;
use super::text::{counted, hexadecimal, lines, quoted, Words};
use crate::cases::module_text;
use crate::module::{Driven, Module, SetUp};
use crate::refusal::Refusal;

const REGISTERS: [&str; 6] = ["USICTL0", "USICTL1", "USICKCTL", "USICNT", "USISRL", "USISRH"];
const HELP: &str =
    "power [LL HH], read AAA, write AAA VV, readw AAA, writew AAA VVVV, sample L, tick, lines, help";

/// What a command gives: the text after `ok`, a refusal, or `None` if it is not understood.
type Reply = Option<Result<String, Refusal>>;

/// The module, and what was counted so far.
struct Session {
    module: Module,
    commands: usize,
    /// Line numbers of the commands not understood.
    errors: Vec<usize>,
    /// Refusals with their line numbers.
    refused: Vec<(Refusal, usize)>,
}

pub fn session(contents: &Contents) -> String {
    let mut session =
        Session { module: Module::power_up(0, 0), commands: 0, errors: Vec::new(), refused: Vec::new() };
    let mut output = String::new();
    for (line, words) in lines(&contents.text) {
        output += &match words {
            Ok(words) if words.is_empty() => "ok".to_string(),
            Ok(words) => session.answer(line, &words),
            Err(fault) => session.error(line, fault.words()),
        };
        output.push('\n');
    }
    let last =
        contents.failure.as_ref().map_or_else(|| session.summary(), |failure| format!("error {failure}"));
    output + &last + "\n"
}

impl Session {
    fn error(&mut self, line: usize, words: &str) -> String {
        self.commands += 1;
        self.errors.push(line);
        format!("error {words}")
    }

    fn answer(&mut self, line: usize, words: &Words) -> String {
        let Some(expected) = expected(words[0]) else {
            return self.error(line, &format!("unknown command {}; try help", quoted(words[0])));
        };
        match self.command(words) {
            Some(Ok(reply)) => {
                self.commands += 1;
                format!("ok {reply}")
            }
            Some(Err(refusal)) => {
                self.commands += 1;
                self.refused.push((refusal, line));
                refusals::plain(refusal)
            }
            None => self.error(line, &format!("expected {expected}")),
        }
    }

    fn command(&mut self, words: &Words) -> Reply {
        let module = self.module;
        match words[..] {
            ["power"] => self.step(Ok(Module::power_up(0, 0))),
            ["power", low, high] => self.step(Ok(Module::power_up(byte(low)?, byte(high)?))),
            ["write", at, value] => self.write(module.write(address(at)?, byte(value)?)),
            ["writew", at, value] => self.write(module.write_word(address(at)?, word(value)?)),
            ["sample", level] => self.step(module.sample(byte(level)?)),
            ["tick"] => self.step(module.tick()),
            ["read", at] => Some(module.read(address(at)?).map(|value| format!("{value:02X}"))),
            ["readw", at] => Some(module.read_word(address(at)?).map(|value| format!("{value:04X}"))),
            ["lines"] => Some(Ok(lines_text(&module))),
            ["help"] => Some(Ok(HELP.to_string())),
            _ => None,
        }
    }

    /// The module after a step; a refused one leaves it as it was.
    fn step(&mut self, next: Result<Module, Refusal>) -> Reply {
        Some(next.map(|next| {
            self.module = next;
            module_text(&next)
        }))
    }

    /// The same of a write, with the flags that it cleared.
    fn write(&mut self, next: Result<Module, Refusal>) -> Reply {
        let before = self.module;
        let text = self.step(next)?;
        Some(text.map(|text| format!("{text} cleared={:02X}", self.module.cleared_since(&before))))
    }

    fn summary(&self) -> String {
        let all = self.commands;
        if let Some(line) = self.errors.first() {
            let errors = self.errors.len();
            return format!("error {errors} of {all} commands not understood, the first on line {line}");
        }
        match self.refused.first() {
            Some((refusal, line)) => {
                let (number, refused) = (refusal.number(), self.refused.len());
                format!("refused {number}: {refused} of {all} commands refused, the first on line {line}")
            }
            None => format!("ok {}", counted(all, "command")),
        }
    }
}

/// The form of each command.
fn expected(command: &str) -> Option<&'static str> {
    Some(match command {
        "power" => "power or power LL HH",
        "read" => "read AAA",
        "write" => "write AAA VV",
        "readw" => "readw AAA",
        "writew" => "writew AAA VVVV",
        "sample" => "sample L",
        "tick" => "tick",
        "lines" => "lines",
        "help" => "help",
        _ => return None,
    })
}

/// The lines pulled low, or in SPI those driven.
fn lines_text(module: &Module) -> String {
    if module.set_up() == SetUp::Spi {
        let lines = module.spi_lines();
        return format!("sclk={} sdo={}", driven(lines.sclk), driven(lines.sdo));
    }
    let state = |low: bool| if low { "low" } else { "released" };
    let lines = module.lines();
    format!("scl={} sda={}", state(lines.scl), state(lines.sda))
}

fn driven(line: Driven) -> &'static str {
    match line {
        Driven::Released => "released",
        Driven::Low => "low",
        Driven::High => "high",
    }
}

fn byte(word: &str) -> Option<u8> {
    u8::try_from(hexadecimal(word)?).ok()
}

fn word(word: &str) -> Option<u16> {
    u16::try_from(hexadecimal(word)?).ok()
}

/// A register's name in any case, or its number.
fn address(word_or_name: &str) -> Option<u16> {
    let named = |name: &&str| name.eq_ignore_ascii_case(word_or_name);
    match REGISTERS.iter().position(named) {
        Some(register) => Some(Module::USICTL0 + register as u16),
        None => word(word_or_name),
    }
}
