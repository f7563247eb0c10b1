//! The case programs: a script of commands in, one answer for each command out.

use crate::module::{Driven, Module, SetUp};
use std::str::FromStr;

mod arbitration;
mod bus;
mod usi;

pub use arbitration::arbitration;
pub use bus::bus;
pub use usi::usi;

/// Answers a script line by line; a line that starts with `#` is copied.
fn answer_lines(
    script: &str,
    mut answer: impl FnMut(&[&str]) -> Result<String, String>,
) -> Result<String, String> {
    let mut output = String::new();
    for line in script.lines() {
        if line.starts_with('#') {
            output.push_str(line);
        } else {
            let words: Vec<&str> = line.split(' ').collect();
            output.push_str(&answer(&words).map_err(|problem| format!("{problem} in `{line}`"))?);
        }
        output.push('\n');
    }
    Ok(output)
}

fn decimal<Number: FromStr>(word: &str) -> Result<Number, String> {
    word.parse().map_err(|_| format!("no number `{word}`"))
}

fn decimals<Number: FromStr>(words: &[&str]) -> Result<Vec<Number>, String> {
    words.iter().map(|word| decimal(word)).collect()
}

fn hex(word: &str) -> Result<u16, String> {
    u16::from_str_radix(word, 16).map_err(|_| format!("no hex number `{word}`"))
}

fn hex_byte(word: &str) -> Result<u8, String> {
    u8::from_str_radix(word, 16).map_err(|_| format!("no hex byte `{word}`"))
}

/// A module whole, with the lines it pulls, or in SPI drives.
pub(crate) fn module_text(module: &Module) -> String {
    let registers = module.registers.map(|register| format!("{register:02X}")).join(" ");
    format!(
        "{registers} latch={} enable={} phase={} seen={} scl={} sda={} stretch={} {}",
        u8::from(module.latch),
        u8::from(module.enable),
        u8::from(module.phase),
        u8::from(module.seen),
        u8::from(module.scl),
        u8::from(module.sda),
        u8::from(module.stretch),
        lines_text(module),
    )
}

fn lines_text(module: &Module) -> String {
    let digit = |line: Driven| match line {
        Driven::Released => '-',
        Driven::Low => '0',
        Driven::High => '1',
    };
    if module.set_up() == SetUp::Spi {
        let lines = module.spi_lines();
        return format!("sclk={} sdo={}", digit(lines.sclk), digit(lines.sdo));
    }
    let lines = module.lines();
    format!("pull={}", u8::from(lines.scl) + 2 * u8::from(lines.sda))
}

/// The items, each after a space.
fn spaced<Item: ToString>(items: impl IntoIterator<Item = Item>) -> String {
    items.into_iter().map(|item| format!(" {}", item.to_string())).collect()
}
