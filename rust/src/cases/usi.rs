//! Scripts of writes, samples, ticks and reads of one module.

use super::{answer_lines, hex, hex_byte, module_text};
use crate::module::Module;
use crate::refusal::Refusal;

/// Answers a script of the module.
pub fn usi(script: &str) -> Result<String, String> {
    let mut module = Module::power_up(0, 0);
    answer_lines(script, |words| command(&mut module, words))
}

fn command(module: &mut Module, words: &[&str]) -> Result<String, String> {
    match words {
        ["power", low, high] => Ok(step(module, Ok(Module::power_up(hex_byte(low)?, hex_byte(high)?)))),
        ["write", address, value] => Ok(write(module, module.write(hex(address)?, hex_byte(value)?))),
        ["writew", address, value] => Ok(write(module, module.write_word(hex(address)?, hex(value)?))),
        ["sample", level] => Ok(step(module, module.sample(hex_byte(level)?))),
        ["tick"] => Ok(step(module, module.tick())),
        ["read", address] => Ok(value(module.read(hex(address)?).map(|value| format!("{value:02X}")))),
        ["readw", address] => Ok(value(module.read_word(hex(address)?).map(|value| format!("{value:04X}")))),
        _ => Err("no such command".to_string()),
    }
}

/// The module after a step; a refused one leaves it as it was.
fn step(module: &mut Module, next: Result<Module, Refusal>) -> String {
    match next {
        Ok(next) => {
            *module = next;
            module_text(module)
        }
        Err(refusal) => format!("{} refused {}", module_text(module), refusal.number()),
    }
}

/// The same of a write, with the flags that it cleared.
fn write(module: &mut Module, next: Result<Module, Refusal>) -> String {
    let before = *module;
    let text = step(module, next);
    format!("{text} cleared={:02X}", module.cleared_since(&before))
}

fn value(read: Result<String, Refusal>) -> String {
    match read {
        Ok(value) => format!("= {value}"),
        Err(refusal) => format!("refused {}", refusal.number()),
    }
}
