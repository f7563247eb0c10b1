//! Random step sequences of the module in I2C and in SPI: the whole module, its lines of both kinds and the
//! refusal after every step.

use super::{equal, Counts, Difference};
use crate::module::Module;
use crate::packed::{unpack, Interface, Model, MODULE};
use crate::random::Random;

mod draws;
mod kinds;

/// One call on a module.
#[derive(Clone, Copy, Debug)]
enum Step {
    Write(u16, u8),
    WriteWord(u16, u16),
    Sample(u8),
    Tick,
    Read(u16),
    ReadWord(u16),
}

/// One sequence from a random starting point.
pub fn case(other: &dyn Interface, random: &mut Random, counts: &mut Counts) -> Result<(), Difference> {
    let (usisrl, usisrh) = (random.byte(), random.byte());
    let powered = Model.power_up(usisrl, usisrh);
    let inputs = || format!("power-up {usisrl:02X} {usisrh:02X}");
    equal(&powered, &other.power_up(usisrl, usisrh), inputs, module_words)?;
    let start = draws::starting_point(random, powered);
    counts.add(format!("start: {}", start.kind));
    let mut module = start.module;
    for step in start.opening {
        module = compare_step(other, module, step, counts)?;
    }
    for _ in 0..draws::length(random, start.aim) {
        let step = draws::step(random, start.aim, &unpack(module));
        let ignored = if random.once_in(4) { random.bits() & !MODULE } else { 0 };
        module = compare_step(other, module | ignored, step, counts)?;
    }
    Ok(())
}

/// Asks both sides for one step and for the lines after it; gives the next module.
fn compare_step(
    other: &dyn Interface,
    module: u64,
    step: Step,
    counts: &mut Counts,
) -> Result<u64, Difference> {
    let inputs = || format!("{} then {step:X?}", module_words(&module));
    let answer = perform(&Model, module, step);
    equal(&answer, &perform(other, module, step), inputs, answer_words)?;
    let (next, refusal) = match answer {
        Answer::Module(next) => (next, next >> 55 & 31),
        Answer::Value(value) => (module & MODULE, u64::from(value >> 16)),
    };
    kinds::count(counts, step, &unpack(module), &unpack(next), refusal);
    let after = || format!("lines of {}, which is {} answered", module_words(&next), inputs());
    equal(&Model.lines(next), &other.lines(next), after, |lines| format!("lines {lines}"))?;
    equal(&Model.spi_lines(next), &other.spi_lines(next), after, |lines| format!("SPI lines {lines:X}"))?;
    Ok(next & MODULE)
}

/// What a step answers: a module with a refusal number, or a value with one.
#[derive(PartialEq)]
enum Answer {
    Module(u64),
    Value(u32),
}

fn perform(side: &dyn Interface, module: u64, step: Step) -> Answer {
    match step {
        Step::Write(address, value) => Answer::Module(side.write(module, address, value)),
        Step::WriteWord(address, value) => Answer::Module(side.write_word(module, address, value)),
        Step::Sample(level) => Answer::Module(side.sample(module, level)),
        Step::Tick => Answer::Module(side.tick(module)),
        Step::Read(address) => Answer::Value(side.read(module, address)),
        Step::ReadWord(address) => Answer::Value(side.read_word(module, address)),
    }
}

fn module_words(module: &u64) -> String {
    format!("{module:016X} = {:X?}", unpack(*module))
}

fn answer_words(answer: &Answer) -> String {
    match answer {
        Answer::Module(module) => {
            format!("{}, refused {}, cleared {:X}", module_words(module), module >> 55 & 31, module >> 60)
        }
        Answer::Value(value) => format!("value {:04X}, refused {}", value & 0xFFFF, value >> 16),
    }
}
