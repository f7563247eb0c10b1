//! What is drawn: starting points, steps, registers and levels.

use super::{Module, Step};
use crate::module::SetUp;
use crate::packed::{pack, unpack, MODULE};
use crate::random::Random;

/// The set-up for which the values of a sequence are drawn.
#[derive(Clone, Copy, PartialEq)]
pub enum Aim {
    I2c,
    Spi,
    /// A set-up that fits I2C or SPI by the bit I2C alone, and goes from one to the other.
    Either,
}

/// Where a sequence begins: a module, and the writes that make a powered-up one fit.
pub struct Start {
    pub kind: String,
    pub aim: Aim,
    pub module: u64,
    pub opening: Vec<Step>,
}

/// Power-up, or a struct value that no step need reach: fitting, one bit off, or any 55 bits.
pub fn starting_point(random: &mut Random, powered: u64) -> Start {
    let (aim, name, bits): (_, _, &[u32]) = match random.below(7) {
        0..=2 => (Aim::I2c, "I2C", &[0, 4, 6, 7, 14, 15, 17, 30]),
        3..=5 => (Aim::Spi, "SPI", &[0, 5, 6, 7, 14]),
        _ => (Aim::Either, "I2C or SPI", &[0, 4, 5, 6, 7, 15, 17, 30]),
    };
    let mut fitting = unpack(random.bits());
    for (register, value) in fitting.registers.iter_mut().enumerate() {
        *value = fitting_value(random, aim, register);
    }
    let (kind, module) = match random.below(8) {
        0..=3 => (format!("power-up, writes to {name}"), powered),
        4..=5 => (format!("fits {name}, any hidden state"), pack(&fitting)),
        6 => (format!("one bit off {name}, any hidden state"), pack(&fitting) ^ 1 << random.pick(bits)),
        _ => ("any struct value".to_string(), random.bits() & MODULE),
    };
    let opening = if module == powered { opening(random, aim) } else { Vec::new() };
    Start { kind, aim, module, opening }
}

/// How many steps follow; in SPI now and then enough for sixteen bits.
pub fn length(random: &mut Random, aim: Aim) -> usize {
    if aim == Aim::Spi && random.once_in(8) {
        random.between(60, 100)
    } else {
        random.between(8, 40)
    }
}

/// Writes that make the set-up fit, in any order, by bytes or by words.
fn opening(random: &mut Random, aim: Aim) -> Vec<Step> {
    let values: Vec<u8> = (0..4).map(|register| fitting_value(random, aim, register)).collect();
    if random.once_in(4) {
        let word = |low: usize| u16::from_le_bytes([values[low], values[low + 1]]);
        return vec![Step::WriteWord(Module::USICKCTL, word(2)), Step::WriteWord(Module::USICTL0, word(0))];
    }
    let mut steps: Vec<Step> =
        (0..4).map(|index| Step::Write(Module::USICTL0 + index as u16, values[index])).collect();
    steps.rotate_left(random.below(4));
    steps
}

/// A value of the register with which the set-up can fit; small counts, so that they run out.
fn fitting_value(random: &mut Random, aim: Aim, register: usize) -> u8 {
    let (clear, set) = match (aim, register) {
        (Aim::I2c, 0) => (0x11, 0xC0),
        (Aim::I2c, 1) => (0x80, 0x40),
        (Aim::Spi, 0) => (0x01, 0xE0),
        (Aim::Spi, 1) => (0x40, 0x00),
        (Aim::Either, 0) => (0x11, 0xE0),
        (Aim::Either, 1) => (0x80, 0x00),
        (Aim::I2c | Aim::Either, 2) => (0x00, 0x02),
        (Aim::I2c | Aim::Either, 3) => (0x40, 0x00),
        _ => (0x00, 0x00),
    };
    let often = match register {
        0 if random.once_in(2) => 0x08,
        _ => 0x00,
    };
    let rarely = match register {
        2 if random.once_in(2) => 0xE0,
        3 if !random.once_in(4) => 0x1C,
        _ => 0x00,
    };
    random.byte() & !(clear | rarely) | set | often
}

/// A value to write: mostly one that fits, else one bit off, else any.
fn written_value(random: &mut Random, aim: Aim, register: usize) -> u8 {
    match random.below(16) {
        0 => random.byte(),
        1 => fitting_value(random, aim, register) ^ 1 << random.below(8),
        _ => fitting_value(random, aim, register),
    }
}

/// A step; at times one that changes the set-up by the bit I2C alone, that helps one that fits no more, or
/// that gives a new count in SPI.
pub fn step(random: &mut Random, aim: Aim, module: &Module) -> Step {
    if aim == Aim::Either && random.once_in(8) {
        return Step::Write(Module::USICTL1, module.registers[1] ^ 0x40);
    }
    if module.set_up() == SetUp::Neither && random.once_in(4) {
        let register = random.below(4);
        return Step::Write(Module::USICTL0 + register as u16, fitting_value(random, aim, register));
    }
    if module.set_up() == SetUp::Spi && module.count() == 0 && random.once_in(4) {
        return Step::Write(Module::USICNT, fitting_value(random, aim, 3));
    }
    match random.below(20) {
        0..=4 if module.set_up() != SetUp::Spi || random.once_in(2) => {
            let address = address(random);
            Step::Write(address, written_value(random, aim, usize::from(address.wrapping_sub(0x078))))
        }
        5 => {
            let address = address(random);
            let register = usize::from(address.wrapping_sub(0x078));
            let (low, high) =
                (written_value(random, aim, register), written_value(random, aim, register + 1));
            Step::WriteWord(address, u16::from_le_bytes([low, high]))
        }
        0..=12 => Step::Sample(level(random, module)),
        13..=17 => Step::Tick,
        18 => Step::Read(address(random)),
        _ => Step::ReadWord(address(random)),
    }
}

fn address(random: &mut Random) -> u16 {
    match random.below(16) {
        0 => random.bits() as u16,
        1 => random.pick(&[0x000, 0x076, 0x077, 0x07E, 0x07F, 0x178, 0xFFFE, 0xFFFF]),
        _ => random.between(0x078, 0x07D) as u16,
    }
}

/// Mostly one line changes, in SPI mostly SCLK with any SDI; sometimes both or none; sometimes any byte.
fn level(random: &mut Random, module: &Module) -> u8 {
    let last = u8::from(module.scl) + 2 * u8::from(module.sda);
    match random.below(16) {
        0 => random.byte(),
        1..=3 => random.byte() % 4,
        4..=13 if module.set_up() == SetUp::Spi => last & 1 ^ 1 | random.byte() & 2,
        4..=11 => last ^ 1,
        _ => last ^ 2,
    }
}
