//! The C functions of the proved library as a trait, and the model behind the same functions.
//!
//! A module is one number: six registers from bit 0 up, the hidden state in bits 48 to 54; a step's answer has
//! the refusal number in bits 55 to 59, a write's also the flags that it cleared in bits 60 to 63.

use crate::arbitration::{messages, outcome, runner, Message, Request, Run};
use crate::bus::{self, Decoded};
use crate::catalogue::{self, Catalogue, Part};
use crate::dump;
use crate::dump_reader;
use crate::module::{Driven, Module};
use crate::night;
use crate::phases::{self, Mode};
use crate::refusal::{Reason, Refusal};

/// The bits of a packed module.
pub const MODULE: u64 = (1 << 55) - 1;

/// What `arbitrate` is asked.
#[derive(Clone, Debug)]
pub struct Asked {
    pub bytes: Vec<u8>,
    /// The length of every part, message after message.
    pub parts: Vec<u32>,
    /// How many parts each message has.
    pub counts: Vec<u32>,
    pub acks: Vec<u8>,
}

impl Asked {
    pub fn new(messages: &[Message], acks: Vec<u8>) -> Asked {
        let parts = messages.iter().flat_map(|message| &message.parts);
        Asked {
            bytes: messages.iter().flat_map(Message::bytes).collect(),
            parts: parts.map(|part| part.len() as u32).collect(),
            counts: messages.iter().map(|message| message.parts.len() as u32).collect(),
            acks,
        }
    }

    /// The request, or which of 12, 13, 14 and 15 applies.
    pub fn request(&self) -> Result<Request, Refusal> {
        Request::new(&self.bytes, &self.parts, &self.counts, &self.acks)
    }
}

/// What a caller of `arbitrate` has to lend: `modules` and `seats` with an entry for each message, or more.
#[derive(Clone, PartialEq, Eq, Debug)]
pub struct Buffers {
    pub carried: Vec<u8>,
    pub levels: Vec<u8>,
    /// The table: packed modules.
    pub modules: Vec<u64>,
    /// Of each master: 1 while it contends, from bit 1 the flags that its writes cleared, from bit 5 its position.
    pub seats: Vec<u32>,
}

/// The same, lent.
pub struct Lent<'a> {
    pub carried: &'a mut [u8],
    pub levels: &'a mut [u8],
    pub modules: &'a mut [u64],
    pub seats: &'a mut [u32],
}

impl Buffers {
    pub fn lend(&mut self) -> Lent<'_> {
        Lent {
            carried: &mut self.carried,
            levels: &mut self.levels,
            modules: &mut self.modules,
            seats: &mut self.seats,
        }
    }
}

/// Where a board's message lies: 1 for a correction, its offset in the block and its length; all 0 at a refusal.
#[derive(Clone, PartialEq, Eq, Debug)]
pub struct Place {
    pub number: u8,
    pub corrected: u8,
    pub offset: u64,
    pub length: u32,
}

/// The C functions; each implementation is one side of a comparison.
pub trait Interface {
    fn power_up(&self, usisrl: u8, usisrh: u8) -> u64;
    fn write(&self, module: u64, address: u16, value: u8) -> u64;
    fn write_word(&self, module: u64, address: u16, value: u16) -> u64;
    fn sample(&self, module: u64, level: u8) -> u64;
    fn tick(&self, module: u64) -> u64;
    fn read(&self, module: u64, address: u16) -> u32;
    fn read_word(&self, module: u64, address: u16) -> u32;
    fn lines(&self, module: u64) -> u8;
    fn spi_lines(&self, module: u64) -> u8;
    fn decode(&self, stamps: &[u32], levels: &[u8], events: &mut [u16]) -> u64;
    fn decode_in(&self, mode: Mode, stamps: &[u32], levels: &[u8], events: &mut [u16]) -> u64;
    fn encode(&self, events: &[u16], start: u32, gap: u32, stamps: &mut [u32], levels: &mut [u8]) -> u64;
    fn dump(&self, stamps: &[u32], levels: &[u8], out: &mut [u8]) -> u64;
    fn dump_piece(&self, stamps: &[u32], levels: &[u8], from: usize, out: &mut [u8]) -> usize;
    fn read_dump(&self, text: &[u8], stamps: &mut [u32], levels: &mut [u8]) -> u64;
    fn dump_timescale(&self, text: &[u8]) -> u64;
    fn arbitrate(&self, asked: &Asked, lent: Lent) -> u64;
    /// The index of the least message, and how many comparisons found it; both 0 where 12 or 13 applies.
    fn least(&self, asked: &Asked) -> (u64, u64);
    /// A night: the round of each message, and the packed module as that round left it.
    fn night(&self, asked: &Asked, rounds: &mut [u32], modules: &mut [u64]) -> u64;
    /// The answers of the four functions of a catalogue.
    fn place(&self, board: u32, corrections: &Catalogue, standing: &Catalogue) -> Place;
}

/// The model of this crate.
pub struct Model;

pub fn pack(module: &Module) -> u64 {
    let [ctl0, ctl1, ckctl, cnt, srl, srh] = module.registers;
    let hidden =
        [module.latch, module.enable, module.phase, module.seen, module.scl, module.sda, module.stretch];
    let hidden = hidden.iter().rev().fold(0, |bits, &bit| bits << 1 | u8::from(bit));
    u64::from_le_bytes([ctl0, ctl1, ckctl, cnt, srl, srh, hidden, 0])
}

/// Bits 55 to 63 are ignored.
pub fn unpack(packed: u64) -> Module {
    let [ctl0, ctl1, ckctl, cnt, srl, srh, hidden, _] = packed.to_le_bytes();
    let bit = |place: u8| hidden >> place & 1 == 1;
    Module {
        registers: [ctl0, ctl1, ckctl, cnt, srl, srh],
        latch: bit(0),
        enable: bit(1),
        phase: bit(2),
        seen: bit(3),
        scl: bit(4),
        sda: bit(5),
        stretch: bit(6),
    }
}

/// The next module, or the same one with the refusal number.
fn step(packed: u64, step: impl Fn(Module) -> Result<Module, Refusal>) -> u64 {
    match step(unpack(packed)) {
        Ok(next) => pack(&next),
        Err(refusal) => packed & MODULE | u64::from(refusal.number()) << 55,
    }
}

/// The same of a write, with the flags that it cleared.
fn written(packed: u64, write: impl Fn(Module) -> Result<Module, Refusal>) -> u64 {
    let before = unpack(packed);
    let cleared = write(before).map_or(0, |after| after.cleared_since(&before));
    step(packed, write) | u64::from(cleared) << 60
}

/// A line of SPI in two bits: 0 released, 2 driven low, 3 driven high.
fn driven(line: Driven) -> u8 {
    match line {
        Driven::Released => 0,
        Driven::Low => 2,
        Driven::High => 3,
    }
}

/// A value read, or the refusal number times 65536.
fn value(read: Result<u16, Refusal>) -> u32 {
    read.map_or_else(|refusal| u32::from(refusal.number()) << 16, u32::from)
}

/// The reader's reply as a number.
pub fn read(reply: Result<Decoded, Refusal>) -> u64 {
    match reply {
        Ok(decoded) => {
            (decoded.count as u64) << 24
                | u64::from(decoded.open) << 40
                | u64::from(decoded.pending) << 48
                | u64::from(decoded.value) << 56
        }
        Err(refusal) => refused(refusal),
    }
}

/// A refused reply: number and place.
fn refused(refusal: Refusal) -> u64 {
    u64::from(refusal.number()) | (refusal.place as u64) << 8
}

impl Interface for Model {
    fn power_up(&self, usisrl: u8, usisrh: u8) -> u64 {
        pack(&Module::power_up(usisrl, usisrh))
    }

    fn write(&self, module: u64, address: u16, value: u8) -> u64 {
        written(module, |module| module.write(address, value))
    }

    fn write_word(&self, module: u64, address: u16, value: u16) -> u64 {
        written(module, |module| module.write_word(address, value))
    }

    fn sample(&self, module: u64, level: u8) -> u64 {
        step(module, |module| module.sample(level))
    }

    fn tick(&self, module: u64) -> u64 {
        step(module, Module::tick)
    }

    fn read(&self, module: u64, address: u16) -> u32 {
        value(unpack(module).read(address).map(u16::from))
    }

    fn read_word(&self, module: u64, address: u16) -> u32 {
        value(unpack(module).read_word(address))
    }

    fn lines(&self, module: u64) -> u8 {
        let lines = unpack(module).lines();
        u8::from(lines.scl) + 2 * u8::from(lines.sda)
    }

    fn spi_lines(&self, module: u64) -> u8 {
        let lines = unpack(module).spi_lines();
        driven(lines.sclk) + 4 * driven(lines.sdo)
    }

    fn decode(&self, stamps: &[u32], levels: &[u8], events: &mut [u16]) -> u64 {
        read(bus::decode(stamps, levels, events))
    }

    fn decode_in(&self, mode: Mode, stamps: &[u32], levels: &[u8], events: &mut [u16]) -> u64 {
        read(phases::decode_in(mode, stamps, levels, events))
    }

    fn encode(&self, events: &[u16], start: u32, gap: u32, stamps: &mut [u32], levels: &mut [u8]) -> u64 {
        bus::encode(events, start, gap, stamps, levels).map_or_else(refused, |count| (count as u64) << 8)
    }

    fn dump(&self, stamps: &[u32], levels: &[u8], out: &mut [u8]) -> u64 {
        dump::dump(stamps, levels, out).map_or_else(refused, |count| (count as u64) << 24)
    }

    fn dump_piece(&self, stamps: &[u32], levels: &[u8], from: usize, out: &mut [u8]) -> usize {
        dump::piece(stamps, levels, from, out)
    }

    fn read_dump(&self, text: &[u8], stamps: &mut [u32], levels: &mut [u8]) -> u64 {
        dump_reader::read(text, stamps, levels).map_or_else(refused, |(count, _)| (count as u64) << 24)
    }

    fn dump_timescale(&self, text: &[u8]) -> u64 {
        let (mut stamps, mut levels) = ([0; bus::SAMPLES], [0; bus::SAMPLES]);
        dump_reader::read(text, &mut stamps, &mut levels).map_or(0, |(_, timescale)| timescale)
    }

    fn arbitrate(&self, asked: &Asked, lent: Lent) -> u64 {
        let (run, modules) = match asked.request().and_then(|request| runner::run(&request)) {
            Ok(done) => done,
            Err(refusal) => return refused(refusal),
        };
        if !has_room(&run, modules.len(), &lent) {
            return refused(Reason::ShortBuffer.refusal());
        }
        fill(&run, &modules, lent);
        (run.outcome.carried.len() as u64) << 24
    }

    fn least(&self, asked: &Asked) -> (u64, u64) {
        match messages(&asked.bytes, &asked.parts, &asked.counts) {
            Ok(messages) => {
                let (index, comparisons) = outcome::least(&messages);
                (index as u64, comparisons as u64)
            }
            Err(_) => (0, 0),
        }
    }

    fn night(&self, asked: &Asked, rounds: &mut [u32], modules: &mut [u64]) -> u64 {
        let Asked { bytes, parts, counts, acks } = asked;
        let mut table: Vec<Module> = modules.iter().map(|&module| unpack(module)).collect();
        match night::night(bytes, parts, counts, acks, rounds, &mut table) {
            Ok(count) => {
                let stepped = modules.iter_mut().zip(&table).take(counts.len());
                stepped.for_each(|(module, stepped)| *module = pack(stepped));
                (count as u64) << 24
            }
            Err(refusal) => refused(refusal),
        }
    }

    fn place(&self, board: u32, corrections: &Catalogue, standing: &Catalogue) -> Place {
        match catalogue::find(board, corrections, standing) {
            Ok(Part { corrected, bytes }) => Place {
                number: 0,
                corrected: u8::from(corrected),
                offset: bytes.start as u64,
                length: bytes.len() as u32,
            },
            Err(refusal) => Place { number: refusal.number(), corrected: 0, offset: 0, length: 0 },
        }
    }
}

/// Every lent slice is as long as the reply needs: the tables have an entry for each master.
fn has_room(run: &Run, masters: usize, lent: &Lent) -> bool {
    lent.carried.len() >= run.outcome.carried.len()
        && lent.levels.len() >= run.outcome.levels.len()
        && lent.modules.len() >= masters
        && lent.seats.len() >= masters
}

/// The reply in the lent slices, whose rest stays.
fn fill(run: &Run, modules: &[Module], lent: Lent) {
    let outcome = &run.outcome;
    lent.carried[..outcome.carried.len()].copy_from_slice(&outcome.carried);
    lent.levels[..outcome.levels.len()].copy_from_slice(&outcome.levels);
    for (master, module) in modules.iter().enumerate() {
        lent.modules[master] = pack(module);
        lent.seats[master] = 32 * u32::from(outcome.positions[master])
            + 2 * u32::from(run.cleared[master])
            + u32::from(outcome.remaining[master]);
    }
}
