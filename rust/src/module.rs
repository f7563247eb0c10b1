//! The USI module: six registers, the hidden state, and the steps write, sample and tick. What a sample, a
//! tick and the end of a step do depends on the set-up: I2C's rules (01) are in `i2c`, SPI's (02) in `spi`.

use crate::refusal::{Reason, Refusal};

mod i2c;
mod spi;

pub use i2c::Lines;
pub use spi::{Driven, SpiLines};

/// One bit of a register: the register's place after 078h and the bit's number.
#[derive(Clone, Copy)]
pub struct Flag(usize, u8);

pub const PE7: Flag = Flag(0, 7);
pub const PE6: Flag = Flag(0, 6);
pub const PE5: Flag = Flag(0, 5);
pub const LSB: Flag = Flag(0, 4);
pub const MST: Flag = Flag(0, 3);
pub const GE: Flag = Flag(0, 2);
pub const OE: Flag = Flag(0, 1);
pub const SWRST: Flag = Flag(0, 0);
pub const CKPH: Flag = Flag(1, 7);
pub const I2C: Flag = Flag(1, 6);
pub const AL: Flag = Flag(1, 3);
pub const STP: Flag = Flag(1, 2);
pub const STTIFG: Flag = Flag(1, 1);
pub const IFG: Flag = Flag(1, 0);
pub const CKPL: Flag = Flag(2, 1);
pub const SCLREL: Flag = Flag(3, 7);
pub const SIXTEEN_BIT: Flag = Flag(3, 6);
pub const IFGCC: Flag = Flag(3, 5);

/// The bits of CNT in USICNT.
const CNT: u8 = 0x1F;

/// A module whole: `registers` in order of address, the rest is 01's hidden state, which SPI shares.
#[derive(Clone, Copy, PartialEq, Eq, Debug)]
pub struct Module {
    pub registers: [u8; 6],
    /// Output latch.
    pub latch: bool,
    /// Latched enable.
    pub enable: bool,
    /// Clock half: true is the high one, in SPI the idle one.
    pub phase: bool,
    /// Levels are remembered; `scl` and `sda` are those last seen, in SPI SCLK and SDI.
    pub seen: bool,
    pub scl: bool,
    pub sda: bool,
    /// 01's "caught": this fall of SCL was someone else's.
    pub stretch: bool,
}

/// Which set-up the registers are.
#[derive(Clone, Copy, PartialEq, Eq, Debug)]
pub enum SetUp {
    I2c,
    Spi,
    Neither,
}

impl Module {
    pub const USICTL0: u16 = 0x078;
    pub const USICTL1: u16 = 0x079;
    pub const USICKCTL: u16 = 0x07A;
    pub const USICNT: u16 = 0x07B;
    pub const USISRL: u16 = 0x07C;
    pub const USISRH: u16 = 0x07D;

    /// The power-up values; the two shift bytes are kept.
    pub const fn power_up(usisrl: u8, usisrh: u8) -> Module {
        Module {
            registers: [0x01, 0x01, 0x00, 0x00, usisrl, usisrh],
            latch: true,
            enable: false,
            phase: true,
            seen: false,
            scl: false,
            sda: false,
            stretch: false,
        }
    }

    /// The value of one flag.
    pub const fn is(&self, flag: Flag) -> bool {
        self.registers[flag.0] >> flag.1 & 1 == 1
    }

    fn put(&mut self, flag: Flag, value: bool) {
        let bit = 1 << flag.1;
        if value {
            self.registers[flag.0] |= bit;
        } else {
            self.registers[flag.0] &= !bit;
        }
    }

    /// CNT, the low five bits of USICNT.
    pub const fn count(&self) -> u8 {
        self.registers[3] & CNT
    }

    /// I2C's set-up and SPI's never fit together: the bit I2C parts them.
    pub const fn set_up(&self) -> SetUp {
        if self.fits_i2c() {
            SetUp::I2c
        } else if self.fits_spi() {
            SetUp::Spi
        } else {
            SetUp::Neither
        }
    }

    /// Refusal 1: an address outside 078h to 07Dh.
    fn register(address: u16) -> Result<usize, Refusal> {
        match address {
            Self::USICTL0..=Self::USISRH => Ok(usize::from(address - Self::USICTL0)),
            _ => Err(Reason::Address.refusal()),
        }
    }

    /// Refusals 2, 1, in this order, of a word access.
    fn word_register(address: u16) -> Result<usize, Refusal> {
        if address % 2 == 1 {
            return Err(Reason::OddWordAddress.refusal());
        }
        Self::register(address)
    }

    /// A byte read; reading changes nothing.
    pub fn read(&self, address: u16) -> Result<u8, Refusal> {
        Ok(self.registers[Self::register(address)?])
    }

    /// A word read: low byte at the even address, high byte after it.
    pub fn read_word(&self, address: u16) -> Result<u16, Refusal> {
        let low = Self::word_register(address)?;
        Ok(u16::from_le_bytes([self.registers[low], self.registers[low + 1]]))
    }

    /// A byte write.
    pub fn write(self, address: u16, value: u8) -> Result<Module, Refusal> {
        let register = Self::register(address)?;
        let mut next = self;
        next.registers[register] = value;
        if address == Self::USICNT {
            next.count_written();
        }
        next.settle(self.set_up());
        Ok(next)
    }

    /// A word write is the low byte's write, then the high byte's.
    pub fn write_word(self, address: u16, value: u16) -> Result<Module, Refusal> {
        Self::word_register(address)?;
        let [low, high] = value.to_le_bytes();
        self.write(address, low)?.write(address + 1, high)
    }

    /// Which of AL, STP, STTIFG, IFG in USICTL1 were 1 before a write and are 0 after it (02, request 12).
    pub fn cleared_since(&self, before: &Module) -> u8 {
        let flags = |module: &Module| [AL, STP, STTIFG, IFG].map(|flag| module.is(flag));
        let both = flags(before).into_iter().zip(flags(self));
        both.fold(0, |bits, (was, is)| bits << 1 | u8::from(was && !is))
    }

    /// Write to USICNT: CNT above 0 with IFGCC=0 clears IFG and STP; CNT=0 sets IFG.
    fn count_written(&mut self) {
        if self.count() > 0 && !self.is(IFGCC) {
            self.put(IFG, false);
            self.put(STP, false);
        }
        if self.count() == 0 {
            self.put(IFG, true);
        }
    }

    /// The end of a write: the hidden state rests if the set-up was another before, and while neither fits.
    fn settle(&mut self, before: SetUp) {
        let now = self.set_up();
        if now != before || now == SetUp::Neither {
            self.rest();
        }
        self.follow();
    }

    /// The end of each step: by the set-up's own rule the outputs follow the register and OE.
    fn follow(&mut self) {
        match self.set_up() {
            SetUp::I2c => self.follow_i2c(),
            SetUp::Spi => self.follow_spi(),
            SetUp::Neither => {}
        }
    }

    /// The resting hidden state: latch 1, enable 0, half high (in SPI idle), no levels, not caught.
    fn rest(&mut self) {
        self.latch = true;
        self.enable = false;
        self.phase = true;
        self.seen = false;
        self.scl = false;
        self.sda = false;
        self.stretch = false;
    }

    /// One sample: level byte = SCL + 2·SDA, in SPI SCLK + 2·SDI. With no levels remembered it only records.
    /// Refusals 4, 3.
    pub fn sample(self, level: u8) -> Result<Module, Refusal> {
        if level > 3 {
            return Err(Reason::Level.refusal());
        }
        let (clock, data) = (level & 1 == 1, level & 2 == 2);
        let mut next = self;
        match self.set_up() {
            SetUp::Neither => return Err(Reason::SetUp.refusal()),
            SetUp::I2c if self.seen => next.compare_levels(clock, data),
            SetUp::Spi if self.seen => next.compare_sclk(clock, data),
            _ => {}
        }
        next.seen = true;
        next.scl = clock;
        next.sda = data;
        next.follow();
        Ok(next)
    }

    /// One tick of the clock half. Refusals 3, and in I2C 17.
    pub fn tick(self) -> Result<Module, Refusal> {
        let mut next = self;
        next.phase = match self.set_up() {
            SetUp::I2c => self.half_after_tick()?,
            SetUp::Spi => self.phase_after_tick(),
            SetUp::Neither => return Err(Reason::SetUp.refusal()),
        };
        next.follow();
        Ok(next)
    }

    /// The module's own clock runs: MST=1, IFG=0, CNT>0.
    const fn clocking(&self) -> bool {
        self.is(MST) && !self.is(IFG) && self.count() > 0
    }
}
