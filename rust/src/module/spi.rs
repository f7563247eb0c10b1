//! SPI's rules (02, request 1): the fit, edges of SCLK, the register over width and direction, the outputs,
//! the clock and the two lines. START, STOP, AL, SCLREL and "caught" are I2C's: nothing here touches them.

use super::{Module, SetUp, CKPH, CKPL, GE, I2C, IFG, LSB, MST, OE, PE5, PE6, PE7, SIXTEEN_BIT, SWRST};

/// What a module does with a line that it may drive.
#[derive(Clone, Copy, PartialEq, Eq, Debug)]
pub enum Driven {
    Released,
    Low,
    High,
}

/// The two lines that a module drives in SPI.
#[derive(Clone, Copy, PartialEq, Eq, Debug)]
pub struct SpiLines {
    pub sclk: Driven,
    pub sdo: Driven,
}

impl Driven {
    /// At this level while it is driven.
    const fn at(level: bool, driven: bool) -> Driven {
        match (driven, level) {
            (false, _) => Driven::Released,
            (true, false) => Driven::Low,
            (true, true) => Driven::High,
        }
    }
}

impl Module {
    /// The set-up fits: I2C=0, SWRST=0, PE5=PE6=PE7=1.
    pub(super) const fn fits_spi(&self) -> bool {
        !self.is(I2C) && !self.is(SWRST) && self.is(PE5) && self.is(PE6) && self.is(PE7)
    }

    /// An edge of SCLK, with CNT>0. Leading: SCLK leaves the idle level, CKPL. CKPH=0: the outputs change on
    /// the leading edge, and a bit is captured on the trailing one; CKPH=1: the other way round.
    pub(super) fn compare_sclk(&mut self, sclk: bool, sdi: bool) {
        if sclk == self.scl || self.count() == 0 {
            return;
        }
        let leading = self.scl == self.is(CKPL);
        if leading == self.is(CKPH) {
            self.capture(sdi);
        } else if !self.is(GE) {
            self.latch_outgoing();
        }
    }

    /// One bit is shifted in; CNT falls by 1; at 0, IFG=1.
    fn capture(&mut self, sdi: bool) {
        self.shift_in(sdi);
        self.registers[3] -= 1;
        if self.count() == 0 {
            self.put(IFG, true);
        }
    }

    /// The register is USISRL, with 16B=1 USISRH and USISRL; SDI enters at the end that does not go out.
    fn shift_in(&mut self, sdi: bool) {
        let (low, high) = (self.registers[4], self.registers[5]);
        if self.is(SIXTEEN_BIT) {
            let both = u16::from_le_bytes([low, high]);
            let sdi = u16::from(sdi);
            let shifted = if self.is(LSB) { both >> 1 | sdi << 15 } else { both << 1 | sdi };
            [self.registers[4], self.registers[5]] = shifted.to_le_bytes();
        } else {
            let sdi = u8::from(sdi);
            self.registers[4] = if self.is(LSB) { low >> 1 | sdi << 7 } else { low << 1 | sdi };
        }
    }

    /// The bit that goes out next: the register's highest, with LSB=1 its lowest.
    const fn outgoing(&self) -> bool {
        if self.is(LSB) {
            self.registers[4] & 1 == 1
        } else if self.is(SIXTEEN_BIT) {
            self.registers[5] >> 7 == 1
        } else {
            self.registers[4] >> 7 == 1
        }
    }

    /// The latch takes the outgoing bit and the enable takes OE.
    fn latch_outgoing(&mut self) {
        self.latch = self.outgoing();
        self.enable = self.is(OE);
    }

    /// GE=1 makes latch and enable transparent. So does CKPH=1 with CNT>0 while SCLK is last seen idle: the
    /// first bit has to be out before the first edge.
    pub(super) fn follow_spi(&mut self) {
        let idle = self.seen && self.scl == self.is(CKPL);
        if self.is(GE) || self.is(CKPH) && self.count() > 0 && idle {
            self.latch_outgoing();
        }
    }

    /// The clock phase after a tick: the other one while the clock runs, and it waits for nothing; else idle.
    pub(super) const fn phase_after_tick(&self) -> bool {
        !self.clocking() || !self.phase
    }

    /// SCLK is driven with MST=1, in the idle phase at the idle level, else at its opposite; SDO while the
    /// enable is 1, at the latch. Neither is driven unless the set-up fits SPI.
    pub const fn spi_lines(&self) -> SpiLines {
        let fits = matches!(self.set_up(), SetUp::Spi);
        SpiLines {
            sclk: Driven::at(self.is(CKPL) == self.phase, fits && self.is(MST)),
            sdo: Driven::at(self.latch, fits && self.enable),
        }
    }
}
