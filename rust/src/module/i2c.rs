//! I2C's rules (01): the fit, START and STOP, lost arbitration, shifting, the clock half, and the two lines.

use super::{Module, AL, CKPH, CKPL, GE, I2C, IFG, LSB, MST, OE, PE6, PE7, SCLREL, SIXTEEN_BIT};
use super::{STP, STTIFG, SWRST};
use crate::refusal::{Reason, Refusal};

/// Which lines a module pulls low.
#[derive(Clone, Copy, PartialEq, Eq, Debug)]
pub struct Lines {
    pub scl: bool,
    pub sda: bool,
}

impl Module {
    /// The set-up fits: I2C=1, CKPL=1, CKPH=0, LSB=0, 16B=0, PE6=PE7=1, SWRST=0.
    pub(super) const fn fits_i2c(&self) -> bool {
        self.is(I2C)
            && self.is(CKPL)
            && !self.is(CKPH)
            && !self.is(LSB)
            && !self.is(SIXTEEN_BIT)
            && self.is(PE6)
            && self.is(PE7)
            && !self.is(SWRST)
    }

    const fn top_bit(&self) -> bool {
        self.registers[4] >> 7 == 1
    }

    /// GE=1 makes latch and enable transparent.
    pub(super) fn follow_i2c(&mut self) {
        if self.is(GE) {
            self.latch_output();
        }
    }

    /// The latch takes bit 7 of USISRL and the enable takes OE.
    fn latch_output(&mut self) {
        self.latch = self.top_bit();
        self.enable = self.is(OE);
    }

    /// What a sample means against the levels remembered.
    pub(super) fn compare_levels(&mut self, scl: bool, sda: bool) {
        match (self.scl, scl) {
            (true, true) => self.condition(sda),
            (false, true) => self.scl_rises(sda),
            (true, false) => self.scl_falls(),
            (false, false) => {}
        }
        if scl {
            self.stretch = false;
        }
    }

    /// SCL high before and now: SDA's fall is START, so STTIFG=1 and SCLREL=0; its rise is STOP, so STP=1.
    fn condition(&mut self, sda: bool) {
        if self.sda && !sda {
            self.put(STTIFG, true);
            self.put(SCLREL, false);
        }
        if !self.sda && sda {
            self.put(STP, true);
        }
    }

    /// SCL rises, CNT>0: compare for lost arbitration, then shift SDA in and count; at 0, IFG=1.
    fn scl_rises(&mut self, sda: bool) {
        if self.count() == 0 {
            return;
        }
        if self.is(MST) && self.enable && self.latch != sda {
            self.put(AL, true);
            self.put(OE, false);
            self.enable = false;
        }
        self.registers[4] = self.registers[4] << 1 | u8::from(sda);
        self.registers[3] -= 1;
        if self.count() == 0 {
            self.put(IFG, true);
        }
    }

    /// SCL falls: with CNT>0 and GE=0 the output is latched; with the half high, "caught" becomes true.
    fn scl_falls(&mut self) {
        if self.count() > 0 && !self.is(GE) {
            self.latch_output();
        }
        if self.phase {
            self.stretch = true;
        }
    }

    /// The clock half after a tick: the low one becomes high, the high one low only with SCL seen high; high
    /// while the clock does not run. Refusal 17.
    pub(super) fn half_after_tick(&self) -> Result<bool, Refusal> {
        let clocking = self.clocking();
        let scl_seen_high = self.seen && self.scl;
        let scl_seen_low = self.seen && !self.scl;
        if clocking && self.phase && scl_seen_low && self.divider() == 0 {
            return Err(Reason::NoWaiting.refusal());
        }
        Ok(!(clocking && self.phase && scl_seen_high))
    }

    /// DIV, bits 7 to 5 of USICKCTL: the clock is divided by 2 to this power.
    const fn divider(&self) -> u8 {
        self.registers[2] >> 5
    }

    /// The lines pulled low; both are released unless the set-up fits I2C.
    pub const fn lines(&self) -> Lines {
        let fits = self.fits_i2c();
        Lines { scl: fits && (self.clocks_low() || self.holds()), sda: fits && self.enable && !self.latch }
    }

    /// SCL is low in the low half of the module's own clock.
    const fn clocks_low(&self) -> bool {
        self.is(MST) && !self.is(IFG) && !self.phase
    }

    /// SCL is held low when caught, SCLREL=0 and (IFG=1 or STTIFG=1 or CNT=0).
    const fn holds(&self) -> bool {
        self.stretch && !self.is(SCLREL) && (self.is(IFG) || self.is(STTIFG) || self.count() == 0)
    }
}
