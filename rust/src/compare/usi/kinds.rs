//! What is counted of a step, so that one sees how often each kind of it occurs.

use super::{Module, Step};
use crate::compare::Counts;
use crate::module::{Driven, SetUp, CKPH, CKPL, LSB, SIXTEEN_BIT};

/// One step: its call, its refusal, and what it did.
pub fn count(counts: &mut Counts, step: Step, before: &Module, after: &Module, refusal: u64) {
    counts.add(call(step));
    if refusal > 0 {
        counts.add(format!("refused {refusal}"));
    }
    let (was, is) = (before.set_up(), after.set_up());
    if was != is {
        counts.add(format!("set-up: {} to {}", word(was), word(is)));
    } else if is == SetUp::Spi {
        within_spi(counts, step, before, after);
    }
    let lines = after.spi_lines();
    if lines.sclk != Driven::Released {
        counts.add("SPI: SCLK driven");
    }
    if lines.sdo != Driven::Released {
        counts.add("SPI: SDO driven");
    }
}

fn call(step: Step) -> &'static str {
    match step {
        Step::Write(..) => "step: write",
        Step::WriteWord(..) => "step: word write",
        Step::Sample(_) => "step: sample",
        Step::Tick => "step: tick",
        Step::Read(_) => "step: read",
        Step::ReadWord(_) => "step: word read",
    }
}

fn word(set_up: SetUp) -> &'static str {
    match set_up {
        SetUp::I2c => "I2C",
        SetUp::Spi => "SPI",
        SetUp::Neither => "neither",
    }
}

/// A step in SPI that keeps the set-up.
fn within_spi(counts: &mut Counts, step: Step, before: &Module, after: &Module) {
    let flag = |flag| u8::from(before.is(flag));
    let anew = [CKPH, CKPL, LSB, SIXTEEN_BIT].iter().any(|&flag| before.is(flag) != after.is(flag));
    match step {
        Step::Write(..) | Step::WriteWord(..) if anew => {
            counts.add("SPI: CKPH, CKPL, LSB or 16B written anew");
        }
        Step::Sample(_) if after.count() < before.count() => {
            let (ckph, ckpl, lsb, wide) = (flag(CKPH), flag(CKPL), flag(LSB), flag(SIXTEEN_BIT));
            counts.add(format!("SPI: captured, CKPH={ckph} CKPL={ckpl} LSB={lsb} 16B={wide}"));
            if after.count() == 0 {
                counts.add("SPI: captured the last bit");
            }
        }
        Step::Sample(_) if before.seen && before.scl != after.scl => {
            counts.add(if before.count() > 0 { "SPI: change edge" } else { "SPI: edge with CNT=0" });
        }
        Step::Tick if before.phase != after.phase => counts.add("SPI: phase changed"),
        _ => {}
    }
}
