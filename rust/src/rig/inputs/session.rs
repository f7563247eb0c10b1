//! Files for `rig session`.

use super::page::Page;
use crate::random::Random;

/// Up to 60 commands, in SPI some of them a few periods of SCLK, mostly after a set-up that fits.
pub fn text(random: &mut Random) -> Vec<u8> {
    let mut page = Page::new(random);
    if page.random.once_in(3) {
        page.line(&["power", "5A", "0"]);
    }
    let spi = page.random.once_in(2);
    match page.random.once_in(5) {
        true => {}
        false if spi => set_up_spi(&mut page),
        false => {
            for (register, value) in [("USICKCTL", "22"), ("79", "41"), ("USICTL0", "C8")] {
                page.line(&["write", register, value]);
            }
        }
    }
    let spoiling = page.random.pick(&[5, 30, 100_000]);
    let only_refused = page.random.once_in(2);
    for _ in 0..page.random.below(60) {
        match page.random.once_in(spoiling) {
            true if only_refused => refused_line(&mut page),
            true => spoilt_line(&mut page),
            false if spi && page.random.once_in(3) => periods(&mut page),
            false => command(&mut page, spi),
        }
    }
    page.finish()
}

/// A set-up that fits SPI, of any phase, polarity, direction and width, with a count.
fn set_up_spi(page: &mut Page) {
    let writes = [
        ("usickctl", page.random.pick(&[0x00, 0x02, 0x20, 0x22])),
        ("USICTL1", page.random.pick(&[0x00, 0x80])),
        ("78", page.random.pick(&[0xE2, 0xEA, 0xF2, 0xFA, 0xE6, 0xEE])),
        ("USICNT", page.random.pick(&[0x08, 0x08, 0x50, 0x45, 0x03])),
    ];
    for (register, value) in writes {
        let value = page.hex(value);
        page.line(&["write", register, &value]);
    }
}

/// Up to eight periods of SCLK, now and then SDI alone, each level after a tick or without one.
fn periods(page: &mut Page) {
    let ticks = page.random.once_in(2);
    for _ in 0..page.random.between(1, 8) {
        let levels = page.random.pick(&[["0", "1"], ["2", "3"], ["0", "3"], ["2", "1"], ["1", "3"]]);
        for level in levels {
            if ticks {
                page.line(&["tick"]);
            }
            page.line(&["sample", level]);
        }
        if page.random.once_in(4) {
            page.line(&["lines"]);
        }
    }
}

fn command(page: &mut Page, spi: bool) {
    match page.random.below(24) {
        0..=7 => {
            let level = page.random.pick(&["0", "1", "2", "3", "1", "3", "03", "0000"]);
            page.line(&["sample", level]);
        }
        8..=12 => page.line(&["tick"]),
        13..=18 if spi => write_spi(page),
        13..=18 => write(page),
        19 => page.line(&["lines"]),
        20..=21 => {
            let register = register(page.random);
            page.line(&["read", &register]);
        }
        22 => {
            let register = page.random.pick(&["78", "07A", "0000000000000000000000000000007c", "usictl0"]);
            page.line(&["readw", register]);
        }
        _ if page.random.once_in(2) => word_write(page),
        _ => page.line(&["help"]),
    }
}

/// A write that mostly keeps the set-up fitting.
fn write(page: &mut Page) {
    let any = page.random.byte();
    let (register, value) = match page.random.below(8) {
        0..=2 => ("USICTL0", page.random.pick(&[0xC8, 0xCA, 0xCE, 0xC0, 0xC2, 0xC6, 0xE8])),
        3 => ("usictl1", page.random.pick(&[0x40, 0x41, 0x43, 0x45, 0x49, 0x61])),
        4..=5 => ("7b", page.random.pick(&[0x08, 0x01, 0x00, 0x80, 0x28, 0x1F, 0xA0])),
        6 => ("UsiSrl", any),
        _ => ("007D", any),
    };
    let value = page.hex(value);
    page.line(&["write", register, &value]);
}

/// A write that mostly keeps the set-up fitting SPI, or makes it I2C's.
fn write_spi(page: &mut Page) {
    let any = page.random.byte();
    let (register, value) = match page.random.below(10) {
        0..=2 => ("usictl0", page.random.pick(&[0xE2, 0xEA, 0xF2, 0xFA, 0xE6, 0xEE, 0xE0, 0xE8, 0xC2, 0xEB])),
        3..=4 => ("79", page.random.pick(&[0x00, 0x80, 0x01, 0x81, 0x0F, 0x40, 0x40, 0xC0])),
        5..=6 => ("USICNT", page.random.pick(&[0x08, 0x01, 0x00, 0x48, 0x50, 0x45, 0x28, 0x1F, 0xC2])),
        7 => ("7A", page.random.pick(&[0x00, 0x02, 0x20, 0x22])),
        8 => ("USISRL", any),
        _ => ("UsiSrh", any),
    };
    let value = page.hex(value);
    page.line(&["write", register, &value]);
}

/// A register by name or number.
fn register(random: &mut Random) -> String {
    match random.below(12) {
        0..=5 => random.pick(&["USICTL0", "USICTL1", "USICKCTL", "USICNT", "USISRL", "USISRH"]).to_string(),
        _ => format!("{:03X}", random.between(0x78, 0x7D)),
    }
}

/// A word write, of the shift bytes mostly.
fn word_write(page: &mut Page) {
    let value = format!("{:X}", page.random.bits() as u16);
    let register = page.random.pick(&["7C", "usisrl", "7C", "07A", "USICTL0"]);
    page.line(&["writew", register, &value]);
}

/// A command that is refused.
fn refused_line(page: &mut Page) {
    const LINES: &str = "\
        read 77; read 7E; read FFFF; readw 79; readw 7F; readw 76; readw 7E; readw USICTL1; write 77 0; \
        writew 79 0; writew 7D 0; writew 7E 1; sample 4; sample FF; write USICTL0 01; writew 0 0";
    page.one_of(LINES);
}

/// A line that is not understood, or only just.
fn spoilt_line(page: &mut Page) {
    const LINES: &str = "\
        power 1; power 1 2 3; power 100 0; power x y; POWER; read; read 10000; read 78 79; read USICTL; \
        read USICTL00; read 0x78; read 078h; readw; readw 78 78; readw 10000; write 78; write 78 100; \
        write 78 0 0; write 78 0000FF; write 10000 0; write; writew 78 10000; writew USISRL BEEF; \
        writew 78; sample; sample 100; sample 1 1; sample -1; tick 1; TICK; lines 1; help help; ok; \
        quit; -; 00000000000000000078";
    page.one_of(LINES);
}
