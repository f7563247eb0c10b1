//! The module's worked numbers P1 to P6, word access and refusals.

use rehearsal_model::module::{Lines, Module, AL, GE, IFG, MST, SCLREL, STTIFG};
use rehearsal_model::refusal::Reason;

const RELEASED: Lines = Lines { scl: false, sda: false };

fn write(module: Module, writes: &[(u16, u8)]) -> Module {
    writes.iter().fold(module, |module, &(address, value)| module.write(address, value).unwrap())
}

fn samples(module: Module, levels: &[u8]) -> Module {
    levels.iter().fold(module, |module, &level| module.sample(level).unwrap())
}

fn fitted(usictl0: u8) -> Module {
    let setup = [(Module::USICKCTL, 0x22), (Module::USICTL1, 0x41), (Module::USICTL0, usictl0)];
    write(Module::power_up(0, 0), &setup)
}

#[test]
fn p1_p2_p3_count_writes_at_power_up() {
    let powered = Module::power_up(0, 0);
    assert_eq!(write(powered, &[(0x07B, 0x08)]).read(0x079), Ok(0x00));
    let kept = write(powered, &[(0x07B, 0x28)]);
    assert_eq!(kept.read(0x079), Ok(0x01));
    assert_eq!(write(kept, &[(0x07B, 0x00)]).read(0x079), Ok(0x01));
}

#[test]
fn p4_p5_transparent_latch_pulls_and_keeps_sda() {
    let module = write(fitted(0xC8), &[(Module::USISRL, 0x00)]);
    assert_eq!(module.lines(), RELEASED);
    let pulling = write(module, &[(Module::USICTL0, 0xCE)]);
    assert_eq!(pulling.lines(), Lines { scl: false, sda: true });
    let kept = write(pulling, &[(Module::USICTL0, 0xCA)]);
    assert_eq!(kept.lines(), Lines { scl: false, sda: true });
}

#[test]
fn p6_slave_holds_scl_after_start() {
    for count in [None, Some(0x88)] {
        let slave = count.map_or(fitted(0xC0), |count| write(fitted(0xC0), &[(Module::USICNT, count)]));
        let started = samples(slave, &[3, 1]);
        assert!(started.is(STTIFG) && !started.is(SCLREL));
        assert_eq!(started.is(IFG), count.is_none());
        assert_eq!(samples(started, &[0]).lines(), Lines { scl: true, sda: false });
        for released in [0x80, 0x88] {
            let released = [(Module::USICNT, released)];
            assert_eq!(samples(write(started, &released), &[0]).lines(), RELEASED);
            assert_eq!(write(samples(started, &[0]), &released).lines(), RELEASED);
        }
    }
}

#[test]
fn words_are_two_bytes() {
    let module = Module::power_up(0x34, 0x12);
    assert_eq!(module.read_word(0x07C), Ok(0x1234));
    let written = module.write_word(0x07A, 0x0822).unwrap();
    assert_eq!(written, write(module, &[(0x07A, 0x22), (0x07B, 0x08)]));
    assert_eq!(written.read_word(0x07A), Ok(0x0822));
}

#[test]
fn addresses_are_refused_in_order() {
    let module = Module::power_up(0, 0);
    for address in [0x000, 0x076, 0x077, 0x07E, 0x07F, 0x178, 0xFFFE, 0xFFFF] {
        assert_eq!(module.read(address), Err(Reason::Address.refusal()));
        assert_eq!(module.write(address, 0), Err(Reason::Address.refusal()));
        let word = if address % 2 == 1 { Reason::OddWordAddress } else { Reason::Address };
        assert_eq!(module.read_word(address), Err(word.refusal()));
        assert_eq!(module.write_word(address, 0), Err(word.refusal()));
    }
    for address in [0x079, 0x07B, 0x07D] {
        assert_eq!(module.read_word(address), Err(Reason::OddWordAddress.refusal()));
    }
}

#[test]
fn samples_and_ticks_need_a_fit_and_a_level() {
    let unfit = Module::power_up(0, 0);
    assert_eq!(unfit.tick(), Err(Reason::SetUp.refusal()));
    assert_eq!(unfit.sample(3), Err(Reason::SetUp.refusal()));
    assert_eq!(unfit.sample(4), Err(Reason::Level.refusal()));
    assert_eq!(fitted(0xC8).sample(255), Err(Reason::Level.refusal()));
}

#[test]
fn lines_are_released_whatever_an_unfit_struct_holds() {
    let unfit = Module { latch: false, enable: true, phase: false, stretch: true, ..Module::power_up(0, 0) };
    assert_eq!(unfit.lines(), RELEASED);
    let fitting = Module { registers: [0xC8, 0x40, 0x22, 0x01, 0, 0], ..unfit };
    assert_eq!(fitting.lines(), Lines { scl: true, sda: true });
    assert!(fitting.is(MST) && !fitting.is(AL) && !fitting.is(GE));
}
