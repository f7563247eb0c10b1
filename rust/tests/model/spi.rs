//! The module in SPI: numbers worked by hand, and the statement of 02's request 1 at random.

use rehearsal_model::module::{Driven, Lines, Module, SetUp, SpiLines};
use rehearsal_model::module::{CKPH, CKPL, GE, IFG, LSB, OE, SIXTEEN_BIT};
use rehearsal_model::packed::unpack;
use rehearsal_model::random::Random;
use rehearsal_model::refusal::Reason;

const NOTHING: SpiLines = SpiLines { sclk: Driven::Released, sdo: Driven::Released };

fn write(module: Module, writes: &[(u16, u8)]) -> Module {
    writes.iter().fold(module, |module, &(address, value)| module.write(address, value).unwrap())
}

/// A set-up by USICTL0, USICTL1, USICKCTL and USICNT.
fn fitted(register: u16, [ctl0, ctl1, ckctl, cnt]: [u8; 4]) -> Module {
    let [low, high] = register.to_le_bytes();
    let writes = [(0x07A, ckctl), (0x079, ctl1), (0x078, ctl0), (0x07B, cnt)];
    write(Module::power_up(low, high), &writes)
}

fn samples(module: Module, levels: &[u8]) -> Module {
    levels.iter().fold(module, |module, &level| module.sample(level).unwrap())
}

/// What SDO is driven at.
fn sdo(module: &Module) -> bool {
    match module.spi_lines().sdo {
        Driven::Released => panic!("SDO is released"),
        driven => driven == Driven::High,
    }
}

#[test]
fn a_byte_of_a_slave_with_ckph_0() {
    // A5h = 1010 0101 goes out, 3Ch = 0011 1100 comes in on the trailing edges.
    let mut slave = samples(fitted(0xA5, [0xE2, 0x00, 0x20, 0x08]), &[0]);
    assert_eq!(slave.spi_lines(), NOTHING);
    let bits = [(1, 0, 0x4A), (0, 0, 0x94), (1, 1, 0x29), (0, 1, 0x53)];
    let more = [(0, 1, 0xA7), (1, 1, 0x4F), (0, 0, 0x9E), (1, 0, 0x3C)];
    for (out, sdi, register) in bits.into_iter().chain(more) {
        assert!(!slave.is(IFG));
        slave = samples(slave, &[1 + 2 * (1 - sdi)]);
        assert_eq!(u8::from(sdo(&slave)), out);
        slave = samples(slave, &[2 * sdi]);
        assert_eq!(slave.registers[4], register);
    }
    assert_eq!(slave.registers, [0xE2, 0x01, 0x20, 0x00, 0x3C, 0x00]);
}

#[test]
fn a_byte_of_a_master_with_ckph_1() {
    // CKPL=1, lowest bit first: C5h = 1100 0101 goes out as 1 0 1 0 0 0 1 1; 0 1 1 0 1 0 0 1 comes in: 96h.
    let mut master = samples(fitted(0xC5, [0xFA, 0x80, 0x22, 0x08]), &[1]);
    assert_eq!(master.spi_lines(), SpiLines { sclk: Driven::High, sdo: Driven::High });
    let bits = [(1, 0, 0x62), (0, 1, 0xB1), (1, 1, 0xD8), (0, 0, 0x6C)];
    let more = [(0, 1, 0xB6), (0, 0, 0x5B), (1, 0, 0x2D), (1, 1, 0x96)];
    for (out, sdi, register) in bits.into_iter().chain(more) {
        assert_eq!(u8::from(sdo(&master)), out);
        master = master.tick().unwrap();
        assert_eq!(master.spi_lines().sclk, Driven::Low);
        master = samples(master, &[2 * sdi]);
        assert_eq!(master.registers[4], register);
        master = master.tick().unwrap();
        assert_eq!(master.spi_lines().sclk, Driven::High);
        master = samples(master, &[1 + 2 * (1 - sdi)]);
    }
    assert_eq!(master.registers, [0xFA, 0x81, 0x22, 0x00, 0x96, 0x00]);
    assert_eq!(master.tick(), Ok(master));
}

#[test]
fn five_bits_of_sixteen() {
    // 1 0 1 1 0 of B400h go out, 1 1 0 0 1 come in: B400h << 5 | 19h.
    let mut module = samples(fitted(0xB400, [0xE2, 0x00, 0x20, 0x45]), &[0]);
    for (out, sdi) in [(true, 1), (false, 1), (true, 0), (true, 0), (false, 1)] {
        module = samples(module, &[1]);
        assert_eq!(sdo(&module), out);
        module = samples(module, &[2 * sdi]);
    }
    assert_eq!((module.read_word(0x07C), module.count(), module.is(IFG)), (Ok(0x8019), 0, true));
    // 0 0 1 0 1 of 1234h go out lowest first, and come in at bit 15: 1234h >> 5 | 10011b << 11.
    let module = samples(fitted(0x1234, [0xF2, 0x80, 0x20, 0x45]), &[0, 3, 0, 3, 0, 1, 0, 1, 0, 3, 0]);
    assert_eq!((module.read_word(0x07C), module.count(), module.is(IFG)), (Ok(0x9891), 0, true));
}

#[test]
fn three_is_given_exactly_where_neither_set_up_fits() {
    let mut fits = [0; 3];
    for bits in 0..1_u16 << 12 {
        let (ctl0, ctl1) = (bits as u8, (bits >> 2) as u8 & 0xC0);
        let (ckctl, cnt) = ((bits >> 9) as u8 & 0x02, (bits >> 5) as u8 & 0x40);
        let module = Module { registers: [ctl0, ctl1, ckctl, cnt, 0, 0], ..Module::power_up(0, 0) };
        let spi = ctl1 & 0x40 == 0 && ctl0 & 0xE1 == 0xE0;
        let i2c = ctl1 & 0xC0 == 0x40 && ckctl == 2 && cnt == 0 && ctl0 & 0xD1 == 0xC0;
        let set_up = if spi { SetUp::Spi } else { [SetUp::Neither, SetUp::I2c][usize::from(i2c)] };
        assert_eq!(module.set_up(), set_up, "{module:X?}");
        let refused = Err(Reason::SetUp.refusal());
        assert_eq!(module.sample(3) == refused, !(spi || i2c));
        assert_eq!(module.tick() == refused, !(spi || i2c));
        assert_eq!(module.sample(4), Err(Reason::Level.refusal()));
        fits[set_up as usize] += 1;
    }
    assert!(fits.iter().all(|&count| count > 10), "{fits:?}");
}

#[test]
fn nothing_is_driven_or_pulled_outside_the_set_up() {
    let mut random = Random::new(15);
    for _ in 0..100_000 {
        let module = unpack(random.bits());
        let set_up = module.set_up();
        assert!(set_up == SetUp::Spi || module.spi_lines() == NOTHING, "{module:X?}");
        assert!(set_up == SetUp::I2c || module.lines() == Lines { scl: false, sda: false }, "{module:X?}");
    }
}

#[test]
fn seventeen_is_i2cs() {
    // DIV=0, SCL or SCLK seen low in the high or idle phase.
    let spi = samples(fitted(0, [0xEA, 0x00, 0x02, 0x08]), &[0]);
    assert!(!spi.tick().unwrap().phase);
    let i2c = samples(fitted(0, [0xEA, 0x40, 0x02, 0x08]), &[0]);
    assert_eq!(i2c.tick(), Err(Reason::NoWaiting.refusal()));
}

#[test]
fn a_write_that_changes_the_set_up_rests_the_hidden_state() {
    let rests = |module: Module| module == Module { registers: module.registers, ..Module::power_up(0, 0) };
    let any = Module {
        latch: false,
        enable: true,
        phase: false,
        seen: true,
        scl: true,
        sda: true,
        stretch: true,
        registers: [0xEA, 0x00, 0x22, 0x08, 0, 0],
    };
    assert!(rests(write(any, &[(0x079, 0x40)])), "SPI to I2C");
    assert!(rests(write(any, &[(0x078, 0xCA)])), "SPI to neither");
    let i2c = Module { registers: [0xEA, 0x40, 0x22, 0x08, 0, 0], ..any };
    assert!(rests(write(i2c, &[(0x079, 0x00)])), "I2C to SPI");
    let neither = Module { registers: [0xEB, 0x40, 0x22, 0x08, 0, 0], ..any };
    assert!(rests(write(neither, &[(0x078, 0xEA)])), "neither to I2C");
    assert!(rests(write(neither, &[(0x079, 0x00)])), "neither stays");
    let transparent = write(neither, &[(0x078, 0xEE)]);
    assert_eq!((transparent.latch, transparent.enable, transparent.seen), (false, true, false));
    for inside in [(0x079, 0x80), (0x07A, 0x00), (0x078, 0xFA), (0x07B, 0x48), (0x078, 0xE0)] {
        let kept = write(any, &[inside]);
        assert_eq!(Module { registers: any.registers, ..kept }, any, "{inside:X?}");
    }
}

/// A step of the statement: it is of samples and ticks alone.
#[derive(Clone, Copy, Debug)]
enum Step {
    Sample { sclk: bool, sdi: bool },
    Tick,
}

fn take(module: Module, step: Step) -> Module {
    match step {
        Step::Sample { sclk, sdi } => module.sample(u8::from(sclk) + 2 * u8::from(sdi)).unwrap(),
        Step::Tick => module.tick().unwrap(),
    }
}

/// Samples at one level of SCLK, one at least if it must be seen, with ticks among them.
fn phase(random: &mut Random, steps: &mut Vec<Step>, sclk: bool, seen: bool) {
    for turn in 0..usize::from(seen) + random.below(3) {
        for _ in 0..random.below(3) {
            steps.push(Step::Tick);
        }
        if turn == 0 && seen || random.once_in(2) {
            steps.push(Step::Sample { sclk, sdi: random.once_in(2) });
        }
    }
}

/// A module that a step left, in SPI, with this count, SCLK idle and last seen so, OE=1, GE=0, IFG=0.
fn begun(random: &mut Random, count: u8) -> Module {
    let mut module = unpack(random.bits());
    let wide = if count > 8 { 0x40 } else { module.registers[3] & 0x40 };
    module.registers[0] = module.registers[0] & 0x18 | 0xE2;
    module.registers[1] &= 0xBE;
    module.registers[3] = module.registers[3] & 0xA0 | wide | count;
    let idle = u8::from(module.is(CKPL));
    match random.below(4) {
        0 => module.seen = false,
        _ => module.scl = module.is(CKPL),
    }
    match random.below(4) {
        0 if module.seen => module.tick().unwrap(),
        1 if module.seen => module.write(0x07C + random.below(2) as u16, random.byte()).unwrap(),
        2 if module.seen => module.write(0x07B, module.registers[3]).unwrap(),
        _ => module.sample(idle + 2 * (random.byte() & 1)).unwrap(),
    }
}

/// The bits of the register in the order in which they leave.
fn leaving(module: &Module) -> Vec<bool> {
    let value = module.read_word(0x07C).unwrap();
    let width = if module.is(SIXTEEN_BIT) { 16 } else { 8 };
    let bit = |place: usize| value >> place & 1 == 1;
    (0..width).map(|place| bit(if module.is(LSB) { place } else { width - 1 - place })).collect()
}

/// The bits received and sent over the steps: SDI of each capture edge, and SDO just before it.
fn transfer(mut module: Module, steps: &[Step]) -> (Module, Vec<bool>, Vec<bool>) {
    let (mut received, mut sent) = (Vec::new(), Vec::new());
    for &step in steps {
        if let Step::Sample { sclk, sdi } = step {
            let leading = sclk != module.is(CKPL);
            if sclk != module.scl && leading == module.is(CKPH) {
                received.push(sdi);
                sent.push(sdo(&module));
            }
        }
        module = take(module, step);
    }
    (module, received, sent)
}

#[test]
fn n_periods_send_the_first_n_bits_and_leave_the_n_received() {
    let mut random = Random::new(2026);
    for turn in 0..60_000 {
        let count = random.between(1, if turn % 2 == 0 { 8 } else { 16 });
        let begun = begun(&mut random, count as u8);
        let idle = begun.is(CKPL);
        let mut steps = Vec::new();
        phase(&mut random, &mut steps, idle, false);
        for _ in 0..count {
            phase(&mut random, &mut steps, !idle, true);
            phase(&mut random, &mut steps, idle, true);
        }
        let (ended, received, sent) = transfer(begun, &steps);
        let context = || format!("{begun:X?} {steps:?}");
        let (before, after) = (leaving(&begun), leaving(&ended));
        assert_eq!(received.len(), count, "{}", context());
        assert_eq!(sent, before[..count], "sent by {}", context());
        assert_eq!(after, [&before[count..], &received[..]].concat(), "received by {}", context());
        let [ctl0, ctl1, ckctl, cnt, _, high] = begun.registers;
        let left = [ctl0, ctl1 | 1, ckctl, cnt & 0xE0, ended.registers[4], ended.registers[5]];
        assert_eq!(ended.registers, left, "{}", context());
        assert!(begun.is(SIXTEEN_BIT) || high == ended.registers[5], "USISRH of {}", context());
    }
}

/// A master and a slave on the same wires: each sees what the other drives, and the registers change places.
#[test]
fn two_modules_exchange_their_registers() {
    let mut random = Random::new(4);
    for set_up in (0..16).cycle().take(800) {
        let flag = |place: u8, bit: u8| if set_up >> place & 1 == 1 { bit } else { 0 };
        let (ckph, ckpl, lsb) = (flag(0, 0x80), flag(1, 0x02), flag(2, 0x10));
        let (count, mask) = if flag(3, 1) == 1 { (0x50, 0xFFFF) } else { (0x08, 0x00FF) };
        let (ours, theirs) = (random.bits() as u16 & mask, random.bits() as u16 & mask);
        let mut master = fitted(ours, [0xEA | lsb, ckph, ckpl, count]);
        let mut slave = fitted(theirs, [0xE2 | lsb, ckph, ckpl, count]);
        for turn in 0..=2 * master.count() {
            if turn > 0 {
                master = master.tick().unwrap();
            }
            let high = |line: Driven| u8::from(line == Driven::High);
            let SpiLines { sclk, sdo } = master.spi_lines();
            let sdi = slave.spi_lines().sdo;
            assert_eq!(slave.spi_lines().sclk, Driven::Released);
            master = master.sample(high(sclk) + 2 * high(sdi)).unwrap();
            slave = slave.sample(high(sclk) + 2 * high(sdo)).unwrap();
        }
        assert_eq!((master.read_word(0x07C), slave.read_word(0x07C)), (Ok(theirs), Ok(ours)), "{set_up}");
        assert!(master.is(IFG) && slave.is(IFG) && master.count() == 0 && slave.count() == 0);
    }
}

/// The bit that goes out next.
fn outgoing(module: &Module) -> bool {
    leaving(module)[0]
}

#[test]
fn every_step_leaves_the_first_bit_out_where_ckph_is_1() {
    let mut random = Random::new(7);
    let mut followed = 0;
    for _ in 0..400_000 {
        let module = unpack(random.bits() | 0xE0);
        let next = match random.below(4) {
            0 => module.write(random.between(0x078, 0x07D) as u16, random.byte()),
            1 => module.write_word(0x078 + 2 * random.below(3) as u16, random.bits() as u16),
            2 => module.tick(),
            _ => module.sample(random.byte() % 4),
        };
        let Ok(next) = next else { continue };
        let idle = next.seen && next.scl == next.is(CKPL);
        if next.set_up() == SetUp::Spi && (next.is(GE) || next.is(CKPH) && next.count() > 0 && idle) {
            assert_eq!((next.latch, next.enable), (outgoing(&next), next.is(OE)), "{module:X?} {next:X?}");
            followed += 1;
        }
    }
    assert!(followed > 20_000, "{followed}");
}

/// A step of a module that has no rule of CKPH=1: latch and enable move on the trailing edge of SCLK alone.
fn without_the_rule(before: Module, step: Step) -> Module {
    let after = take(before, step);
    match step {
        Step::Sample { sclk, .. } if sclk != before.scl && sclk == before.is(CKPL) => after,
        _ => Module { latch: before.latch, enable: before.enable, ..after },
    }
}

/// What SDO is driven at before each of eight captures on the leading edges of SCLK, which is idle at 0.
fn eight_bits(mut module: Module, take: fn(Module, Step) -> Module) -> (Module, Vec<Driven>) {
    let mut sent = Vec::new();
    for _ in 0..8 {
        sent.push(module.spi_lines().sdo);
        module = take(module, Step::Sample { sclk: true, sdi: false });
        module = take(module, Step::Sample { sclk: false, sdi: false });
    }
    (module, sent)
}

/// The request's statement is then false: a fresh module keeps SDO released at the first capture, and one
/// that has sent FFh sends 80h for 00h. With the rule the bits are right.
#[test]
fn without_the_rule_of_ckph_1_the_first_bit_is_not_sent() {
    let fresh = fitted(0xFF, [0xE2, 0x80, 0x20, 0x08]);
    let seen = Step::Sample { sclk: false, sdi: false };
    let (first, sent) = eight_bits(without_the_rule(fresh, seen), without_the_rule);
    assert_eq!(sent, [&[Driven::Released][..], &[Driven::High; 7]].concat());
    let again = write(first, &[(0x07C, 0x00), (0x07B, 0x08)]);
    let (_, sent) =
        eight_bits(Module { latch: first.latch, enable: first.enable, ..again }, without_the_rule);
    assert_eq!(sent, [&[Driven::High][..], &[Driven::Low; 7]].concat());
    let (first, sent) = eight_bits(take(fresh, seen), take);
    assert_eq!(sent, [Driven::High; 8]);
    assert_eq!(eight_bits(write(first, &[(0x07C, 0x00), (0x07B, 0x08)]), take).1, [Driven::Low; 8]);
}
