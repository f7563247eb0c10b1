//! Arbitration by 01's steps 1 to 4, with 02's restart, over the modules' own writes, samples and ticks.

use super::{Message, Outcome, Request, Run, MASTERS};
use crate::module::{Module, AL};
use crate::refusal::{Reason, Refusal};

/// Runs the request; gives the reply and the final module of each master. Refusal 16 is seen here on the
/// bus: after a byte acknowledged by 0, the masters that are still in do not all do the same next. `outcome` has
/// it in 02's own words.
pub fn run(request: &Request) -> Result<(Run, Vec<Module>), Refusal> {
    let mut runner = Runner::new(request);
    runner.start();
    let mut carried = Vec::new();
    for (place, &ack) in request.acks.iter().enumerate() {
        carried.push(runner.byte(place, ack));
        if ack == 1 {
            break;
        }
        match runner.next()? {
            Next::Byte => {}
            Next::Restart => runner.restart(),
            Next::Stop => break,
        }
    }
    runner.stop();
    Ok(runner.reply(carried))
}

/// What a master does after a byte that was acknowledged.
#[derive(Clone, Copy, PartialEq, Eq)]
enum Next {
    Byte,
    Restart,
    Stop,
}

/// A message, and how far its master is: the part, and the next byte in it.
struct Sender<'a> {
    message: &'a Message,
    part: usize,
    byte: usize,
}

impl Sender<'_> {
    fn next_byte(&mut self) -> u8 {
        self.byte += 1;
        self.message.parts[self.part][self.byte - 1]
    }

    fn next(&self) -> Next {
        if self.byte < self.message.parts[self.part].len() {
            Next::Byte
        } else if self.part + 1 < self.message.parts.len() {
            Next::Restart
        } else {
            Next::Stop
        }
    }

    fn next_part(&mut self) {
        self.part += 1;
        self.byte = 0;
    }
}

/// The bus with all its masters.
struct Runner<'a> {
    senders: Vec<Sender<'a>>,
    modules: Vec<Module>,
    /// The flags that each master's writes have cleared.
    cleared: Vec<u8>,
    /// The position at which a master lost, once it has.
    lost: Vec<Option<usize>>,
    /// The acknowledge is pulling SDA low.
    ack_pulled: bool,
    /// The recorded samples.
    levels: Vec<u8>,
}

impl Runner<'_> {
    /// All modules from power-up, then USICKCTL=22h, USICTL1=41h, USICTL0=C8h.
    fn new(request: &Request) -> Runner<'_> {
        let masters = request.messages.len();
        let mut runner = Runner {
            senders: request.messages.iter().map(|message| Sender { message, part: 0, byte: 0 }).collect(),
            modules: vec![Module::power_up(0, 0); masters],
            cleared: vec![0; masters],
            lost: vec![None; masters],
            ack_pulled: false,
            levels: Vec::new(),
        };
        runner.all_write(Module::USICKCTL, 0x22);
        runner.all_write(Module::USICTL1, 0x41);
        runner.all_write(Module::USICTL0, 0xC8);
        runner
    }

    /// The masters still in.
    fn remaining(&self) -> impl Iterator<Item = usize> + '_ {
        (0..self.modules.len()).filter(|&master| self.lost[master].is_none())
    }

    fn write(&mut self, master: usize, address: u16, value: u8) {
        let before = self.modules[master];
        self.modules[master] = before.write(address, value).expect("a register's address");
        self.cleared[master] |= self.modules[master].cleared_since(&before);
    }

    fn all_write(&mut self, address: u16, value: u8) {
        for master in 0..self.modules.len() {
            self.write(master, address, value);
        }
    }

    fn remaining_write(&mut self, address: u16, value: u8) {
        for master in self.remaining().collect::<Vec<_>>() {
            self.write(master, address, value);
        }
    }

    fn all_tick(&mut self) {
        for module in &mut self.modules {
            *module = module.tick().expect("the set-up fits");
        }
    }

    /// One sample reaches every module: a line is high unless someone pulls it.
    fn sample(&mut self) -> u8 {
        let scl_low = self.modules.iter().any(|module| module.lines().scl);
        let sda_low = self.ack_pulled || self.modules.iter().any(|module| module.lines().sda);
        let level = u8::from(!scl_low) + 2 * u8::from(!sda_low);
        for module in &mut self.modules {
            *module = module.sample(level).expect("the set-up fits");
        }
        level
    }

    fn recorded_sample(&mut self) -> u8 {
        let level = self.sample();
        self.levels.push(level);
        level
    }

    /// Step 1: the START condition.
    fn start(&mut self) {
        self.recorded_sample();
        self.all_write(Module::USISRL, 0x00);
        self.all_write(Module::USICTL0, 0xCE);
        self.all_write(Module::USICTL0, 0xCA);
        self.recorded_sample();
        self.all_write(Module::USICTL1, 0x41);
    }

    /// Step 2: one byte of every master still in, eight bit turns, then the acknowledge; gives the byte carried.
    fn byte(&mut self, place: usize, ack: u8) -> u8 {
        let senders: Vec<usize> = self.remaining().collect();
        for &master in &senders {
            let byte = self.senders[master].next_byte();
            self.write(master, Module::USISRL, byte);
            self.write(master, Module::USICTL0, 0xCA);
            self.write(master, Module::USICNT, 0x08);
        }
        let mut carried = 0;
        for bit in 0..8 {
            carried = carried << 1 | self.bit_turn(false);
            self.note_losers(9 * place + bit);
        }
        for &master in &senders {
            let (usictl0, usicnt) = if self.lost[master].is_some() { (0xC0, 0x80) } else { (0xC8, 0x01) };
            self.write(master, Module::USICTL0, usictl0);
            self.write(master, Module::USICNT, usicnt);
        }
        self.bit_turn(ack == 0);
        self.note_losers(9 * place + 8);
        carried
    }

    /// A master is in until the bit turn that sets its AL.
    fn note_losers(&mut self, position: usize) {
        for master in self.remaining().collect::<Vec<_>>() {
            if self.modules[master].is(AL) {
                self.lost[master] = Some(position);
            }
        }
    }

    /// Step 3: a bit turn; gives SDA in its second recorded sample. The acknowledge's pull starts between the
    /// two low samples of its own turn and ends between those of the next one.
    fn bit_turn(&mut self, ack_pulled: bool) -> u8 {
        self.all_tick();
        self.sample();
        self.ack_pulled = ack_pulled;
        self.recorded_sample();
        self.all_tick();
        self.recorded_sample() >> 1
    }

    /// What all masters still in do next; 16 where they do not all do the same.
    fn next(&self) -> Result<Next, Refusal> {
        let mut nexts = self.remaining().map(|master| self.senders[master].next());
        let first = nexts.next().expect("the least message is still in");
        if nexts.any(|next| next != first) {
            return Err(Reason::Undecided.refusal());
        }
        Ok(first)
    }

    /// 02's restart: SDA is let go and SCL rises, then SDA falls. The START holds up every loser again, at every
    /// restart, so each lets go of SCL once more; 49h keeps its AL.
    fn restart(&mut self) {
        self.remaining_write(Module::USISRL, 0xFF);
        self.remaining_write(Module::USICTL0, 0xCA);
        self.remaining_write(Module::USICNT, 0x01);
        self.bit_turn(false);
        self.remaining_write(Module::USISRL, 0x00);
        self.remaining_write(Module::USICTL0, 0xCE);
        self.remaining_write(Module::USICTL0, 0xCA);
        self.recorded_sample();
        self.remaining_write(Module::USICTL1, 0x41);
        for master in 0..self.modules.len() {
            if self.lost[master].is_some() {
                self.write(master, Module::USICTL1, 0x49);
                self.write(master, Module::USICNT, 0x80);
            } else {
                self.senders[master].next_part();
            }
        }
    }

    /// Step 4: the STOP condition.
    fn stop(&mut self) {
        self.remaining_write(Module::USICTL0, 0xCA);
        self.remaining_write(Module::USISRL, 0x00);
        self.remaining_write(Module::USICNT, 0x01);
        self.bit_turn(false);
        self.remaining_write(Module::USISRL, 0xFF);
        self.remaining_write(Module::USICTL0, 0xCE);
        self.recorded_sample();
        self.remaining_write(Module::USICTL0, 0xC8);
    }

    /// The reply and the final modules; a place without a message is not in, and has 0 for all else.
    fn reply(self, carried: Vec<u8>) -> (Run, Vec<Module>) {
        let mut remaining = [false; MASTERS];
        let mut positions = [0; MASTERS];
        let mut arbitration_lost = [false; MASTERS];
        for (master, lost) in self.lost.iter().enumerate() {
            remaining[master] = lost.is_none();
            positions[master] = lost.unwrap_or(0) as u16;
            arbitration_lost[master] = self.modules[master].is(AL);
        }
        let outcome = Outcome { carried, levels: self.levels, remaining, positions, arbitration_lost };
        let mut cleared = [0; MASTERS];
        cleared[..self.cleared.len()].copy_from_slice(&self.cleared);
        (Run { outcome, cleared }, self.modules)
    }
}
