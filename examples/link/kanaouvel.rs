//! What rehearse.rs needs of include/kanaouvel.h: the declarations, a safe function over slices for each, and the
//! fields of the replies. rust/linked/src/lib.rs has all functions of the library.

pub const MAX_BYTES: usize = 64;
pub const MAX_LEVELS: usize = 1346;
pub const MAX_SAMPLES: usize = 4096;

pub const READ_MESSAGE: u8 = 14;
pub const NOT_ACKNOWLEDGED: u8 = 43;

pub const START: u16 = 512;
pub const REPEATED_START: u16 = 513;
pub const STOP: u16 = 514;

#[rustfmt::skip]
extern "C" {
    fn kan_arbitrate(
        bytes: *const u8, bytes_length: usize, parts: *const u32, parts_length: usize,
        counts: *const u32, counts_length: usize, acks: *const u8, acks_length: usize,
        carried: *mut u8, carried_length: usize, levels: *mut u8, levels_length: usize,
        modules: *mut u64, modules_length: usize, seats: *mut u32, seats_length: usize,
    ) -> u64;
    fn kan_night(
        bytes: *const u8, bytes_length: usize, parts: *const u32, parts_length: usize,
        counts: *const u32, counts_length: usize, acks: *const u8, acks_length: usize,
        rounds: *mut u32, rounds_length: usize, modules: *mut u64, modules_length: usize,
    ) -> u64;
    fn kan_bus_encode(
        events: *const u16, events_length: usize, start: u32, gap: u32,
        stamps: *mut u32, stamps_length: usize, levels: *mut u8, levels_length: usize,
    ) -> u64;
    fn kan_bus_decode(
        stamps: *const u32, stamps_length: usize, levels: *const u8, levels_length: usize,
        events: *mut u16, events_length: usize,
    ) -> u64;
}

/// Messages one after the other, the length of every part, how many parts each message has, and an acknowledge for each
/// byte of the longest.
pub struct Asked<'a> {
    pub bytes: &'a [u8],
    pub parts: &'a [u32],
    pub counts: &'a [u32],
    pub acks: &'a [u8],
}

/// Calls a C function: what is read, numbers, what is lent. A slice goes as a pointer and a length; it outlives the
/// call, and the functions keep no pointer.
macro_rules! call {
    ($name:ident, [$($read:expr),*], [$($number:expr),*], [$($lent:expr),*]) => {
        unsafe { $name($($read.as_ptr(), $read.len(),)* $($number,)* $($lent.as_mut_ptr(), $lent.len(),)*) }
    };
}

pub fn arbitrate(
    asked: &Asked,
    carried: &mut [u8],
    levels: &mut [u8],
    modules: &mut [u64],
    seats: &mut [u32],
) -> Reply {
    let Asked { bytes, parts, counts, acks } = asked;
    Reply(call!(kan_arbitrate, [bytes, parts, counts, acks], [], [carried, levels, modules, seats]))
}

pub fn night(asked: &Asked, rounds: &mut [u32], modules: &mut [u64]) -> Reply {
    let Asked { bytes, parts, counts, acks } = asked;
    Reply(call!(kan_night, [bytes, parts, counts, acks], [], [rounds, modules]))
}

/// How many samples are drawn, where nothing is refused.
pub fn encode(
    events: &[u16],
    start: u32,
    gap: u32,
    stamps: &mut [u32],
    levels: &mut [u8],
) -> Result<usize, u8> {
    let answer = call!(kan_bus_encode, [events], [start, gap], [stamps, levels]);
    if answer % 256 == 0 {
        Ok((answer >> 8) as usize)
    } else {
        Err(answer as u8)
    }
}

pub fn decode(stamps: &[u32], levels: &[u8], events: &mut [u16]) -> Decoded {
    Decoded(call!(kan_bus_decode, [stamps, levels], [], [events]))
}

/// The reply of an arbitration or a night.
pub struct Reply(u64);

impl Reply {
    pub fn refusal(&self) -> u8 {
        self.0 as u8
    }

    pub fn place(&self) -> u16 {
        (self.0 >> 8) as u16
    }

    pub fn count(&self) -> usize {
        (self.0 >> 24) as usize
    }
}

/// The reply of a reading.
pub struct Decoded(u64);

impl Decoded {
    pub fn count(&self) -> usize {
        (self.0 >> 24) as usize % 65536
    }

    pub fn open(&self) -> bool {
        self.0 >> 40 & 1 == 1
    }

    pub fn pending(&self) -> u8 {
        (self.0 >> 48) as u8
    }

    pub fn value(&self) -> u8 {
        (self.0 >> 56) as u8
    }
}

/// Where a master lost, as byte and bit; nothing where it is still in.
pub fn lost_at(seat: u32) -> Option<(u32, u32)> {
    let position = seat >> 5;
    (seat % 2 == 0).then_some((position / 9, position % 9))
}

/// USICTL0, USICTL1, USICKCTL, USICNT, USISRL and USISRH of a module.
pub fn registers(module: u64) -> [u8; 6] {
    [0, 8, 16, 24, 32, 40].map(|bit| (module >> bit) as u8)
}

/// How many levels so many bytes take, with no restart between them.
pub fn levels_drawn(count: usize) -> usize {
    5 + 18 * count
}
