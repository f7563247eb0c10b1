//! The reader's modes (02, Ask 9): a whole phase of SCL that is too short to be real is refused.

use crate::bus::{self, Decoded};
use crate::refusal::{Reason, Refusal};

/// What is asked of the phases; in the strict modes stamps count units of 100 ns.
#[derive(Clone, Copy, PartialEq, Eq, Debug)]
pub enum Mode {
    Unchecked,
    Standard,
    Fast,
}

/// The shortest whole phases that pass.
#[derive(Clone, Copy, Debug)]
pub struct Limits {
    pub low: u32,
    pub high: u32,
}

impl Mode {
    /// NXP's UM10204: 4.7 and 4.0 microseconds, 1.3 and 0.6.
    pub const fn limits(self) -> Limits {
        match self {
            Mode::Unchecked => Limits { low: 0, high: 0 },
            Mode::Standard => Limits { low: 47, high: 40 },
            Mode::Fast => Limits { low: 13, high: 6 },
        }
    }
}

/// Reads a record in a mode, as `bus::decode` does otherwise. Refusals 5, 6, 4, 7, 18, 8.
pub fn decode_in(mode: Mode, stamps: &[u32], levels: &[u8], events: &mut [u16]) -> Result<Decoded, Refusal> {
    decode_within(mode.limits(), stamps, levels, events)
}

/// The same with any limits.
pub fn decode_within(
    limits: Limits,
    stamps: &[u32],
    levels: &[u8],
    events: &mut [u16],
) -> Result<Decoded, Refusal> {
    bus::check_record(stamps, levels)?;
    if let Some(sample) = first_short(limits, stamps, levels) {
        return Err(Reason::ShortPhase.at(sample));
    }
    bus::decode(stamps, levels, events)
}

/// The samples at which SCL has another level than in the sample before.
pub fn edges(levels: &[u8]) -> Vec<usize> {
    (1..levels.len()).filter(|&now| levels[now - 1] & 1 != levels[now] & 1).collect()
}

/// The first sample that ends a whole phase, one between two edges, that is too short.
fn first_short(limits: Limits, stamps: &[u32], levels: &[u8]) -> Option<usize> {
    let edges = edges(levels);
    let short = |phase: &&[usize]| {
        let least = if levels[phase[0]] & 1 == 0 { limits.low } else { limits.high };
        stamps[phase[1]] - stamps[phase[0]] < least
    };
    edges.windows(2).find(short).map(|phase| phase[1])
}
