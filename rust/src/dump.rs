//! The dump writer (02, Ask 2): a record as a four-state Value Change Dump.

use crate::bus;
use crate::refusal::{Reason, Refusal};
use std::fmt::Write;

/// The longest text of a record that is not refused.
pub const LONGEST: usize = 73_855;

const HEADER: [&str; 6] = [
    "$timescale 100 ns $end",
    "$scope module bus $end",
    "$var wire 1 ! scl $end",
    "$var wire 1 \" sda $end",
    "$upscope $end",
    "$enddefinitions $end",
];

/// The text of a record, of as many samples as there are both stamps and levels.
pub fn text(stamps: &[u32], levels: &[u8]) -> String {
    let mut text = HEADER.map(|line| format!("{line}\n")).concat();
    let mut shown: [Option<bool>; 2] = [None; 2];
    for (stamp, level) in stamps.iter().zip(levels) {
        let wires = [level & 1 == 1, level & 2 == 2].map(Some);
        if wires != shown {
            let _ = writeln!(text, "#{stamp}");
        }
        for (wire, name) in ['!', '"'].into_iter().enumerate() {
            if let (Some(high), true) = (wires[wire], wires[wire] != shown[wire]) {
                let _ = writeln!(text, "{}{name}", u8::from(high));
            }
        }
        shown = wires;
    }
    text
}

/// Puts the text into the lent slice, whose rest stays, and counts its bytes. Refusals 5, 6, 4, 7, 19, 8.
pub fn dump(stamps: &[u32], levels: &[u8], out: &mut [u8]) -> Result<usize, Refusal> {
    bus::check_record(stamps, levels)?;
    if levels.is_empty() {
        return Err(Reason::EmptyRecord.refusal());
    }
    let text = text(stamps, levels);
    let room = out.get_mut(..text.len()).ok_or(Reason::ShortBuffer.refusal())?;
    room.copy_from_slice(text.as_bytes());
    Ok(text.len())
}

/// Puts the text from byte `from` on into the slice, as much as it takes, and counts those bytes.
pub fn piece(stamps: &[u32], levels: &[u8], from: usize, out: &mut [u8]) -> usize {
    let text = text(stamps, levels);
    let left = text.as_bytes().get(from..).unwrap_or_default();
    let count = left.len().min(out.len());
    out[..count].copy_from_slice(&left[..count]);
    count
}
