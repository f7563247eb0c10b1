//! Random records for the dump writer: the reply and the whole slice, and the text in pieces.

use super::lists::pattern;
use super::traces::{draw_levels, rising_stamps, spoil};
use super::{equal, Counts, Difference};
use crate::dump::{text, LONGEST};
use crate::packed::{Interface, Model};
use crate::random::Random;

/// One record, written whole and in pieces by both sides.
pub fn case(other: &dyn Interface, random: &mut Random, counts: &mut Counts) -> Result<(), Difference> {
    let (kind, mut levels) = draw_record_levels(random);
    let mut stamps = draw_stamps(random, levels.len());
    if levels.is_empty() && random.once_in(4) {
        stamps.push(random.bits() as u32);
    }
    if random.once_in(2) {
        spoil(random, &mut stamps, &mut levels);
    }
    counts.add(format!("dump: {kind}"));
    whole(other, random, counts, &stamps, &levels)?;
    if levels.len() == 1 && random.once_in(20) {
        every_room(other, random, counts, &stamps, &levels)?;
    }
    pieces(other, random, counts, &stamps, &levels)
}

/// None, one sample, many that change both wires, or as the reader's.
fn draw_record_levels(random: &mut Random) -> (&'static str, Vec<u8>) {
    match random.below(12) {
        0 => ("empty", Vec::new()),
        1 => ("one sample", vec![random.byte() % 4]),
        2 => {
            let first = random.byte() % 4;
            let count = if random.once_in(30) { 4096 } else { random.below(60) };
            (
                "both wires change",
                (0..count).map(|index| if index % 2 == 0 { first } else { 3 - first }).collect(),
            )
        }
        3 => ("levels that stay", vec![random.byte() % 4; random.below(20)]),
        _ => draw_levels(random),
    }
}

/// Stamps that rise, or the largest that can.
fn draw_stamps(random: &mut Random, count: usize) -> Vec<u32> {
    if random.once_in(4) {
        return (0..count as u32).map(|index| u32::MAX - (count as u32 - 1 - index)).collect();
    }
    rising_stamps(random, count)
}

/// A slice that holds another byte at each place.
fn slice(salt: u64, room: usize) -> Vec<u8> {
    (0..room as u64).map(|index| pattern(salt, index) as u8).collect()
}

/// The whole text in a slice of any length about it.
fn whole(
    other: &dyn Interface,
    random: &mut Random,
    counts: &mut Counts,
    stamps: &[u32],
    levels: &[u8],
) -> Result<(), Difference> {
    let long = text(stamps, levels).len();
    let room = match random.below(6) {
        0 => random.below(long + 1),
        1 => long - 1,
        2 => long + random.below(40),
        3 if random.once_in(50) => LONGEST,
        _ => long,
    };
    let reply = lend(other, random.bits(), room, stamps, levels)?;
    counts.add(format!("dump: refused {}", reply & 0xFF));
    if reply >> 24 == LONGEST as u64 {
        counts.add("dump: of 73,855 bytes");
    }
    counts.add(format!("refused {}", reply & 0xFF));
    Ok(())
}

/// The same record in slices of every length up to its text's and one more.
fn every_room(
    other: &dyn Interface,
    random: &mut Random,
    counts: &mut Counts,
    stamps: &[u32],
    levels: &[u8],
) -> Result<(), Difference> {
    for room in 0..=text(stamps, levels).len() + 1 {
        lend(other, random.bits(), room, stamps, levels)?;
    }
    counts.add("dump: slices of every length");
    Ok(())
}

/// Both sides fill a slice of so many bytes; the model's reply.
fn lend(
    other: &dyn Interface,
    salt: u64,
    room: usize,
    stamps: &[u32],
    levels: &[u8],
) -> Result<u64, Difference> {
    let ask = |side: &dyn Interface| {
        let mut out = slice(salt, room);
        (side.dump(stamps, levels, &mut out), out)
    };
    let (model, other) = (ask(&Model), ask(other));
    let inputs = || format!("dump stamps {stamps:?} levels {levels:?} room {room}");
    equal(&model, &other, inputs, |(reply, out)| {
        format!("refused {} place {} count {}, bytes {out:?}", reply & 0xFF, reply >> 8 & 0xFFFF, reply >> 24)
    })?;
    Ok(model.0)
}

/// Pieces one after the other, of any sizes from none on: each as the model's, and together the text.
fn pieces(
    other: &dyn Interface,
    random: &mut Random,
    counts: &mut Counts,
    stamps: &[u32],
    levels: &[u8],
) -> Result<(), Difference> {
    let whole = text(stamps, levels);
    let most = random.pick(&[40, 200, 4096]).max(whole.len() / 30);
    let (mut from, mut handed) = (0, Vec::new());
    while from < whole.len() {
        let (room, salt) = (random.below(most + 1), random.bits());
        let ask = |side: &dyn Interface| {
            let mut out = slice(salt, room);
            (side.dump_piece(stamps, levels, from, &mut out), out)
        };
        let (model, other) = (ask(&Model), ask(other));
        let inputs = || format!("piece stamps {stamps:?} levels {levels:?} from {from} room {room}");
        equal(&model, &other, inputs, |(count, out)| format!("count {count}, bytes {out:?}"))?;
        handed.extend_from_slice(&other.1[..other.0]);
        from += other.0;
    }
    counts.add("dump: in pieces");
    let past = random.pick(&[whole.len(), whole.len() + 1, usize::MAX]);
    let inputs = || format!("pieces of stamps {stamps:?} levels {levels:?}");
    let end = other.dump_piece(stamps, levels, past, &mut [0; 9]);
    equal(&(0, whole.into_bytes()), &(end, handed), inputs, |(end, bytes)| {
        format!("past the end {end}, together {bytes:?}")
    })
}
