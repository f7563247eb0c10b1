//! The reader and the writer of bus records: levels with stamps on one side, lists of events on the other.

use crate::refusal::{Reason, Refusal};

/// The most samples a record may have.
pub const SAMPLES: usize = 4096;
/// The widest gap between two stamps.
pub const GAP: u32 = 1000;

/// START in no open frame.
pub const START: u16 = 512;
/// START in an open frame.
pub const REPEATED_START: u16 = 513;
/// STOP of an open frame.
pub const STOP: u16 = 514;
/// One to eight bits were dropped by the START or STOP that follows.
pub const CUT: u16 = 515;

/// What the reader replies; the events themselves are in the lent slice.
#[derive(Clone, Copy, PartialEq, Eq, Debug)]
pub struct Decoded {
    pub count: usize,
    pub open: bool,
    pub pending: u8,
    pub value: u8,
}

/// Reads a record into the lent slice `events`, whose rest stays. Refusals 5, 6, 4, 7, 8.
pub fn decode(stamps: &[u32], levels: &[u8], events: &mut [u16]) -> Result<Decoded, Refusal> {
    check_record(stamps, levels)?;
    let mut reader = Reader::default();
    for pair in levels.windows(2) {
        reader.sample(pair[0], pair[1]);
    }
    let count = reader.events.len();
    if events.len() < count {
        return Err(Reason::ShortBuffer.refusal());
    }
    events[..count].copy_from_slice(&reader.events);
    Ok(Decoded { count, open: reader.open, pending: reader.pending, value: reader.value as u8 })
}

/// For each event of a record, in order, the number of the sample that lists it.
pub fn event_samples(levels: &[u8]) -> Vec<usize> {
    let mut reader = Reader::default();
    let mut samples = Vec::new();
    for now in 1..levels.len() {
        reader.sample(levels[now - 1], levels[now]);
        samples.resize(reader.events.len(), now);
    }
    samples
}

/// For each sample of a record whether a frame is open after it.
pub fn frame_open_after(levels: &[u8]) -> Vec<bool> {
    let mut reader = Reader::default();
    let mut open = vec![false; levels.len()];
    for now in 1..levels.len() {
        reader.sample(levels[now - 1], levels[now]);
        open[now] = reader.open;
    }
    open
}

/// Refusals 5, 6, 4, 7, each looked for in the whole record before the next.
pub fn check_record(stamps: &[u32], levels: &[u8]) -> Result<(), Refusal> {
    check_samples(stamps, levels)?;
    if let Some(before) = stamps.windows(2).position(|pair| pair[1] <= pair[0]) {
        return Err(Reason::StampNotAbove.at(before + 1));
    }
    Ok(())
}

/// Those of them that do not ask in what order the samples stand: 5, 6, 4.
pub fn check_samples(stamps: &[u32], levels: &[u8]) -> Result<(), Refusal> {
    if stamps.len() != levels.len() {
        return Err(Reason::StampsAndLevelsDiffer.refusal());
    }
    if levels.len() > SAMPLES {
        return Err(Reason::TooManySamples.refusal());
    }
    if let Some(place) = levels.iter().position(|&level| level > 3) {
        return Err(Reason::Level.at(place));
    }
    Ok(())
}

/// The reader between two samples.
#[derive(Default)]
struct Reader {
    events: Vec<u16>,
    open: bool,
    pending: u8,
    value: u16,
    /// A START or STOP fell in this high phase of SCL, so that it holds no bit.
    marked: bool,
}

impl Reader {
    fn sample(&mut self, before: u8, now: u8) {
        let (sda_before, sda_now) = (before & 2 == 2, now & 2 == 2);
        match (before & 1, now & 1) {
            (1, 1) if sda_before && !sda_now => self.start(),
            (1, 1) if !sda_before && sda_now => self.stop(),
            (1, 0) => self.scl_falls(sda_before),
            _ => {}
        }
    }

    fn start(&mut self) {
        self.marked = true;
        if self.open {
            self.drop_pending();
            self.events.push(REPEATED_START);
        } else {
            self.events.push(START);
            self.open = true;
        }
    }

    fn stop(&mut self) {
        self.marked = true;
        if self.open {
            self.drop_pending();
            self.events.push(STOP);
            self.open = false;
        }
    }

    fn drop_pending(&mut self) {
        if self.pending > 0 {
            self.events.push(CUT);
        }
        self.pending = 0;
        self.value = 0;
    }

    /// A bit is taken when SCL falls, with the SDA of the sample before.
    fn scl_falls(&mut self, sda: bool) {
        if self.open && !self.marked {
            self.bit(u16::from(sda));
        }
        self.marked = false;
    }

    /// Nine bits make an entry: the data byte, plus 256 if the ninth was high.
    fn bit(&mut self, bit: u16) {
        if self.pending < 8 {
            self.value = self.value * 2 + bit;
            self.pending += 1;
        } else {
            self.events.push(self.value + 256 * bit);
            self.value = 0;
            self.pending = 0;
        }
    }
}

/// Draws a list into the two lent slices, whose rest stays; replies the sample count. Refusals 9, 10, 6, 11, 8.
pub fn encode(
    events: &[u16],
    start: u32,
    gap: u32,
    stamps: &mut [u32],
    levels: &mut [u8],
) -> Result<usize, Refusal> {
    if !complete(events) {
        return Err(Reason::IncompleteList.refusal());
    }
    if gap == 0 || gap > GAP {
        return Err(Reason::Gap.refusal());
    }
    let count = sample_count(events);
    if count > SAMPLES {
        return Err(Reason::TooManySamples.refusal());
    }
    let last = u64::from(start) + u64::from(gap) * (count as u64 - 1);
    if last > u64::from(u32::MAX) {
        return Err(Reason::LastStamp.refusal());
    }
    if stamps.len() < count || levels.len() < count {
        return Err(Reason::ShortBuffer.refusal());
    }
    levels[..count].copy_from_slice(&drawing(events));
    for (index, stamp) in stamps[..count].iter_mut().enumerate() {
        *stamp = start + gap * index as u32;
    }
    Ok(count)
}

/// A complete list: frames of 512, bytes, any number of (513, bytes), 514; at least one byte each time.
pub fn complete(events: &[u16]) -> bool {
    #[derive(PartialEq)]
    enum Last {
        Nothing,
        Condition,
        Byte,
    }
    let mut last = Last::Nothing;
    for &event in events {
        last = match (last, event) {
            (Last::Nothing, START) => Last::Condition,
            (Last::Condition | Last::Byte, 0..=511) => Last::Byte,
            (Last::Byte, REPEATED_START) => Last::Condition,
            (Last::Byte, STOP) => Last::Nothing,
            _ => return false,
        };
    }
    last == Last::Nothing
}

/// 1 + 4f + 18n + 3r, for a complete list.
pub fn sample_count(events: &[u16]) -> usize {
    let samples = |event: &u16| match *event {
        START => 4,
        REPEATED_START => 3,
        STOP => 0,
        _ => 18,
    };
    1 + events.iter().map(samples).sum::<usize>()
}

/// The levels of a complete list: 3 first; START 1; a bit 2b, 2b+1; repeated START 2, 3, 1; STOP 0, 1, 3.
pub fn drawing(events: &[u16]) -> Vec<u8> {
    let mut levels = vec![3];
    for &event in events {
        match event {
            START => levels.push(1),
            REPEATED_START => levels.extend([2, 3, 1]),
            STOP => levels.extend([0, 1, 3]),
            entry => levels.extend(entry_bits(entry).flat_map(|bit| [2 * bit, 2 * bit + 1])),
        }
    }
    levels
}

/// The nine bits of an entry: eight data bits, most significant first, then the ninth.
fn entry_bits(entry: u16) -> impl Iterator<Item = u8> {
    [7, 6, 5, 4, 3, 2, 1, 0, 8].into_iter().map(move |bit| (entry >> bit & 1) as u8)
}
