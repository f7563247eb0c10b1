//! What `rig decode --thin` prints of these frames, with samples that change nothing, gaps and an end that may be cut.

use super::frames::Levels;
use super::printed;
use crate::random::Random;

/// A stamp and a level.
type Sample = (u64, u8);

/// All that is printed; in one case of twelve the capture is a Value Change Dump.
pub fn text(random: &mut Random, frames: &[Levels]) -> Vec<u8> {
    let samples = samples(random, frames);
    let mut trace: Vec<u8> =
        samples.iter().flat_map(|(stamp, level)| format!("{stamp} {level}\n").into_bytes()).collect();
    if random.once_in(12) {
        let dump = printed(&["dump", "-"], &trace);
        let end = dump.strip_suffix(b"\n").unwrap_or(&dump).iter().rposition(|&byte| byte == b'\n');
        trace = dump[..end.map_or(0, |newline| newline + 1)].to_vec();
    }
    printed(&["decode", "-", "--thin"], &trace)
}

/// The samples of the frames, with stamps.
fn samples(random: &mut Random, frames: &[Levels]) -> Vec<Sample> {
    let gap = random.pick(&[1, 50, 50, 100]);
    let twice = if random.once_in(3) { random.pick(&[2, 5]) } else { 0 };
    let lost = if random.once_in(5) { 60 } else { 0 };
    let mut stamp = random.pick(&[0, 0, 7, 4_200_000_000]);
    let mut samples = vec![(stamp, 3)];
    for frame in frames {
        stamp += gap * random.pick(&[0, 0, 1, 40, 1000]);
        for &level in frame {
            if lost > 0 && random.once_in(lost) {
                stamp += gap * random.pick(&[5, 16, 100]);
            }
            stamp += gap;
            samples.push((stamp, level));
            if twice > 0 && random.once_in(twice) {
                stamp += gap;
                samples.push((stamp, level));
            }
        }
    }
    if random.once_in(10) {
        samples.truncate(random.below(samples.len() + 1));
    }
    samples
}
