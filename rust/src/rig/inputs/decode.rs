//! Files for `rig decode`.

use super::page::Page;
use crate::bus::{drawing, SAMPLES};
use crate::compare::lists::{complete_list, long_list};
use crate::random::Random;

/// The most samples that are read to be thinned.
const THICK_SAMPLES: usize = 65_536;

/// A record in lines, or in one case of three a Value Change Dump.
pub fn text(random: &mut Random) -> Vec<u8> {
    if random.once_in(3) {
        return super::dump::text(random);
    }
    lines(random)
}

/// A record in lines: the drawing of a list, whole or spoilt, or any levels; now and then in packets that crossed, or
/// a file of another kind.
pub fn lines(random: &mut Random) -> Vec<u8> {
    match random.below(40) {
        0 => return super::encode::words(random),
        1 => return super::dump::text(random),
        2..=6 => return super::sort::packets(random),
        _ => {}
    }
    let levels = draw_levels(random);
    let stamps = draw_stamps(random, levels.len());
    written(random, &stamps.into_iter().zip(levels).collect::<Vec<_>>())
}

/// A line for each sample, a stamp and a level, but for a few that are spoilt.
pub fn written(random: &mut Random, samples: &[(u64, u64)]) -> Vec<u8> {
    let mut page = Page::new(random);
    let spoiling = page.random.pick(&[2, 40, 100_000]) * (samples.len() + 1);
    for &(stamp, level) in samples {
        if page.random.once_in(spoiling) {
            spoilt_line(&mut page, stamp, level);
        } else {
            let words = [page.decimal(stamp), page.decimal(level)];
            page.line(&words);
        }
    }
    if page.random.once_in(3) {
        page.line(&["ok", "23", "samples"]);
    }
    page.finish()
}

pub fn draw_levels(random: &mut Random) -> Vec<u64> {
    let mut levels = match random.below(32) {
        0 if random.once_in(2) => drawing(&long_list(random)),
        0 => thick(random),
        1 => vec![3; SAMPLES + random.below(4) - 1],
        2 => (0..SAMPLES + 1).map(|index| [3, 1, 0, 1][index % 4]).collect(),
        3..=9 => walk(random),
        _ => drawing(&complete_list(random)),
    };
    match random.below(4) {
        0 => levels.truncate(random.below(levels.len() + 1)),
        1 => spoil(random, &mut levels),
        _ => {}
    }
    levels.into_iter().map(u64::from).collect()
}

/// Levels most of which change nothing, more than a record may have; now and then about as many as may be thinned, or
/// more than a record may have even when they are thinned.
fn thick(random: &mut Random) -> Vec<u8> {
    let thin = match random.below(16) {
        0..=1 => (0..SAMPLES + random.below(4) - 1).map(|index| [3, 1, 0, 1][index % 4]).collect(),
        _ => drawing(&complete_list(random)),
    };
    let count = match random.below(4) {
        0 => THICK_SAMPLES + random.pick(&[0, 0, 1]),
        _ => SAMPLES + random.between(1, 400),
    };
    let count = count.max(thin.len());
    (0..count).map(|index| thin[index * thin.len() / count]).collect()
}

/// Levels that change one line at a time, mostly.
fn walk(random: &mut Random) -> Vec<u8> {
    let mut level = random.below(4) as u8;
    let mut levels = Vec::new();
    for _ in 0..random.between(1, 300) {
        level ^= random.pick(&[1, 1, 1, 1, 2, 2, 0, 3]);
        levels.push(level);
    }
    levels
}

/// A few levels lost, doubled or changed, so that bytes are cut and frames left open.
fn spoil(random: &mut Random, levels: &mut Vec<u8>) {
    for _ in 0..random.between(1, 4) {
        let place = random.below(levels.len());
        match random.below(4) {
            0 if levels.len() > 1 => drop(levels.remove(place)),
            1 => levels.insert(place, levels[place]),
            2 => levels.insert(place, random.below(4) as u8),
            _ => levels[place] = random.below(4) as u8,
        }
    }
}

/// Rising stamps; now and then one that does not rise, or that end close to 2^32.
pub fn draw_stamps(random: &mut Random, count: usize) -> Vec<u64> {
    let widest = random.pick(&[1, 6, 12, 13, 40, 46, 47, 50, 1000, 1_000_000]);
    let even = random.once_in(2);
    let mut stamp = random.pick(&[0, 0, 0, 7, 4_294_000_000]);
    let mut stamps = Vec::new();
    for _ in 0..count {
        stamps.push(stamp);
        stamp += if even { widest } else { random.between(1, widest as usize) as u64 };
    }
    if count > 1 && random.once_in(3) {
        lose_packets(random, &mut stamps, widest);
    }
    if count > 1 && random.once_in(8) {
        let place = random.between(1, count - 1);
        stamps[place] = random.pick(&[stamps[place - 1], 0, stamps[place] - 1, 4_294_967_295]);
    }
    stamps
}

/// The stamps go up by more than usual in a few places, by little or by far.
fn lose_packets(random: &mut Random, stamps: &mut [u64], widest: u64) {
    for _ in 0..random.between(1, 3) {
        let place = random.between(1, stamps.len() - 1);
        let lost = widest * random.pick(&[1, 2, 3, 4, 5, 16, 1000]) + random.below(3) as u64;
        stamps[place..].iter_mut().for_each(|stamp| *stamp += lost);
    }
}

fn spoilt_line(page: &mut Page, stamp: u64, level: u64) {
    let (stamp, level) = (stamp.to_string(), level.to_string());
    match page.random.below(8) {
        0..=1 => page.line(&[stamp]),
        2..=3 => {
            let level =
                page.random.pick(&["4", "7", "255", "256", "99999999999999999999", "0x1", "-1", "3."]);
            page.line(&[&stamp[..], level]);
        }
        4 => page.line(&[&stamp, &level, &level]),
        5 => {
            let wrong =
                page.random.pick(&["4294967295", "4294967296", "99999999999999999999", "5:", "OK", "+5"]);
            page.line(&[wrong, &level]);
        }
        6 => page.line(&["ok"]),
        _ => page.line(&["4294967296", "256"]),
    }
}
