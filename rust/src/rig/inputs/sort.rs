//! Files for `rig sort`: captures that came in packets, most of which crossed on the way.

use super::decode::{draw_stamps, lines, written};
use crate::bus::SAMPLES;
use crate::random::Random;

/// A stamp and a level.
type Sample = (u64, u64);

/// A capture in packets; now and then any file for `rig decode`.
pub fn text(random: &mut Random) -> Vec<u8> {
    if random.once_in(8) {
        return lines(random);
    }
    packets(random)
}

/// A capture in packets, of one sample or of up to half of them all, in one case of eight in order; now and then with
/// a stamp twice.
pub fn packets(random: &mut Random) -> Vec<u8> {
    let samples = draw_samples(random);
    let size = random.pick(&[1, 2, 3, 7, 16, 16, 64, 1000]).min((samples.len() / 2).max(1));
    let mut packets: Vec<Vec<Sample>> = samples.chunks(size).map(<[Sample]>::to_vec).collect();
    if !packets.is_empty() && random.once_in(12) {
        send_again(random, &mut packets);
    }
    if !packets.is_empty() && !random.once_in(8) {
        cross(random, &mut packets);
    }
    let mut samples = packets.concat();
    if samples.len() > 1 && random.once_in(12) {
        let (one, other) = (random.below(samples.len()), random.below(samples.len()));
        samples[one].0 = samples[other].0;
    }
    written(random, &samples)
}

/// Samples with any levels, now and then hardly any, or about as many as there may be.
fn draw_samples(random: &mut Random) -> Vec<Sample> {
    let length = match random.below(16) {
        0 => random.below(4),
        1 => random.pick(&[SAMPLES - 1, SAMPLES, SAMPLES, SAMPLES + 1, SAMPLES + 400]),
        _ => random.between(4, 300),
    };
    let stamps = draw_stamps(random, length);
    stamps.into_iter().map(|stamp| (stamp, random.below(4) as u64)).collect()
}

/// A packet that came twice, whole or in part.
fn send_again(random: &mut Random, packets: &mut Vec<Vec<Sample>>) {
    let mut packet = packets[random.below(packets.len())].clone();
    if random.once_in(2) {
        packet.truncate(random.between(1, packet.len()));
    }
    packets.insert(random.below(packets.len() + 1), packet);
}

/// Two neighbours or more change places, one packet comes late or early, or they come in any order.
fn cross(random: &mut Random, packets: &mut [Vec<Sample>]) {
    let place = |random: &mut Random| random.below(packets.len());
    let (one, other) = (place(random), place(random));
    let (first, last) = (one.min(other), one.max(other));
    match random.below(8) {
        0..=2 => packets.swap(one, (one + 1) % packets.len()),
        3 => packets.swap(one, other),
        4 => packets[first..=last].rotate_left(1),
        5 => packets[first..=last].rotate_right(1),
        6 => packets.reverse(),
        _ => (1..packets.len()).for_each(|index| packets.swap(index, random.below(index + 1))),
    }
}
