//! Captures sorted, thinned and compared: the worked lists of the proved library, and what holds of any capture.

use rehearsal_model::bus::{check_record, decode, event_samples};
use rehearsal_model::capture::{compare, sort, thin, Difference, Part};
use rehearsal_model::random::Random;
use rehearsal_model::refusal::{Reason, Refusal};

type Samples = (Vec<u32>, Vec<u8>);

/// Sorted into slices with room for one sample more, which must stay.
fn sorted(stamps: &[u32], levels: &[u8]) -> Result<Samples, Refusal> {
    let (mut out, mut out_levels) = (vec![7; stamps.len() + 1], vec![9; stamps.len() + 1]);
    sort(stamps, levels, &mut out, &mut out_levels)?;
    assert_eq!((out.pop(), out_levels.pop()), (Some(7), Some(9)));
    Ok((out, out_levels))
}

fn thinned(stamps: &[u32], levels: &[u8]) -> Result<Samples, Refusal> {
    let (mut out, mut out_levels) = (vec![7; stamps.len() + 1], vec![9; stamps.len() + 1]);
    let count = thin(stamps, levels, &mut out, &mut out_levels)?;
    assert!(
        out[count..].iter().all(|&stamp| stamp == 7) && out_levels[count..].iter().all(|&level| level == 9)
    );
    out.truncate(count);
    out_levels.truncate(count);
    Ok((out, out_levels))
}

/// Levels that often stay, as many as asked for.
fn levels(random: &mut Random, count: usize) -> Vec<u8> {
    let mut last = 3;
    (0..count)
        .map(|_| {
            if random.once_in(3) {
                last = random.below(4) as u8;
            }
            last
        })
        .collect()
}

/// Different stamps in no order.
fn shuffled(random: &mut Random, count: usize) -> Vec<u32> {
    let mut stamps: Vec<u32> = (0..count as u32).map(|place| 5 * place + random.below(5) as u32).collect();
    for place in (1..count).rev() {
        stamps.swap(place, random.below(place + 1));
    }
    stamps
}

#[test]
fn worked_captures_are_sorted() {
    assert_eq!(sorted(&[30, 10, 20], &[1, 3, 2]), Ok((vec![10, 20, 30], vec![3, 2, 1])));
    assert_eq!(sorted(&[], &[]), Ok((vec![], vec![])));
    assert_eq!(sorted(&[30, 10, 30, 10], &[0, 1, 2, 3]), Err(Reason::StampNotAbove.at(2)));
    assert_eq!(sorted(&[10, 20, 30, 10], &[0, 1, 2, 3]), Err(Reason::StampNotAbove.at(3)));
}

#[test]
fn sort_refuses_in_order() {
    let refused = |stamps: &[u32], levels: &[u8], room: usize, level_room: usize| {
        let (mut out, mut out_levels) = (vec![7; room], vec![9; level_room]);
        let refusal = sort(stamps, levels, &mut out, &mut out_levels).unwrap_err();
        assert!(out.iter().all(|&stamp| stamp == 7) && out_levels.iter().all(|&level| level == 9));
        refusal
    };
    assert_eq!(refused(&[1, 1], &[4], 0, 0), Reason::StampsAndLevelsDiffer.refusal());
    assert_eq!(refused(&[1; 4097], &[4; 4097], 0, 0), Reason::TooManySamples.refusal());
    assert_eq!(refused(&[1, 1], &[3, 4], 0, 0), Reason::Level.at(1));
    assert_eq!(refused(&[1, 1], &[3, 3], 0, 0), Reason::StampNotAbove.at(1));
    assert_eq!(refused(&[2, 1], &[3, 3], 1, 2), Reason::ShortBuffer.refusal());
    assert_eq!(refused(&[2, 1], &[3, 3], 2, 1), Reason::ShortBuffer.refusal());
}

#[test]
fn what_is_sorted_is_a_record_of_the_same_samples() {
    let mut random = Random::new(41);
    for _ in 0..300 {
        let count = random.below(60);
        let (stamps, levels) = (shuffled(&mut random, count), levels(&mut random, count));
        let (out, out_levels) = sorted(&stamps, &levels).unwrap();
        assert_eq!(check_record(&out, &out_levels), Ok(()));
        for (stamp, level) in stamps.iter().zip(&levels) {
            let place = out.iter().position(|other| other == stamp).unwrap();
            assert_eq!(out_levels[place], *level);
        }
        assert_eq!(sorted(&out, &out_levels), Ok((out, out_levels)));
    }
}

#[test]
fn worked_captures_are_thinned() {
    assert_eq!(thinned(&[10, 11, 12, 13, 14, 15], &[3, 3, 3, 1, 1, 1]), Ok((vec![10, 13], vec![3, 1])));
    assert_eq!(thinned(&[1, 2, 3, 4, 5, 6], &[0, 1, 1, 0, 0, 1]), Ok((vec![1, 2, 4, 6], vec![0, 1, 0, 1])));
    let stamps: Vec<u32> = (0..5000).collect();
    assert_eq!(thinned(&stamps, &[3; 5000]), Ok((vec![0], vec![3])));
    let alternating: Vec<u8> = (0..4097).map(|place| 3 - place % 2).map(|level| level as u8).collect();
    assert_eq!(thinned(&stamps[..4096], &alternating[..4096]).unwrap().0, stamps[..4096]);
    assert_eq!(thinned(&stamps[..4097], &alternating), Err(Reason::TooManySamples.refusal()));
}

#[test]
fn thin_refuses_in_order() {
    let refused = |stamps: &[u32], levels: &[u8], room: usize, level_room: usize| {
        let (mut out, mut out_levels) = (vec![7; room], vec![9; level_room]);
        let refusal = thin(stamps, levels, &mut out, &mut out_levels).unwrap_err();
        assert!(out.iter().all(|&stamp| stamp == 7) && out_levels.iter().all(|&level| level == 9));
        refusal
    };
    assert_eq!(refused(&[1, 1], &[4], 0, 0), Reason::StampsAndLevelsDiffer.refusal());
    assert_eq!(refused(&[1, 1], &[3, 4], 0, 0), Reason::Level.at(1));
    assert_eq!(refused(&[1, 1], &[3, 3], 0, 0), Reason::StampNotAbove.at(1));
    assert_eq!(refused(&[1, 2], &[3, 2], 1, 2), Reason::ShortBuffer.refusal());
    assert_eq!(refused(&[1, 2], &[3, 2], 2, 1), Reason::ShortBuffer.refusal());
}

#[test]
fn thinning_changes_no_event() {
    let mut random = Random::new(43);
    for _ in 0..300 {
        let levels = levels(&mut random, 1500);
        let stamps: Vec<u32> = (0..1500).collect();
        let (out, out_levels) = thinned(&stamps, &levels).unwrap();
        let (mut whole, mut left) = (vec![0; 1500], vec![0; 1500]);
        assert_eq!(decode(&out, &out_levels, &mut left), decode(&stamps, &levels, &mut whole));
        assert_eq!(left, whole);
        let stamps_of = |stamps: &[u32], levels: &[u8]| -> Vec<u32> {
            event_samples(levels).into_iter().map(|sample| stamps[sample]).collect()
        };
        assert_eq!(stamps_of(&out, &out_levels), stamps_of(&stamps, &levels));
    }
}

#[test]
fn worked_lists_are_compared() {
    let message = [512, 0x90, 0x12, 514];
    let at = |index, byte, part| Some(Difference { index, byte, part });
    assert_eq!(compare(&message, &message), None);
    assert_eq!(compare(&[], &[]), None);
    assert_eq!(compare(&message, &[512, 0x90, 0x0F, 514]), at(2, 1, Part::Bit(4)));
    assert_eq!(compare(&message, &[512, 0x90, 0x112, 514]), at(2, 1, Part::Acknowledge));
    assert_eq!(compare(&message, &[512, 0x90, 514]), at(2, 1, Part::Other));
    assert_eq!(compare(&[512, 0xFF], &[512, 0x17F]), at(1, 0, Part::Bit(7)));
    assert_eq!(compare(&message, &[512, 0x90]), at(2, 1, Part::Other));
    assert_eq!(compare(&[], &message), at(0, 0, Part::Other));
    assert_eq!(compare(&[512, 2, 513, 4, 514], &[512, 2, 513, 5, 514]), at(3, 1, Part::Bit(0)));
    assert_eq!(compare(&[512, 2, 514, 512, 4], &[512, 2, 514, 512, 5]), at(4, 0, Part::Bit(0)));
}

#[test]
fn a_changed_event_is_the_difference() {
    let mut random = Random::new(47);
    for _ in 0..500 {
        let count = 1 + random.below(40);
        let rehearsed: Vec<u16> = (0..count).map(|_| random.below(516) as u16).collect();
        assert_eq!(compare(&rehearsed, &rehearsed), None);
        let (index, bit) = (random.below(count), random.below(9) as u16);
        let mut seen = rehearsed.clone();
        seen[index] ^= 1 << bit;
        let found = compare(&rehearsed, &seen).unwrap();
        assert_eq!(found.index, index);
        if rehearsed[index] < 512 && seen[index] < 512 {
            let part = if bit == 8 { Part::Acknowledge } else { Part::Bit(bit as u8) };
            assert_eq!(found.part, part);
        }
    }
}
