//! P7, the run list of reader and writer, and the way back from a drawing to its list.

use rehearsal_model::bus::{complete, decode, drawing, encode, sample_count, Decoded};
use rehearsal_model::compare::lists::complete_list;
use rehearsal_model::phases::{decode_in, Mode};
use rehearsal_model::random::Random;
use rehearsal_model::refusal::{Reason, Refusal};

const P7: [u8; 23] = [3, 1, 2, 3, 0, 1, 2, 3, 0, 1, 0, 1, 0, 1, 0, 1, 0, 1, 0, 1, 0, 1, 3];

fn read(levels: &[u8]) -> Result<(Decoded, Vec<u16>), Refusal> {
    let stamps: Vec<u32> = (0..levels.len() as u32).collect();
    let mut events = vec![0xFFFF; levels.len()];
    let decoded = decode(&stamps, levels, &mut events)?;
    assert!(events[decoded.count..].iter().all(|&event| event == 0xFFFF));
    events.truncate(decoded.count);
    Ok((decoded, events))
}

fn draw(events: &[u16], start: u32, gap: u32) -> Result<(Vec<u32>, Vec<u8>), Refusal> {
    let (mut stamps, mut levels) = (vec![0; 4200], vec![0; 4200]);
    let count = encode(events, start, gap, &mut stamps, &mut levels)?;
    Ok((stamps[..count].to_vec(), levels[..count].to_vec()))
}

/// A list of `frames` frames and `bytes` bytes, `repeated` repeated STARTs among them.
fn list(frames: usize, bytes: usize, repeated: usize) -> Vec<u16> {
    let mut events = vec![512];
    events.extend(vec![0xA5; bytes - frames + 1 - repeated]);
    events.extend([513, 0x5A].repeat(repeated));
    events.extend([514, 512, 0x13C].repeat(frames - 1));
    events.push(514);
    events
}

#[test]
fn p7_is_drawn_and_read() {
    let (stamps, levels) = draw(&[512, 0xA0, 514], 100, 10).unwrap();
    assert_eq!(levels, P7);
    assert_eq!(stamps, (0..23).map(|index| 100 + 10 * index).collect::<Vec<u32>>());
    assert_eq!(read(&P7).unwrap().1, [512, 0xA0, 514]);
}

#[test]
fn empty_record_and_empty_list() {
    assert_eq!(read(&[]).unwrap(), (Decoded { count: 0, open: false, pending: 0, value: 0 }, vec![]));
    assert_eq!(draw(&[], 4_294_967_295, 1).unwrap(), (vec![4_294_967_295], vec![3]));
}

#[test]
fn at_most_4096_samples() {
    assert!(read(&[3; 4096]).is_ok());
    assert_eq!(read(&[3; 4097]), Err(Reason::TooManySamples.refusal()));
    for (frames, bytes, repeated) in [(6, 226, 1), (9, 225, 3)] {
        assert_eq!(draw(&list(frames, bytes, repeated), 0, 1).unwrap().1.len(), 4096);
    }
    assert_eq!(draw(&list(7, 226, 0), 0, 1), Err(Reason::TooManySamples.refusal()));
}

#[test]
fn stamps_must_rise_and_levels_be_levels() {
    let mut events = [0; 4];
    assert_eq!(decode(&[5, 6, 6], &[3; 3], &mut events), Err(Reason::StampNotAbove.at(2)));
    assert_eq!(decode(&[5, 5, 6], &[3, 3, 9], &mut events), Err(Reason::Level.at(2)));
    let differ = Err(Reason::StampsAndLevelsDiffer.refusal());
    assert_eq!(decode(&[5, 5], &[3; 5000], &mut events), differ);
}

#[test]
fn gap_of_1000_and_1001() {
    assert_eq!(draw(&[512, 0, 514], 0, 1000).unwrap().0[22], 22_000);
    for gap in [0, 1001, u32::MAX] {
        assert_eq!(draw(&[512, 0, 514], 0, gap), Err(Reason::Gap.refusal()));
    }
}

#[test]
fn last_stamp_and_buffers() {
    assert_eq!(draw(&[512, 0, 514], u32::MAX - 22, 1).unwrap().0[22], u32::MAX);
    assert_eq!(draw(&[512, 0, 514], u32::MAX - 21, 1), Err(Reason::LastStamp.refusal()));
    for (stamps, levels) in [(22, 23), (23, 22)] {
        let short = encode(&[512, 0, 514], 0, 1, &mut vec![0; stamps], &mut vec![0; levels]);
        assert_eq!(short, Err(Reason::ShortBuffer.refusal()));
    }
}

#[test]
fn conditions_inside_a_byte() {
    assert_eq!(read(&[3, 1, 2, 3, 2, 3, 1, 0, 1, 3]).unwrap().1, [512, 515, 513, 514]);
    assert_eq!(read(&[3, 1, 3]).unwrap().1, [512, 514]);
    assert!(!complete(&[512, 514]));
    let (decoded, events) = read(&[3, 1, 2, 3, 0, 1, 2]).unwrap();
    assert_eq!((decoded.open, decoded.pending, decoded.value, events), (true, 2, 2, vec![512]));
}

#[test]
fn every_drawing_is_read_back() {
    let mut random = Random::new(3);
    for _ in 0..2000 {
        let list = complete_list(&mut random);
        assert!(complete(&list));
        let levels = drawing(&list);
        assert_eq!(levels.len(), sample_count(&list));
        let (decoded, events) = read(&levels).unwrap();
        assert_eq!((decoded.open, decoded.pending, events), (false, 0, list));
    }
}

#[test]
fn phases_at_the_limits() {
    let read = |mode, stamps: &[u32]| decode_in(mode, stamps, &[3, 1, 0, 1, 0, 1, 3], &mut [0; 7]);
    assert!(read(Mode::Standard, &[0, 1, 2, 49, 89, 136, 137]).is_ok());
    assert_eq!(read(Mode::Standard, &[0, 1, 2, 48, 89, 136, 137]), Err(Reason::ShortPhase.at(3)));
    assert_eq!(read(Mode::Standard, &[0, 1, 2, 49, 88, 136, 137]), Err(Reason::ShortPhase.at(4)));
    assert!(read(Mode::Fast, &[0, 1, 2, 15, 21, 34, 35]).is_ok());
    assert_eq!(read(Mode::Fast, &[0, 1, 2, 14, 21, 34, 35]), Err(Reason::ShortPhase.at(3)));
    assert_eq!(read(Mode::Fast, &[0, 1, 2, 15, 20, 34, 34]), Err(Reason::StampNotAbove.at(6)));
    assert!(read(Mode::Unchecked, &[0, 1, 2, 3, 4, 5, 6]).is_ok());
}

#[test]
fn drawings_with_wide_gaps_are_read_in_the_strict_modes() {
    let mut random = Random::new(9);
    for (mode, wide) in [(Mode::Standard, 47), (Mode::Fast, 13)] {
        for _ in 0..200 {
            let list = complete_list(&mut random);
            let mut events = vec![0; list.len()];
            let (stamps, levels) = draw(&list, 5, wide).unwrap();
            assert!(decode_in(mode, &stamps, &levels, &mut events).is_ok());
            assert_eq!(events, list);
            let (stamps, levels) = draw(&list, 5, wide - 1).unwrap();
            let refused = decode_in(mode, &stamps, &levels, &mut events).err();
            assert_eq!(refused, (!list.is_empty()).then_some(Reason::ShortPhase.at(3)));
        }
    }
}
