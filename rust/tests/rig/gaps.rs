//! Which gaps between stamps are far above the usual one.

use rehearsal_model::rig::gaps::Gaps;

fn long(stamps: &[u32]) -> Vec<Option<u64>> {
    let gaps = Gaps::new(stamps, &vec![true; stamps.len()]);
    (0..stamps.len()).map(|sample| gaps.long(sample)).collect()
}

#[test]
fn a_lost_packet_is_seventeen_times_the_usual() {
    let mut stamps: Vec<u32> = (0..50).map(|index| 50 * index).collect();
    stamps.iter_mut().skip(33).for_each(|stamp| *stamp += 800);
    let found = long(&stamps);
    assert_eq!(found.iter().flatten().count(), 1);
    assert_eq!(found[33], Some(17));
}

#[test]
fn four_times_the_usual_is_not_long() {
    let with_last = |gap: u32| {
        let mut stamps: Vec<u32> = (0..1000).map(|index| 50 * index).collect();
        stamps.push(stamps[999] + gap);
        long(&stamps)[1000]
    };
    assert_eq!(with_last(200), None);
    assert_eq!(with_last(201), Some(4));
}

#[test]
fn few_or_none() {
    assert_eq!(long(&[]), []);
    assert_eq!(long(&[7]), [None]);
    assert_eq!(long(&[0, 4_294_967_295]), [None, None]);
}

#[test]
fn outside_frames_the_bus_may_rest() {
    let gaps = Gaps::new(&[0, 50, 100, 100_000, 100_050], &[true, true, false, true, true]);
    assert_eq!(gaps.long_count(), 0);
}
