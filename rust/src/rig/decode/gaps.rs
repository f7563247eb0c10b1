//! Gaps between stamps inside frames, and which of them are far above the usual one.

/// How many times the usual gap one may be before it is long.
const TIMES: u64 = 4;

pub struct Gaps {
    /// For each sample the gap before it, if a frame is open there.
    inside: Vec<Option<u64>>,
    /// 0 if there is none.
    usual: u64,
}

impl Gaps {
    /// `open_after` says for each sample whether a frame is open after it.
    pub fn new(stamps: &[u32], open_after: &[bool]) -> Gaps {
        let mut inside = vec![None; stamps.len()];
        for sample in 1..stamps.len() {
            if open_after[sample - 1] {
                inside[sample] = Some(u64::from(stamps[sample] - stamps[sample - 1]));
            }
        }
        let usual = usual(&inside.iter().flatten().copied().collect::<Vec<_>>());
        Gaps { inside, usual }
    }

    /// Of so many samples, none of whose gaps is judged.
    pub fn unjudged(samples: usize) -> Gaps {
        Gaps { inside: vec![None; samples], usual: 0 }
    }

    /// How many times the usual gap the one before this sample is, if it is long.
    pub fn long(&self, sample: usize) -> Option<u64> {
        self.inside[sample].filter(|&gap| gap > TIMES * self.usual).map(|gap| gap / self.usual)
    }

    pub fn long_count(&self) -> usize {
        (0..self.inside.len()).filter(|&sample| self.long(sample).is_some()).count()
    }
}

/// The average of the gaps that are not above four times the average of all.
fn usual(gaps: &[u64]) -> u64 {
    let Some(first) = (TIMES * gaps.iter().sum::<u64>()).checked_div(gaps.len() as u64) else { return 0 };
    let kept: Vec<u64> = gaps.iter().copied().filter(|&gap| gap <= first).collect();
    kept.iter().sum::<u64>() / kept.len() as u64
}
