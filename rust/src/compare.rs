//! The comparison of another implementation with the model on random inputs.
//!
//! Case `i` of seed `s` is case 0 of seed `s + i`, so that any one case is repeated by its seed with count 1.

use crate::packed::Interface;
use crate::random::Random;
use std::collections::BTreeMap;

pub mod arbitration;
pub mod catalogue;
pub mod dump;
pub mod dump_reader;
pub mod lists;
pub mod night;
pub mod phases;
pub mod traces;
pub mod usi;

/// The first inputs on which the two sides differ.
#[derive(Debug)]
pub struct Difference {
    pub inputs: String,
    pub model: String,
    pub other: String,
}

/// How often each kind of input and of answer occurred.
#[derive(Clone, Default)]
pub struct Counts(BTreeMap<String, usize>);

/// One case: draws inputs, asks both sides, counts what occurred.
pub type Case = fn(&dyn Interface, &mut Random, &mut Counts) -> Result<(), Difference>;

/// A comparison: the program's word for it, what it counts, and how many cases it takes by default.
#[derive(Clone, Copy)]
pub struct Comparison {
    pub word: &'static str,
    pub cases: &'static str,
    pub count: u64,
    pub case: Case,
}

pub const COMPARISONS: [Comparison; 9] = [
    Comparison { word: "usi", cases: "step sequences", count: 200_000, case: usi::case },
    Comparison { word: "bus", cases: "traces", count: 100_000, case: traces::case },
    Comparison { word: "bus", cases: "timed traces", count: 100_000, case: phases::case },
    Comparison { word: "bus", cases: "dumps", count: 50_000, case: dump::case },
    Comparison { word: "bus", cases: "dump texts", count: 200_000, case: dump_reader::case },
    Comparison { word: "bus", cases: "lists", count: 100_000, case: lists::case },
    Comparison { word: "arbitration", cases: "arbitrations", count: 100_000, case: arbitration::case },
    Comparison { word: "night", cases: "nights", count: 50_000, case: night::case },
    Comparison { word: "catalogue", cases: "catalogues", count: 100_000, case: catalogue::case },
];

impl Counts {
    pub fn add(&mut self, kind: impl Into<String>) {
        *self.0.entry(kind.into()).or_default() += 1;
    }

    pub fn merge(&mut self, other: Counts) {
        for (kind, count) in other.0 {
            *self.0.entry(kind).or_default() += count;
        }
    }

    pub fn get(&self, kind: &str) -> usize {
        self.0.get(kind).copied().unwrap_or_default()
    }

    pub fn lines(&self) -> String {
        self.0.iter().map(|(kind, count)| format!("  {count:>9} {kind}\n")).collect()
    }
}

/// Runs `count` cases; at the first difference gives it with the seed that repeats it.
pub fn run(
    comparison: &Comparison,
    other: &dyn Interface,
    seed: u64,
    count: u64,
) -> Result<Counts, (u64, Difference)> {
    let mut counts = Counts::default();
    for index in 0..count {
        let seed = seed.wrapping_add(index);
        (comparison.case)(other, &mut Random::new(seed), &mut counts)
            .map_err(|difference| (seed, difference))?;
    }
    Ok(counts)
}

/// The answers of both sides must be equal; the inputs are only put into words when they are not.
fn equal<Answer: PartialEq>(
    model: &Answer,
    other: &Answer,
    inputs: impl Fn() -> String,
    words: impl Fn(&Answer) -> String,
) -> Result<(), Difference> {
    if model == other {
        return Ok(());
    }
    Err(Difference { inputs: inputs(), model: words(model), other: words(other) })
}
