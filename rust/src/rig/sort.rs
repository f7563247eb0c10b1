//! `rig sort`: a record of stamps and levels in, its samples in the order of the stamps out.

use super::decode::{crossed, Record};
use super::files::Contents;
use super::refusals;
use super::text::counted;
use crate::bus::check_samples;
use crate::refusal::Reason;
use std::collections::BTreeMap;

pub fn sorted(contents: &Contents) -> String {
    let lines = Record::read(contents).and_then(|record| in_order(&record));
    lines.unwrap_or_else(|line| line + "\n")
}

/// The samples by their stamps and the last line, or the one line where there is nothing else.
fn in_order(record: &Record) -> Result<String, String> {
    check_samples(&record.stamps, &record.levels).map_err(|refusal| record.refused(refusal))?;
    let mut text = String::new();
    for (stamp, sample) in by_stamp(record)? {
        text += &format!("{stamp} {}\n", record.levels[sample]);
    }
    Ok(text + &summary(&record.stamps) + "\n")
}

/// The sample of each stamp, in the order of the stamps; refused by 7 where a second one has it.
fn by_stamp(record: &Record) -> Result<BTreeMap<u32, usize>, String> {
    let mut samples = BTreeMap::new();
    for (sample, &stamp) in record.stamps.iter().enumerate() {
        if let Some(first) = samples.insert(stamp, sample) {
            let words = crossed::same(record.lines[first]);
            return Err(refusals::in_words(Reason::StampNotAbove.at(sample), &record.lines, &words));
        }
    }
    Ok(samples)
}

/// How many samples there are, and how many of them do not stand after a smaller stamp.
fn summary(stamps: &[u32]) -> String {
    let samples = counted(stamps.len(), "sample");
    let late = stamps.windows(2).filter(|pair| pair[1] <= pair[0]).count();
    match (stamps.len(), late) {
        (0, _) => format!("look {samples}"),
        (_, 0) => format!("ok {samples}, all in order"),
        _ => format!("ok {samples}, {late} out of order"),
    }
}
