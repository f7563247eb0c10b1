//! A Value Change Dump in the place of a record in lines: known by its content, and read by the dump reader.

use super::gaps::Gaps;
use super::Record;
use crate::bus::SAMPLES;
use crate::dump_reader::{self, LONGEST};
use crate::phases::Mode;
use crate::rig::arguments::Options;
use crate::rig::files::Contents;
use crate::rig::refusals;
use crate::rig::text::{bytes_of, is_parting};

/// A dump begins within so many bytes, one more than a dump may have.
const BEGINNING: usize = LONGEST + 1;

/// The femtoseconds that the strict modes ask a stamp to count.
const STRICT: u64 = 100_000_000;

/// Whether the first byte that is no blank is `$`.
pub fn is_dump(text: &str) -> bool {
    text.chars().take(BEGINNING).find(|&letter| !is_parting(letter)) == Some('$')
}

/// All that is printed of a dump, or the one line where there is nothing else.
pub fn decode(contents: &Contents, options: &Options) -> Result<String, String> {
    let (record, timescale) = read(contents)?;
    held_to_mode(options.mode(), timescale)?;
    let refused = |refusal| refusals::at_stamp(refusal, &record.stamps);
    let (events, reply) = record.events(options).map_err(refused)?;
    let report = record.report(&events, &reply, &Gaps::unjudged(record.stamps.len()));
    let unit = match counts(timescale) {
        Some(unit) => format!("whose stamps count {unit}"),
        None => "with no timescale".to_string(),
    };
    Ok(format!("# a Value Change Dump {unit}\n{report}"))
}

/// The samples and the timescale in femtoseconds. A file that could not be read to its end is an error, unless it was
/// too long before.
fn read(contents: &Contents) -> Result<(Record, u64), String> {
    let text = bytes_of(&contents.text);
    if let Some(failure) = contents.failure.as_ref().filter(|_| text.len() <= LONGEST) {
        return Err(format!("error {failure}"));
    }
    let (mut stamps, mut levels) = (vec![0; SAMPLES], vec![0; SAMPLES]);
    let reply = dump_reader::read(&text, &mut stamps, &mut levels);
    let (count, timescale) = reply.map_err(|refusal| refusals::in_dump(refusal, &contents.text))?;
    stamps.truncate(count);
    levels.truncate(count);
    Ok((Record { stamps, levels, ..Record::default() }, timescale))
}

/// A strict mode reads stamps of 100 ns and no other.
fn held_to_mode(mode: Mode, timescale: u64) -> Result<(), String> {
    let option = match mode {
        Mode::Unchecked => return Ok(()),
        Mode::Standard => "--standard",
        Mode::Fast => "--fast",
    };
    let has = match counts(timescale) {
        _ if timescale == STRICT => return Ok(()),
        Some(unit) => format!("counts {unit}"),
        None => "has no timescale".to_string(),
    };
    Err(format!("error {option} needs stamps that count 100 ns, and this dump {has}"))
}

/// `N UNIT`, N being 1, 10 or 100; none where the dump does not say.
fn counts(timescale: u64) -> Option<String> {
    let (mut number, mut thousands) = (timescale, 0);
    while number >= 1000 {
        number /= 1000;
        thousands += 1;
    }
    let unit = ["fs", "ps", "ns", "us", "ms", "s"][thousands];
    (timescale > 0).then(|| format!("{number} {unit}"))
}
