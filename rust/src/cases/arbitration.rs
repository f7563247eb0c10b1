//! Scripts of arbitrations.

use super::{answer_lines, decimal, decimals, hex_byte, module_text};
use crate::arbitration::{arbitrate, Run, MASTERS};
use crate::module::Module;
use crate::refusal::Refusal;

/// What both buffers hold before a run, and both shift bytes of every module of the table.
const UNTOUCHED: u8 = 0xEE;

/// Answers a script of arbitrations.
pub fn arbitration(script: &str) -> Result<String, String> {
    answer_lines(script, command)
}

/// What a command lends: bytes, the length of every part, how many parts each message has, and acknowledges.
struct Lent {
    bytes: Vec<u8>,
    parts: Vec<u32>,
    counts: Vec<u32>,
    acks: Vec<u8>,
}

fn command(words: &[&str]) -> Result<String, String> {
    let (name, header, rest) = match words {
        [name, carried, levels, acks, rest @ ..] => (*name, (carried, levels, acks), rest),
        _ => return Err("no such command".to_string()),
    };
    let rooms = (decimal(header.0)?, decimal(header.1)?);
    let acks = digits(header.2)?;
    let lent = match (name, rest) {
        ("run", messages) => whole(messages, acks)?,
        ("lens", [flat, lengths @ ..]) => {
            Lent { bytes: bytes(flat)?, parts: decimals(lengths)?, counts: vec![1; lengths.len()], acks }
        }
        ("parts", [flat, messages, numbers @ ..]) => {
            let mut counts: Vec<u32> = decimals(numbers)?;
            let parts = counts.split_off(counts.len().min(decimal(messages)?));
            Lent { bytes: bytes(flat)?, parts, counts, acks }
        }
        _ => return Err("no such command".to_string()),
    };
    Ok(answer(&lent, rooms))
}

/// Messages in hexadecimal, with `/` between two parts.
fn whole(messages: &[&str], acks: Vec<u8>) -> Result<Lent, String> {
    let mut lent = Lent { bytes: Vec::new(), parts: Vec::new(), counts: Vec::new(), acks };
    for message in messages {
        for part in message.split('/') {
            let part = if part.is_empty() { Vec::new() } else { bytes(part)? };
            lent.parts.push(part.len() as u32);
            lent.bytes.extend(part);
        }
        lent.counts.push(message.split('/').count() as u32);
    }
    Ok(lent)
}

/// A hex word of bytes; `-` for none.
fn bytes(word: &str) -> Result<Vec<u8>, String> {
    if word == "-" {
        return Ok(Vec::new());
    }
    if word.is_empty() || word.len() % 2 == 1 || !word.is_ascii() {
        return Err(format!("no hex word `{word}`"));
    }
    (0..word.len()).step_by(2).map(|place| hex_byte(&word[place..place + 2])).collect()
}

/// A word of decimal digits; `-` for none.
fn digits(word: &str) -> Result<Vec<u8>, String> {
    if word == "-" {
        return Ok(Vec::new());
    }
    let digit = |letter: char| letter.to_digit(10).map(|digit| digit as u8);
    word.chars().map(digit).collect::<Option<_>>().ok_or(format!("no digits `{word}`"))
}

fn answer(lent: &Lent, rooms: (usize, usize)) -> String {
    let Lent { bytes, parts, counts, acks } = lent;
    let (mut carried, mut levels) = (vec![UNTOUCHED; rooms.0], vec![UNTOUCHED; rooms.1]);
    let mut table = [Module::power_up(UNTOUCHED, UNTOUCHED); MASTERS];
    let reply = arbitrate(bytes, parts, counts, acks, &mut carried, &mut levels, &mut table);
    let masters = table.iter().take(counts.len());
    let reply = reply_text(reply, masters);
    let carried: String = carried.iter().map(|byte| format!("{byte:02X}")).collect();
    let levels: String = levels.iter().map(|&level| level_text(level)).collect();
    format!("{reply}\n  carried {carried}\n  levels {levels}")
}

fn level_text(level: u8) -> char {
    match level {
        0..=3 => char::from(b'0' + level),
        _ => '.',
    }
}

/// The reply's numbers, then one line for each master; none at a refusal.
fn reply_text<'a>(reply: Result<Run, Refusal>, masters: impl Iterator<Item = &'a Module>) -> String {
    let run = match reply {
        Ok(run) => run,
        Err(refusal) => return format!("refused {} place {} k 0 in 0", refusal.number(), refusal.place),
    };
    let remaining = run.outcome.remaining.iter().rev();
    let mask = remaining.fold(0, |mask, &bit| mask << 1 | u16::from(bit));
    let mut text = format!("refused 0 place 0 k {} in {mask}", run.outcome.carried.len());
    for (master, module) in masters.enumerate() {
        let (at, cleared) = (run.outcome.positions[master], run.cleared[master]);
        text += &format!("\n  {master}: {} at {at} cleared={cleared:02X}", module_text(module));
    }
    text
}
