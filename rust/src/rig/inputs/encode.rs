//! Files for `rig encode`.

use super::page::Page;
use crate::bus::{complete, sample_count, CUT, REPEATED_START, SAMPLES, START, STOP};
use crate::compare::lists::{draw_gap, draw_list, draw_start};
use crate::random::Random;
use crate::rig::answer;

/// A list in words or numbers, what `decode` prints of a record, or a file of another kind.
pub fn text(random: &mut Random) -> Vec<u8> {
    match random.below(36) {
        0..=5 => return decoded(random),
        6 => return super::decode::text(random),
        7 => return super::clash::text(random),
        _ => {}
    }
    words(random)
}

/// A list in words or numbers.
pub fn words(random: &mut Random) -> Vec<u8> {
    let events = match random.below(32) {
        0 => many(random),
        _ => draw_list(random).1,
    };
    let mut page = Page::new(random);
    let numbers = page.random.once_in(4);
    settings(&mut page, &events);
    let spoiling = page.random.pick(&[2, 40, 100_000]) * (events.len() + 1);
    let mut rest = &events[..];
    while let Some(&event) = rest.first() {
        if page.random.once_in(spoiling) {
            spoilt_line(&mut page);
        }
        let count = if numbers { page.random.between(1, 600).min(rest.len()) } else { 1 };
        if numbers || event > CUT {
            let words: Vec<String> = rest[..count].iter().map(|&event| page.decimal(event.into())).collect();
            page.line(&words);
        } else {
            event_line(&mut page, event);
        }
        rest = &rest[count..];
    }
    page.finish()
}

/// What `decode` prints of a record, after a start and a gap.
fn decoded(random: &mut Random) -> Vec<u8> {
    let record = super::decode::text(random);
    let events = answer(&[b"decode".to_vec(), b"-".to_vec()], &mut &record[..]).output;
    let mut page = Page::new(random);
    if page.random.once_in(2) {
        page.line(&["gap", "20"]);
    }
    page.copy(&events);
    page.finish()
}

/// About 4,096 events.
fn many(random: &mut Random) -> Vec<u16> {
    let mut events = vec![START];
    events.resize(SAMPLES - 2 + random.below(4), 0x5A);
    events.push(STOP);
    events
}

/// Start and gap, each of them perhaps.
fn settings(page: &mut Page, events: &[u16]) {
    let gap = if page.random.once_in(2) { 50 } else { draw_gap(page.random) };
    if gap != 50 {
        let gap = page.decimal(gap.into());
        page.line(&["gap", &gap]);
    }
    if page.random.once_in(2) {
        let needed = if complete(events) { sample_count(events).min(SAMPLES + 1) } else { 1 };
        let start = draw_start(page.random, u64::from(gap) * (needed as u64 - 1));
        let start = page.decimal(start.into());
        page.line(&["start", &start]);
    }
}

/// One event in words, perhaps with a stamp before it.
fn event_line(page: &mut Page, event: u16) {
    let mut words = Vec::new();
    if page.random.once_in(6) {
        words.push(page.random.pick(&["50:", "4294967295:", ":", "x:", "ok:", "START:"]).to_string());
    }
    match event {
        START => words.push("START".to_string()),
        REPEATED_START => words.extend(["repeated".to_string(), "START".to_string()]),
        STOP => words.push("STOP".to_string()),
        CUT => words.extend(["cut".to_string(), "byte".to_string()]),
        _ => {
            words.push(page.hex(event as u8));
            if page.random.once_in(3) {
                words.push(if event % 2 == 1 { "read" } else { "write" }.to_string());
            }
            words.push(if event < 256 { "ACK" } else { "NACK" }.to_string());
        }
    }
    page.line(&words);
}

fn spoilt_line(page: &mut Page) {
    const LINES: &str = "\
        A1 write ACK; A0 read NACK; A0 write; A0 read; A0 ACK ACK; 100 ACK; ACK; NACK 0; write ACK; \
        G0 ACK; A1 write foo; a0 Ack; start; start 4294967296; start 99999999999999999999; start -1; \
        start 5 5; start x; gap; gap 0; gap 4294967296; gap 99999999999999999999; gap x; gap 1 2; 50:; \
        :; 50: start 5; 50: gap 5; 50: 60: START; 50: ok; 50: 512 160 514; 50: foo; START STOP; \
        repeated; repeated STOP; cut; cut bytes; 512 x; 65536 99999999999999999999; ok 23 samples; \
        look 3 events; note: no sample; A0 ACK doubtful; cut byte doubtful; load x; board 90; refused 9";
    page.one_of(LINES);
}
