//! The block of a load: who won, what became of its message, what each loser still has to send; in a night its rounds.

use super::boards::Boards;
use super::load::Load;
use super::refused;
use super::registers::{flags, spelt};
use super::rehearsal::{Rehearsal, Result, Verdict};
use super::wave;
use crate::arbitration::Message;
use crate::rig::arguments::Options;
use crate::rig::text::{counted, parted};

pub fn block(load: &Load, boards: &Boards, result: &Result, options: &Options) -> String {
    let mut lines = vec![format!("load {}", load.heading())];
    if !load.corrected.is_empty() {
        lines.push(format!("  corrected {}", boards.list(&load.corrected)));
    }
    match result {
        Result::InError => lines.push("  ERROR: not rehearsed".to_string()),
        Result::Refused(refusal) => {
            let words = refused::words(load, boards, *refusal, options.command).block;
            lines.push(format!("  refused {}: {words}", refusal.number()));
        }
        Result::Rehearsed(rehearsal) => {
            lines.extend(in_and_out(load, boards, rehearsal));
            lines.extend(silent(load, boards));
            lines.extend(remarks(load, boards, rehearsal.as_expected));
            if options.registers {
                lines.extend(registers(load, boards, rehearsal));
            }
            if options.wave {
                lines.push(carried(rehearsal));
                lines.extend(wave::lines(rehearsal, boards));
            }
        }
        Result::Carried(rounds) => {
            lines.extend(rounds.lines(boards));
            lines.extend(silent(load, boards));
            lines.extend(remarks(load, boards, rounds.as_expected));
        }
    }
    lines.join("\n") + "\n"
}

/// The levels of a load that was rehearsed, as `rig decode` reads them.
pub fn trace(result: &Result) -> String {
    let Result::Rehearsed(rehearsal) = result else { return String::new() };
    let levels = rehearsal.run.outcome.levels.iter().enumerate();
    levels.map(|(sample, level)| format!("{} {level}\n", 50 * sample)).collect()
}

fn board_line(word: &str, label: &str, message: &Message, fate: &str) -> String {
    format!("  {word:<6} {label}  {:<23}  {fate}", parted(&message.parts))
}

/// The boards still in and the losers.
fn in_and_out(load: &Load, boards: &Boards, rehearsal: &Rehearsal) -> Vec<String> {
    let mut lines = Vec::new();
    let columns = load.number_columns();
    let undecided = rehearsal.verdict == Verdict::Undecided;
    lines.extend(undecided.then(|| between(rehearsal)));
    for (board, message) in rehearsal.winners() {
        let word = if undecided { "in" } else { "WON" };
        let label = boards.label(board.number, columns);
        lines.push(board_line(word, &label, message, &fate(rehearsal, message)));
    }
    for (board, message, place) in rehearsal.losers() {
        let (byte, bit, bytes) = (place / 9, place % 9, counted(message.length(), "byte"));
        let fate = format!("byte {byte} bit {bit}: sends 1, the bus is 0; {bytes} still to send");
        lines.push(board_line("lost", &boards.label(board.number, columns), message, &fate));
    }
    lines
}

fn silent(load: &Load, boards: &Boards) -> Vec<String> {
    let columns = load.number_columns();
    let mut silent: Vec<usize> =
        load.boards.iter().filter(|board| board.message.is_none()).map(|board| board.number).collect();
    silent.sort();
    let line = |number: &usize| format!("  silent {number:>columns$} {}", boards.short(*number));
    silent.iter().map(line).collect()
}

fn between(rehearsal: &Rehearsal) -> String {
    let numbers: Vec<String> =
        rehearsal.winners().iter().map(|(board, _)| board.number.to_string()).collect();
    let (place, byte) = rehearsal.last_carried();
    let stopped = format!("the bus stopped after byte {place} ({byte:02X}), before they differ");
    format!("  UNDECIDED between {}: {stopped}; nothing was sent whole", numbers.join(", "))
}

/// What became of a message that is still in.
fn fate(rehearsal: &Rehearsal, message: &Message) -> String {
    let carried = rehearsal.carried().len();
    let of = format!("{carried} of {}", counted(message.length(), "byte"));
    let (place, byte) = rehearsal.last_carried();
    match rehearsal.verdict {
        Verdict::Sent => format!("sent {of}"),
        Verdict::Undecided => format!("{of} carried"),
        Verdict::Cut => {
            let cut = format!("CUT after {of}: byte {place} ({byte:02X}) not acknowledged");
            match &message.rest(carried).parts[..] {
                [] => cut,
                rest => format!("{cut}; {} not sent", parted(rest)),
            }
        }
    }
}

fn remarks(load: &Load, boards: &Boards, as_expected: bool) -> Vec<String> {
    let mut lines = Vec::new();
    if load.acks.is_none() {
        lines.push("  note: no ack line, rehearsed as all acknowledged".to_string());
    }
    if let (false, Some(expected)) = (as_expected, &load.expected) {
        let (line, name) = (expected.line, boards.short(expected.board));
        let (carried, length) = (expected.carried, expected.length);
        lines.push(format!("  NOT AS EXPECTED: line {line} expects {name} {carried}/{length}"));
    }
    lines
}

fn registers(load: &Load, boards: &Boards, rehearsal: &Rehearsal) -> Vec<String> {
    let columns = load.number_columns();
    let masters = rehearsal.senders.iter().zip(&rehearsal.table).zip(rehearsal.run.cleared);
    let line = |label: String, registers: String, cleared: String| {
        format!("  {:<6} {label}  {registers}, cleared{cleared}", "regs")
    };
    let words = masters.map(|(((board, _), module), cleared)| {
        line(boards.label(board.number, columns), spelt(module), flags(cleared))
    });
    words.collect()
}

/// The carried bytes with their acknowledges, ` / ` where the bus restarted.
fn carried(rehearsal: &Rehearsal) -> String {
    let message = rehearsal.winners()[0].1.beginning(rehearsal.carried().len());
    let mut acks = rehearsal.acks.iter().map(|&ack| if ack == 0 { "ACK" } else { "NACK" });
    let mut byte = |byte: &u8| format!("{byte:02X} {}", acks.next().expect("an acknowledge a byte"));
    let mut part = |part: &Vec<u8>| part.iter().map(&mut byte).collect::<Vec<_>>().join(", ");
    let carried: Vec<String> = message.parts.iter().map(&mut part).collect();
    format!("  carried {}", carried.join(" / "))
}
