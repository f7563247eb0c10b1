//! The table: a row a load, in 80 columns, without line numbers.

use super::boards::Boards;
use super::load::Load;
use super::refused;
use super::rehearsal::{Rehearsal, Result, Verdict};
use crate::rig::arguments::Command;
use crate::rig::text::beginning;

pub fn header() -> String {
    line(' ', &format!("{:<10} title", "load"), "winner", "bytes", "verdict")
}

pub fn row(load: &Load, boards: &Boards, result: &Result) -> String {
    let mark = if result.is_marked() { '!' } else { ' ' };
    let space = if load.title.is_empty() { "" } else { " " };
    let heading = format!("{:<10}{space}{}", load.name, load.title);
    let nobody = || ("-".to_string(), "-".to_string());
    let ((winner, bytes), verdict) = match result {
        Result::InError => (nobody(), "ERROR: not rehearsed".to_string()),
        Result::Refused(refusal) => {
            let words = refused::words(load, boards, *refusal, Command::Clash).row;
            (nobody(), format!("REFUSED {}: {words}", refusal.number()))
        }
        Result::Rehearsed(rehearsal) => {
            let won = if rehearsal.verdict == Verdict::Undecided { nobody() } else { won(boards, rehearsal) };
            (won, verdict(load, boards, rehearsal))
        }
        Result::Carried(_) => unreachable!("a night has no table"),
    };
    line(mark, &heading, &winner, &bytes, &verdict) + "\n"
}

fn line(mark: char, heading: &str, winner: &str, bytes: &str, verdict: &str) -> String {
    let (heading, winner, verdict) = (cut(heading, 25), cut(winner, 9), cut(verdict, 36));
    format!("{mark} {heading:<25} {winner:<9} {bytes:>5} {verdict}")
}

/// A text as wide as its column at most.
fn cut(text: &str, width: usize) -> String {
    if text.chars().count() > width {
        beginning(text, width - 1) + "~"
    } else {
        text.to_string()
    }
}

/// The boards still in, and how much of their message was carried.
fn won(boards: &Boards, rehearsal: &Rehearsal) -> (String, String) {
    let bytes = format!("{}/{}", rehearsal.carried().len(), rehearsal.winners()[0].1.length());
    (names(boards, rehearsal, ","), bytes)
}

fn names(boards: &Boards, rehearsal: &Rehearsal, between: &str) -> String {
    let names: Vec<String> =
        rehearsal.winners().iter().map(|(board, _)| boards.short(board.number)).collect();
    names.join(between)
}

fn verdict(load: &Load, boards: &Boards, rehearsal: &Rehearsal) -> String {
    let (place, byte) = rehearsal.last_carried();
    let verdict = match rehearsal.verdict {
        Verdict::Sent => None,
        Verdict::Undecided => Some(format!("UNDECIDED at byte {place}: {}", names(boards, rehearsal, ", "))),
        Verdict::Cut => {
            let rest = rehearsal.winners()[0].1.length() - rehearsal.carried().len();
            let rest = if rest > 0 { format!("{rest} not sent") } else { "the last".to_string() };
            Some(format!("CUT at byte {place} ({byte:02X}), {rest}"))
        }
    };
    match (&load.expected, rehearsal.as_expected) {
        (Some(expected), false) => {
            let name = boards.short(expected.board);
            let expected = format!("EXPECTED {name} {}/{}", expected.carried, expected.length);
            verdict.map_or(expected.clone(), |verdict| format!("{expected}, {verdict}"))
        }
        _ if load.acks.is_none() => "sent, no ack line".to_string(),
        _ => verdict.unwrap_or_else(|| "sent".to_string()),
    }
}
