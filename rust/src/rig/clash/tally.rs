//! What the loads came to: counts, the names of those to look at, and the last line.

use super::load::Load;
use super::rehearsal::{Result, Verdict};
use crate::rig::text::counted;

/// How many bytes the names to look at may take, each with a space.
const SEE_BYTES: usize = 60;

#[derive(Default)]
pub struct Tally {
    loads: usize,
    sent: usize,
    cut: usize,
    undecided: usize,
    not_expected: usize,
    refused: usize,
    in_error: usize,
    without_acks: usize,
    corrected: usize,
    /// What was wrong outside the loads.
    pub faults: usize,
    first_refusal: u8,
    /// Names, each after a space, and how many more did not fit.
    see: String,
    more: usize,
}

impl Tally {
    pub fn count(&mut self, load: &Load, result: &Result) {
        self.loads += 1;
        self.corrected += usize::from(!load.corrected.is_empty());
        match result {
            Result::InError => self.in_error += 1,
            Result::Refused(refusal) => {
                self.refused += 1;
                if self.refused == 1 {
                    self.first_refusal = refusal.number();
                }
            }
            Result::Rehearsed(_) | Result::Carried(_) => {
                self.without_acks += usize::from(load.acks.is_none());
            }
        }
        match result.verdict() {
            None => {}
            Some((Verdict::Sent, true)) => self.sent += 1,
            Some((Verdict::Sent, false)) => self.not_expected += 1,
            Some((Verdict::Cut, _)) => self.cut += 1,
            Some((Verdict::Undecided, _)) => self.undecided += 1,
        }
        if result.is_marked() {
            self.mark(&load.name);
        }
    }

    fn mark(&mut self, name: &str) {
        let fits = self.see.chars().count() + 1 + name.chars().count() <= SEE_BYTES;
        if self.more == 0 && fits {
            self.see += &format!(" {name}");
        } else {
            self.more += 1;
        }
    }

    pub fn is_empty(&self) -> bool {
        self.loads == 0
    }

    /// The names to look at, if there are any and they are wanted, and the last line.
    pub fn last_lines(&self, names: bool) -> String {
        let more = if self.more > 0 { format!(" and {} more", self.more) } else { String::new() };
        let see =
            if self.see.is_empty() || !names { String::new() } else { format!("see{}{more}\n", self.see) };
        let loads = counted(self.loads, "load");
        format!("{see}{}{loads}: {}\n", self.word(), self.counts().join(", "))
    }

    fn word(&self) -> String {
        if self.in_error + self.faults > 0 {
            "error ".to_string()
        } else if self.refused > 0 {
            format!("refused {}: ", self.first_refusal)
        } else if self.cut + self.undecided + self.not_expected > 0 {
            "look ".to_string()
        } else {
            "ok ".to_string()
        }
    }

    fn counts(&self) -> Vec<String> {
        let counts = [
            (self.sent, "sent"),
            (self.cut, "cut"),
            (self.undecided, "undecided"),
            (self.not_expected, "not as expected"),
            (self.refused, "refused"),
            (self.in_error, "in error"),
            (self.without_acks, "without an ack line"),
            (self.corrected, "corrected"),
        ];
        let mut words: Vec<String> = counts
            .iter()
            .filter(|(count, _)| *count > 0)
            .map(|(count, what)| format!("{count} {what}"))
            .collect();
        if self.faults > 0 {
            words.push(format!("{} outside the loads", counted(self.faults, "fault")));
        }
        words
    }
}
