//! The match: for each frame what it is, by six rules of which the first that applies counts.

use super::capture::Frame;
use super::rehearsal::{Board, Load};
use std::collections::HashMap;

/// What a frame is, in the order of the rules.
#[derive(Clone, PartialEq, Eq, Debug)]
pub enum Found {
    /// The message of these boards of a load, which waited since that frame.
    Waited { load: usize, boards: Vec<usize>, since: usize },
    /// The rehearsed frame of this load, which was the next.
    Next(usize),
    /// That of this load, which was one after the next.
    Later(usize),
    /// Not rehearsed: the frame of the next load is still to come.
    Between,
    /// In the place of this load's.
    Different(usize),
    /// Not rehearsed, and no load is left.
    NotRehearsed,
}

/// What each frame is, and what is left when all are matched. Loads, boards and frames are counted from 0.
pub struct Match {
    pub found: Vec<Found>,
    /// For each load whether a frame was it or differed from it.
    pub met: Vec<bool>,
    /// For each load and board the frame since which it waits, if it does.
    pub waiting: Vec<Vec<Option<usize>>>,
}

/// Frames and loads, as far as they are matched.
struct Matching<'a> {
    loads: &'a [Load],
    frames: &'a [Frame],
    /// For each frame the loads whose rehearsed frame it is, in order.
    rehearsed: Vec<Vec<usize>>,
    next: Option<usize>,
    done: Match,
}

impl Found {
    /// The number of the rule.
    pub fn rule(&self) -> usize {
        match self {
            Found::Waited { .. } => 1,
            Found::Next(_) => 2,
            Found::Later(_) => 3,
            Found::Between => 4,
            Found::Different(_) => 5,
            Found::NotRehearsed => 6,
        }
    }

    pub fn is_as_rehearsed(&self) -> bool {
        matches!(self, Found::Next(_) | Found::Later(_))
    }

    pub fn is_not_rehearsed(&self) -> bool {
        matches!(self, Found::Between | Found::NotRehearsed)
    }
}

impl Match {
    pub fn of(loads: &[Load], frames: &[Frame]) -> Match {
        let mut matching = Matching::new(loads, frames);
        for frame in 0..frames.len() {
            let found = matching.frame(frame);
            matching.done.found.push(found);
        }
        matching.done
    }
}

impl<'a> Matching<'a> {
    fn new(loads: &'a [Load], frames: &'a [Frame]) -> Self {
        let mut by_events: HashMap<&[u16], Vec<usize>> = HashMap::new();
        for (index, load) in loads.iter().enumerate() {
            if let Some(events) = load.frame() {
                by_events.entry(events).or_default().push(index);
            }
        }
        let loads_of = |frame: &Frame| by_events.get(&frame.events[..]).cloned().unwrap_or_default();
        let rehearsed = frames.iter().map(loads_of).collect();
        let waiting = loads.iter().map(|load| vec![None; load.boards.len()]).collect();
        let done = Match { found: Vec::new(), met: vec![false; loads.len()], waiting };
        let mut matching = Matching { loads, frames, rehearsed, next: None, done };
        matching.next = matching.with_a_frame(0);
        matching
    }

    /// The first load from this one on that has a rehearsed frame.
    fn with_a_frame(&self, from: usize) -> Option<usize> {
        (from..self.loads.len()).find(|&load| self.loads[load].frame().is_some())
    }

    /// The first load, from the next on, whose rehearsed frame this is.
    fn rehearsed_by(&self, frame: usize) -> Option<usize> {
        let next = self.next?;
        self.rehearsed[frame].iter().copied().find(|&load| load >= next)
    }

    fn frame(&mut self, frame: usize) -> Found {
        if let Some((load, boards)) = self.waited_for(frame) {
            return self.waited(load, boards);
        }
        let Some(next) = self.next else { return Found::NotRehearsed };
        match self.rehearsed_by(frame) {
            Some(load) if load == next => self.as_rehearsed(frame, Found::Next(load), load),
            Some(load) if self.may_pass_over_to(load, frame, next) => {
                self.as_rehearsed(frame, Found::Later(load), load)
            }
            _ if self.is_between(frame, next) => Found::Between,
            _ => self.different(frame, next),
        }
    }

    fn as_rehearsed(&mut self, frame: usize, found: Found, load: usize) -> Found {
        self.taken(frame, load, |board| board.fate.waits());
        found
    }

    fn different(&mut self, frame: usize, next: usize) -> Found {
        let events = &self.frames[frame].events;
        self.taken(frame, next, |board| board.message != *events);
        Found::Different(next)
    }

    /// This frame may be that of a load after the next: the next load's own does not follow within fewer frames than
    /// the loads that are passed over.
    fn may_pass_over_to(&self, load: usize, frame: usize, next: usize) -> bool {
        let distance = (next + 1..=load).filter(|&load| self.loads[load].frame().is_some()).count();
        let mut soon = (frame + 1..self.frames.len()).take(distance - 1);
        !soon.any(|later| self.rehearsed[later].contains(&next))
    }

    /// This frame stands before that of the next load, and is none of its boards' messages.
    fn is_between(&self, frame: usize, next: usize) -> bool {
        let events = &self.frames[frame].events;
        let is_sent_by_one = self.loads[next].boards.iter().any(|board| board.message == *events);
        !is_sent_by_one && self.next_comes_first_after(frame, next)
    }

    /// The first load of which boards wait with this message, and these boards.
    fn waited_for(&self, frame: usize) -> Option<(usize, Vec<usize>)> {
        let events = &self.frames[frame].events;
        let of = |load: usize| {
            let boards = self.loads[load].boards.iter().zip(&self.done.waiting[load]).enumerate();
            let these = boards.filter(|(_, (board, since))| since.is_some() && board.message == *events);
            these.map(|(index, _)| index).collect::<Vec<_>>()
        };
        (0..self.loads.len()).map(|load| (load, of(load))).find(|(_, boards)| !boards.is_empty())
    }

    /// They wait no longer.
    fn waited(&mut self, load: usize, boards: Vec<usize>) -> Found {
        let mut since = 0;
        for &board in &boards {
            since = self.done.waiting[load][board].take().expect("a board that waits");
        }
        Found::Waited { load, boards, since }
    }

    /// This frame stands for a load, whose boards of this kind wait from here on.
    fn taken(&mut self, frame: usize, load: usize, waits: impl Fn(&Board) -> bool) {
        self.done.met[load] = true;
        let since = |board: &Board| waits(board).then_some(frame);
        self.done.waiting[load] = self.loads[load].boards.iter().map(since).collect();
        self.next = self.with_a_frame(load + 1);
    }

    /// Of the frames after this one the first that is rehearsed from the next load on is that load's.
    fn next_comes_first_after(&self, frame: usize, next: usize) -> bool {
        let mut after = frame + 1..self.frames.len();
        after.find_map(|later| self.rehearsed_by(later)) == Some(next)
    }
}
