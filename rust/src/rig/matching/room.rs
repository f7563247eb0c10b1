//! How much of a rehearsal is kept.

/// The most loads and boards, events, and bytes of names.
const PIECES: usize = 16_384;
const EVENTS: usize = 131_072;
const NAMES_BYTES: usize = 262_144;

/// What is used of it.
#[derive(Default)]
pub struct Room {
    pieces: usize,
    events: usize,
    names: usize,
}

impl Room {
    /// A load or a board of this name.
    pub fn piece(&mut self, name: &str) {
        self.pieces += 1;
        self.names += name.chars().count();
    }

    pub fn events(&mut self, events: &[u16]) {
        self.events += events.len();
    }

    /// All that was put in fits.
    pub fn holds(&self) -> bool {
        self.pieces <= PIECES && self.events <= EVENTS && self.names <= NAMES_BYTES
    }
}
