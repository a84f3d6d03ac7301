//! Removals with cuts and errors put into the gaps between their calls.

use super::script_text::{table_a, Text};

/// `cut` or `error` in a gap: 0 is before the acceptance, 1 after it, and
/// 1 + n after the n-th step.
pub type Event = (usize, &'static str);

pub const KINDS: [&str; 2] = ["cut", "error"];

/// One removal on a fresh A and the events that disturb it.
pub struct Placement {
    pub identifier: u32,
    pub lba: u64,
    pub events: Vec<Event>,
}

impl Placement {
    /// Calls of `step` that end any removal so disturbed, and one more.
    fn steps(&self) -> usize {
        let last = self.events.iter().map(|&(gap, _)| gap).max();
        last.unwrap_or(0).saturating_sub(1).max(1) + 5
    }

    /// The script, `cells` after every call.
    pub fn write(&self, text: &mut Text) {
        text.make(&table_a(), 2);
        self.write_events(text, 0);
        text.remove(self.identifier, self.lba);
        text.cells();
        self.write_events(text, 1);
        for step in 1..=self.steps() {
            text.line("step");
            text.cells();
            self.write_events(text, 1 + step);
        }
    }

    fn write_events(&self, text: &mut Text, here: usize) {
        for &(gap, word) in &self.events {
            if gap == here {
                text.line(word);
                text.cells();
            }
        }
    }
}

/// Every placement of one event in gaps 0 to `last`.
pub fn single(last: usize) -> Vec<Vec<Event>> {
    let mut all = Vec::new();
    for gap in 0..=last {
        for kind in KINDS {
            all.push(vec![(gap, kind)]);
        }
    }
    all
}

/// Every placement of two events in gaps 0 to `last`, in one gap too.
pub fn double(last: usize) -> Vec<Vec<Event>> {
    let mut all = Vec::new();
    for first in single(last) {
        for second in single(last) {
            if first[0].0 <= second[0].0 {
                all.push(vec![first[0], second[0]]);
            }
        }
    }
    all
}
