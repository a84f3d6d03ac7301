//! Scripts: steps, cuts, errors and resets.

use super::draft::Case;
use super::placements::{single, Placement, KINDS};
use super::script_text::{table_a, Text};

pub fn cases() -> Vec<Case> {
    vec![
        no_removal(),
        mark_set_and_cleared(),
        resets(),
        disturbed_once(0x1),
        disturbed_once(0x3),
        disturbed_once(0x0001_0003),
        disturbed_once(0x0002_0000),
        disturbed_twice(2, "before"),
        disturbed_twice(3, "after"),
        disturbed_thrice(),
    ]
}

/// "A work step or media error with an empty note answers 10".
fn no_removal() -> Case {
    let mut text = Text::with_a();
    let idle = ["step", "error", "cut", "comreset", "hardreset", "softreset"];
    text.lines(&idle);
    text.cells();
    text.removal(0x3, 0);
    text.lines(&idle);
    text.cut_removal(0x1, 4);
    text.lines(&idle);
    text.cells();
    text.named("no-removal")
}

/// Which stores set the failed mark and which clear it.
fn mark_set_and_cleared() -> Case {
    let mut text = Text::with_a();
    for done in 0..=2 {
        text.cut_removal(0x3, done);
        text.cells();
    }
    // Work step 4 of another removal clears it.
    text.remove(0x1, 0);
    for _ in 0..5 {
        text.line("step");
        text.cells();
    }
    // A cut after step 4 sets it again.
    text.cut_removal(0x0001_0003, 4);
    text.cells();
    // A refused removal clears nothing.
    text.remove(0x3, 0);
    text.remove(0x0002_0000, 0);
    text.cells();
    // Whichever removal set it: an element at FFh clears it.
    text.remove(0x1, 0);
    text.cells();
    text.remove(0x1, 0);
    text.cells();
    text.named("mark-set-and-cleared")
}

/// "COMRESET, hardware reset and software reset answer 0 and change nothing".
fn resets() -> Case {
    let mut text = Text::with_a();
    let resets = ["softreset", "hardreset", "comreset"];
    for cut_after in [2, 3, 9] {
        text.make(&table_a(), 2);
        text.lines(&resets);
        text.remove(0x0001_0003, 0);
        for step in 1..=5 {
            text.lines(&resets);
            text.cells();
            text.line("step");
            if step == cut_after {
                text.line("cut");
            }
        }
        text.steps(3);
        text.lines(&resets);
        text.cells();
    }
    text.named("resets-everywhere")
}

/// A cut or an error after every single store of an element's removal.
fn disturbed_once(identifier: u32) -> Case {
    let mut text = Text::new();
    for events in single(6) {
        Placement {
            identifier,
            lba: 0,
            events,
        }
        .write(&mut text);
    }
    text.named(&format!("disturbed-{:x}", identifier))
}

/// "An error or cut during winding up starts it again."
fn disturbed_twice(done: usize, side: &str) -> Case {
    let mut text = Text::new();
    for wound in 0..=4 {
        for first in KINDS {
            for second in KINDS {
                text.make(&table_a(), 2);
                text.remove(0x0001_0003, 1234);
                text.steps(done);
                text.line(first);
                text.steps(wound);
                text.line(second);
                text.cells();
                text.steps(4);
                text.cells();
            }
        }
    }
    text.named(&format!("disturbed-twice-{}-marking", side))
}

/// Again and again, with media access and a page in between.
fn disturbed_thrice() -> Case {
    let mut text = Text::with_a();
    text.remove(0x3, 7);
    text.steps(3);
    for event in ["cut", "error", "cut", "cut", "error"] {
        text.line(event);
        text.steps(3);
        text.cells();
        text.command(0x25, 0, 1, 0, 0);
        text.command(0x12, 0x4000, 1, 0, 0x200);
    }
    text.steps(2);
    text.cells();
    text.command(0x25, 0, 1, 0, 0);
    text.named("disturbed-again-and-again")
}
