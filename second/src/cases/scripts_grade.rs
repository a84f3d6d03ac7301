//! Scripts: grades at any time.

use super::draft::Case;
use super::script_text::{table_a, Text};

pub fn cases() -> Vec<Case> {
    vec![
        grade_healths(),
        grade_refused(),
        grade_in_removal(),
        grade_in_winding_up(),
    ]
}

/// "to 00h to CFh", for a storage element and for another.
fn grade_healths() -> Case {
    let mut text = Text::with_a();
    for identifier in [0x3, 0x0002_0000] {
        for health in 0..=0xFF {
            text.line(&format!("grade {:x} {:x}", identifier, health));
        }
        text.cells();
    }
    text.lines(&["grade 3 65", "grade 3 65", "cells"]);
    text.command(0x12, 0x4000, 1, 0, 0x200);
    text.named("grade-healths")
}

/// "Unknown identifier, element at FFh, or a value above CFh: 11."
fn grade_refused() -> Case {
    let mut text = Text::with_a();
    text.lines(&["grade 0 0", "grade 2 0", "grade ffffffff 10", "grade 2 d0"]);
    text.lines(&["grade 1 d0", "grade 1 ff", "grade 10000 1", "grade 30000 1"]);
    text.removal(0x0001_0003, 0);
    text.lines(&["grade 10003 0", "grade 10003 cf", "grade 10003 ff", "cells"]);
    text.named("grade-refused")
}

/// At any time: the noted element and another, before each step.
fn grade_in_removal() -> Case {
    let mut text = Text::with_a();
    text.remove(0x0001_0003, 0);
    for step in 1..=6 {
        text.line(&format!("grade 10003 {:x}", 0x60 + step));
        text.line(&format!("grade 1 {:x}", 0xC0 + step));
        text.line(&format!("grade 20000 {:x}", step));
        text.cells();
        text.command(0x12, 0x4000, 1, 0, 0x200);
        text.line("step");
    }
    text.named("grade-in-removal")
}

/// A grade before the marking store survives the winding up.
fn grade_in_winding_up() -> Case {
    let mut text = Text::new();
    for done in [0, 2, 3, 4] {
        text.make(&table_a(), 2);
        text.remove(0x0001_0003, 0);
        text.steps(done);
        text.line("error");
        for step in 1..=4 {
            text.line(&format!("grade 10003 {:x}", 0x30 + step));
            text.line(&format!("grade 3 {:x}", 0x40 + step));
            text.line("step");
            text.cells();
        }
    }
    text.named("grade-in-winding-up")
}
