//! Scripts: document 01's bench examples.

use super::draft::Case;
use super::script_text::{row_of, table_a, Text};

pub fn cases() -> Vec<Case> {
    vec![
        example(),
        r1(),
        r2_to_r4(),
        r5(),
        r6_r7(),
        r8(),
        limit_alone(),
        g1_to_g4(),
        sixteen(),
        media_access(),
    ]
}

/// The example of the bench language, its page read again.
fn example() -> Case {
    let mut text = Text::with_a();
    text.command(0x12, 0x4100, 1, 0, 0x200);
    text.read(0x4100, 1, 0);
    text.cells();
    text.named("example")
}

fn r1() -> Case {
    let mut text = Text::with_a();
    text.remove(0x0001_0003, 0);
    text.cells();
    for _ in 0..6 {
        text.line("step");
        text.cells();
    }
    text.named("r1")
}

fn r2_to_r4() -> Case {
    let mut text = Text::with_a();
    text.command(0x7C, 0, 0, 0, 0);
    text.command(0x7C, 2, 0, 0, 0);
    text.remove(0x0001_0003, 2500);
    text.cells();
    text.remove(0x0001_0003, 2499);
    text.cells();
    text.steps(5);
    text.cells();
    text.named("r2-r3-r4")
}

fn r5() -> Case {
    let mut text = Text::with_a();
    text.cut_removal(0x0001_0003, 2);
    text.cells();
    text.named("r5")
}

fn r6_r7() -> Case {
    let mut text = Text::with_a();
    text.cut_removal(0x0001_0003, 3);
    text.cells();
    text.remove(0x0001_0003, 0xFFFF_FFFF_FFFF);
    text.cells();
    text.named("r6-r7")
}

fn r8() -> Case {
    let mut text = Text::with_a();
    text.removal(0x0001_0003, 0);
    text.removal(0x1, 0);
    text.cells();
    text.remove(0x3, 0);
    text.cells();
    text.named("r8")
}

/// R8 does not show the limit by itself; this does.
fn limit_alone() -> Case {
    let mut text = Text::new();
    text.make(&table_a(), 1);
    text.removal(0x0001_0003, 0);
    text.remove(0x1, 0);
    text.cells();
    text.named("limit-1-after-r1")
}

fn g1_to_g4() -> Case {
    let mut text = Text::with_a();
    text.command(0x12, 0x4100, 1, 0, 0x200);
    text.command(0x12, 0x4100, 1, 0x1_0000_0000, 0x200);
    text.command(0x12, 0x4100, 0, 0, 0x200);
    text.command(0x12, 0x8000, 1, 0, 0x200);
    text.named("g1-to-g4")
}

/// "16 matching elements, one page: N = 16, returned 15."
fn sixteen() -> Case {
    let mut text = Text::new();
    for number in [14, 15, 16, 17] {
        text.make(&row_of(number), 0);
        text.command(0x12, 0, 1, 0, 0x200);
        text.read(0, 1, 0);
        text.command(0x12, 0, 2, 0, 0x400);
    }
    text.named("sixteen-in-a-page")
}

/// "After R1, 25h: LBA 2,499 COUNT 1: 0; COUNT 2: 5. After R5 or R6: 3."
fn media_access() -> Case {
    let mut text = Text::with_a();
    text.removal(0x0001_0003, 0);
    text.command(0x25, 0, 1, 2499, 0);
    text.command(0x25, 0, 2, 2499, 0);
    for done in [2, 3] {
        text.make(&table_a(), 2);
        text.cut_removal(0x0001_0003, done);
        text.command(0x25, 0, 1, 2499, 0);
        text.command(0x25, 0, 2, 2499, 0);
    }
    text.named("media-after-r1-r5-r6")
}
