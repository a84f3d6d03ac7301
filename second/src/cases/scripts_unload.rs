//! Scripts: IDLE IMMEDIATE, of which "only the Unload form" is open during a
//! removal (request 2026-02).

use super::draft::Case;
use super::script_text::{command_line, Text};

const IDLE_IMMEDIATE: u8 = 0xE1;

/// "FEATURE 7:0 = 44h and LBA 27:0 = 0554E4Ch."
const FEATURE: u16 = 0x0044;
const LBA: u64 = 0x055_4E4C;

/// The bits that do not count, but for COUNT: FEATURE 15:8 and LBA 47:28, and of
/// LBA what is handed over above them.
const HIGH_FEATURE: u16 = 0xFF00;
const HIGH_LBA: u64 = !0xFFF_FFFF;

pub fn cases() -> Vec<Case> {
    vec![at_rest(), in_removal(), winding_up()]
}

/// A fresh device, then one with the failed mark: every form gets 0.
fn at_rest() -> Case {
    let mut text = Text::with_a();
    forms(&mut text);
    text.cut_removal(0x3, 1);
    forms(&mut text);
    text.named("unload-at-rest")
}

/// Before the marking store and after it; the last two forms are at rest.
fn in_removal() -> Case {
    let mut text = Text::with_a();
    text.remove(0x3, 0);
    forms(&mut text);
    text.steps(3);
    forms(&mut text);
    for _ in 3..5 {
        text.line("step");
        both(&mut text);
    }
    text.named("unload-in-removal")
}

/// Winding up after a cut: all forms as it begins, two after each step; the last
/// two are at rest.
fn winding_up() -> Case {
    let mut text = Text::with_a();
    text.remove(0x3, 0);
    text.steps(2);
    text.line("cut");
    forms(&mut text);
    for _ in 0..4 {
        text.line("step");
        both(&mut text);
    }
    text.named("unload-winding-up")
}

/// The Unload form, and one that it is not.
fn both(text: &mut Text) {
    idle(text, FEATURE, 0, LBA);
    idle(text, 0, 0, 0);
}

/// The form itself, its neighbours, and what could be taken for it.
fn forms(text: &mut Text) {
    both(text);
    for state in ["locked", "frozen"] {
        text.line(&command_line(state, IDLE_IMMEDIATE, FEATURE, 0, LBA, 0));
    }
    one_bit_wrong(text, FEATURE, LBA);
    idle(text, FEATURE | HIGH_FEATURE, 0xFFFF, LBA | HIGH_LBA);
    one_bit_wrong(text, FEATURE | HIGH_FEATURE, LBA | HIGH_LBA);
    one_bit_more(text);
    for (feature, lba) in [
        (0xFFFF, u64::MAX),
        (0x4400, LBA),
        (0x0044, 0x4C4E_5500),
        (0x0044, 0x4C_4E55),
        (0x0044, LBA << 4),
        (0x0044, LBA << 20),
        (0x554E, 0x4C44),
    ] {
        idle(text, feature, 0, lba);
    }
    for code in [0xE0, 0xE2, 0xE3] {
        text.command(code, FEATURE, 0, LBA, 0);
    }
}

/// Each bit that counts, turned.
fn one_bit_wrong(text: &mut Text, feature: u16, lba: u64) {
    for bit in 0..8 {
        idle(text, feature ^ 1 << bit, 0, lba);
    }
    for bit in 0..28 {
        idle(text, feature, 0, lba ^ 1 << bit);
    }
}

/// Each bit that does not count, set alone.
fn one_bit_more(text: &mut Text) {
    for bit in 8..16 {
        idle(text, FEATURE | 1 << bit, 0, LBA);
    }
    for bit in 28..64 {
        idle(text, FEATURE, 0, LBA | 1 << bit);
    }
    for bit in 0..16 {
        idle(text, FEATURE, 1 << bit, LBA);
    }
}

fn idle(text: &mut Text, feature: u16, count: u16, lba: u64) {
    text.command(IDLE_IMMEDIATE, feature, count, lba, 0);
}
