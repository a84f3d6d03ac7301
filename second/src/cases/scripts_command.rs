//! Scripts: "The other commands", through the front call.

use super::draft::Case;
use super::rng::Rng;
use super::script_text::{command_line, storage, table_a, Text};

pub fn cases() -> Vec<Case> {
    vec![
        codes_at_rest(),
        codes_in_removal(),
        codes_with_mark(),
        codes_in_removal_with_mark(),
        logs_in_removal(),
        subcommands_in_removal(),
        high_bits_in_removal(),
        media_borders(),
        media_count_zero(),
        media_wide(),
        check_order(),
        wild_registers(),
    ]
}

/// All 256 codes under each security state. With zero registers 7Ch and 12h
/// are refused and the media accesses reach sector 65,535.
fn all_codes(text: &mut Text, count: u16) {
    for state in ["locked", "unlocked", "frozen"] {
        for code in 0..=0xFF {
            text.line(&command_line(state, code, 0, count, 0, 0));
        }
    }
    text.cells();
}

fn codes_at_rest() -> Case {
    let mut text = Text::with_a();
    all_codes(&mut text, 0);
    text.named("codes-at-rest")
}

fn codes_in_removal() -> Case {
    let mut text = Text::with_a();
    text.remove(0x3, 0);
    all_codes(&mut text, 0);
    text.named("codes-in-removal")
}

fn codes_with_mark() -> Case {
    let mut text = Text::with_a();
    text.cut_removal(0x3, 1);
    all_codes(&mut text, 0);
    text.named("codes-with-mark")
}

fn codes_in_removal_with_mark() -> Case {
    let mut text = Text::with_a();
    text.cut_removal(0x3, 1);
    text.remove(0x1, 0);
    all_codes(&mut text, 2);
    text.named("codes-in-removal-with-mark")
}

/// "2Fh and 47h for logs 04h, 10h, 30h, E0h", B0h "with D5h for logs 30h, E0h".
fn logs_in_removal() -> Case {
    let mut text = Text::with_a();
    text.remove(0x3, 0);
    for log in 0..=0xFF {
        text.command(0x2F, 0, 1, log, 0);
        text.command(0x47, 0, 1, log, 0);
        text.command(0xB0, 0xD5, 1, log, 0);
    }
    text.named("logs-in-removal")
}

/// "EFh with 07h; B0h with D5h .. or with DAh"; E1h with 44h.
fn subcommands_in_removal() -> Case {
    let mut text = Text::with_a();
    text.remove(0x3, 0);
    for subcommand in 0..=0xFF {
        text.command(0xEF, subcommand, 0, 0x30, 0);
        text.command(0xB0, subcommand, 0, 0x30, 0);
        text.command(0xB0, subcommand, 0, 0x04, 0);
        text.command(0xE1, subcommand, 0, 0x055_4E4C, 0);
    }
    text.named("subcommands-in-removal")
}

/// Subcommands and logs are low bytes; what lies above is ignored.
fn high_bits_in_removal() -> Case {
    let mut text = Text::with_a();
    text.remove(0x3, 0);
    for (code, feature, lba) in [
        (0xEF, 0xFF07, u64::MAX),
        (0xEF, 0x0700, 7),
        (0xB0, 0xAAD5, 0xC24F_0030),
        (0xB0, 0x01D5, 0xFFFF_FFFF_FFFF_FFE0),
        (0xB0, 0xD500, 0x30),
        (0xB0, 0xD5DA, 0xC2_4F00),
        (0xB0, 0xDA00, 0),
        (0x2F, 0xFFFF, 0x1234_5678_9A04),
        (0x47, 0xFFFF, 0x1_0000_0000_0010),
        (0x47, 0x0030, 0x3000),
        (0x2F, 0x0004, 0x0400),
        (0xE1, 0xFF44, 0xFFFF_FFFF_F055_4E4C),
        (0xEC, 0xFFFF, u64::MAX),
        (0x0B, 0xFFFF, u64::MAX),
        (0xF2, 0xFFFF, u64::MAX),
    ] {
        for count in [0, 1, 0xFFFF] {
            text.command(code, feature, count, lba, 0x10);
        }
    }
    text.named("high-bits-in-removal")
}

/// "last sector above the accessible max: 5".
fn media_borders() -> Case {
    let mut text = Text::with_a();
    for code in [0x24, 0x25, 0x34, 0x35, 0x42] {
        for (count, lba) in [
            (1, 0),
            (1, 2999),
            (1, 3000),
            (2, 2998),
            (2, 2999),
            (3000, 0),
            (3001, 0),
            (2999, 1),
            (3000, 1),
            (0, 0),
            (0xFFFF, 0),
            (1, 0xFFFF_FFFF_FFFF),
            (0, 0xFFFF_FFFF_FFFF),
            (1, 0x1_0000_0000_0000),
            (1, 0x1_0000_0000_0BB7),
            (1, 0x1_0000_0000_0BB8),
            (0xFFFF, u64::MAX),
        ] {
            text.command(code, 0xFFFF, count, lba, 0);
        }
    }
    text.named("media-borders")
}

/// "COUNT 0 means 65,536 sectors."
fn media_count_zero() -> Case {
    let mut text = Text::new();
    for blocks in [65_535, 65_536, 65_537] {
        text.make(&[storage(1, 0, blocks)], 0);
        for lba in [0, 1, 2] {
            text.command(0x25, 0, 0, lba, 0);
            text.command(0x35, 0, 0xFFFF, lba, 0);
        }
    }
    text.named("media-count-0")
}

/// The largest device: every address of 48 bits is there.
fn media_wide() -> Case {
    let mut text = Text::new();
    for blocks in [1 << 48, (1 << 48) - 1] {
        text.make(&[storage(1, 0, blocks)], 0);
        let last = (1 << 48) - 1;
        for (count, lba) in [
            (1, last),
            (2, last),
            (2, last - 1),
            (0, last),
            (1, u64::MAX),
        ] {
            text.command(0x24, 0, count, lba, 0);
        }
        text.command(0x24, 0, 0, last - 65_535, 0);
        text.command(0x24, 0, 0, last - 65_536, 0);
        text.command(0x24, 0, 0, last - 65_534, 0);
    }
    text.named("media-wide")
}

/// "not open: 2; unknown: 6; failed mark: 3; beyond: 5", each pair in conflict.
fn check_order() -> Case {
    let mut text = Text::with_a();
    let ask = |text: &mut Text| {
        // Beyond the maximum; within it; unknown; open.
        text.command(0x25, 0, 1, 5000, 0);
        text.command(0x25, 0, 1, 5, 0);
        text.command(0x60, 0, 1, 5000, 0);
        text.command(0x7D, 0, 1, 5, 0);
        text.command(0xEC, 0, 1, 5000, 0);
        text.command(0x2F, 0, 1, 5, 0);
    };
    ask(&mut text);
    text.remove(0x0001_0003, 0);
    ask(&mut text);
    text.line("cut");
    ask(&mut text);
    text.steps(3);
    ask(&mut text);
    text.line("step");
    ask(&mut text);
    text.remove(0x0001_0003, 0);
    ask(&mut text);
    text.steps(5);
    ask(&mut text);
    text.make(&table_a(), 2);
    ask(&mut text);
    text.named("commands-check-order")
}

/// Registers of any value for every named code, at rest and in a removal.
fn wild_registers() -> Case {
    let codes = [
        0x7C, 0x12, 0x24, 0x25, 0x34, 0x35, 0x42, 0xEC, 0xE1, 0x2F, 0x47, 0x0B, 0xF2, 0xEF, 0xB0,
    ];
    let mut rng = Rng::new(0x7C12);
    let mut text = Text::with_a();
    for _ in 0..2 {
        for code in codes {
            for _ in 0..12 {
                let (feature, count) = (rng.next() as u16, rng.next() as u16);
                let lba = rng.next() >> rng.pick(&[0, 16, 32, 52]);
                text.command(code, feature, count, lba, 0x800);
            }
        }
        text.remove(0x3, 0);
    }
    text.cells();
    text.named("wild-registers")
}
