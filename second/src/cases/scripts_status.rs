//! Scripts: GET PHYSICAL ELEMENT STATUS.

use super::draft::Case;
use super::script_text::{other, row_of, storage, table_a, Text};
use crate::rules::table::Element;

pub fn cases() -> Vec<Case> {
    vec![
        features(),
        ignored_bits(),
        starts(),
        page_counts(),
        buffers(),
        check_order(),
        filter_borders(),
        most_elements(),
        in_removal(),
        removed_number(),
    ]
}

/// Elements on both sides of filter and report type.
fn mixed_table() -> Vec<Element> {
    vec![
        storage(0x10, 0x64, 10),
        storage(0x20, 0x65, 10),
        Element {
            health: 0x64,
            ..other(0x30, 0x02)
        },
        Element {
            health: 0xCF,
            ..other(0x0001_0000, 0x00)
        },
        storage(0x0001_0010, 0xCF, 1 << 40),
        storage(0xFFFF_FFFF, 0x00, 10),
    ]
}

/// "FEATURE 15:14 filter, 11:8 report type": all 64 of them.
fn features() -> Case {
    let mut text = Text::new();
    text.make(&mixed_table(), 3);
    for filter in 0..4 {
        for report_type in 0..16 {
            let feature = filter << 14 | report_type << 8;
            text.command(0x12, feature, 1, 0, 0x200);
        }
    }
    text.named("status-features")
}

/// Of LBA "those above bit 47 are ignored".
fn ignored_bits() -> Case {
    let mut text = Text::new();
    text.make(&mixed_table(), 0);
    for feature in [0x0000, 0x0100, 0x4000, 0x4100] {
        text.command(0x12, feature, 1, 0xFFFF << 48, 0x200);
    }
    for bit in 48..64 {
        text.command(0x12, 0x4100, 1, 0x11 | 1 << bit, 0x200);
    }
    text.named("status-ignored-bits")
}

/// "identifier at or above the start", which is LBA 31:0.
fn starts() -> Case {
    let mut text = Text::new();
    text.make(&mixed_table(), 0);
    let starts: [u64; 22] = [
        0,
        1,
        0xF,
        0x10,
        0x11,
        0x1F,
        0x20,
        0x21,
        0xFFFF,
        0x1_0000,
        0x1_0001,
        0x1_0010,
        0x1_0011,
        0x7FFF_FFFF,
        0x8000_0000,
        0x8000_0010,
        0xFFFF_FFFE,
        0xFFFF_FFFF,
        0x1_0000_0000_0000,
        0x1_0000_0000_0020,
        0x8000_0000_0000_0010,
        0xFFFF_0000_FFFF_FFFF,
    ];
    for start in starts {
        text.command(0x12, 0, 1, start, 0x200);
    }
    for start in [0x11, 0x1_0001, 0xFFFF_FFFF] {
        text.command(0x12, 0x4100, 1, start, 0x200);
    }
    text.named("status-starts")
}

/// COUNT = pages, up to the longest buffer and beyond.
fn page_counts() -> Case {
    let mut text = Text::with_a();
    for count in [0, 1, 2, 3, 9, 127, 128, 129, 256, 0x8000, 0xFFFF] {
        text.command(0x12, 0, count, 0, 0x1_0000);
    }
    text.make(&row_of(40), 0);
    for count in [1, 2, 3] {
        text.command(0x12, 0, count, 0, 0x1_0000);
        text.read(0, count, 0);
    }
    text.named("status-page-counts")
}

/// "then the buffer below 512p bytes: 7"; bytes past 512p stay.
fn buffers() -> Case {
    let mut text = Text::with_a();
    for (count, length) in [
        (1, 0),
        (1, 1),
        (1, 0x1FF),
        (1, 0x200),
        (1, 0x201),
        (1, 0x1_0000),
        (2, 0x200),
        (2, 0x3FF),
        (2, 0x400),
        (2, 0x401),
        (128, 0xFFFF),
        (128, 0x1_0000),
        (129, 0x1_0000),
    ] {
        text.command(0x12, 0x4000, count, 0, length);
    }
    // The other commands leave every lent byte alone.
    text.command(0x25, 0, 1, 0, 0x200);
    text.command(0x7C, 0, 3, 0, 0x200);
    text.command(0xEC, 0, 1, 0, 0x200);
    text.named("status-buffers")
}

/// A bad filter or report type with a short buffer: 4 before 7.
fn check_order() -> Case {
    let mut text = Text::with_a();
    for feature in [0x8000, 0xC000, 0x0200, 0x0F00, 0x8200, 0x4000, 0x4100] {
        for (count, length) in [(0, 0), (0, 0x200), (1, 0), (1, 0x1FF), (2, 0x200)] {
            text.command(0x12, feature, count, 0, length);
        }
    }
    // A refused request leaves the kept page as it was.
    text.command(0x12, 0x4100, 1, 0, 0x200);
    text.command(0x12, 0x8000, 1, 0, 0x200);
    text.command(0x12, 0x4100, 1, 0, 0x1FF);
    text.read(0x4100, 1, 0);
    text.named("status-check-order")
}

/// "only health 65h to CFh, or FFh": every health up to CFh, and FFh.
fn filter_borders() -> Case {
    let mut text = Text::new();
    let low: Vec<Element> = (0..104).map(|k| storage(1 + k, k as u8, 10)).collect();
    text.make(&low, 0);
    text.removal(3, 0);
    text.command(0x12, 0x4000, 1, 0, 0x200);
    let high: Vec<Element> = (104..208).map(|k| storage(1 + k, k as u8, 10)).collect();
    text.make(&high, 0);
    text.command(0x12, 0x4100, 7, 0, 0xE00);
    text.read(0x4100, 7, 0);
    text.named("status-filter-borders")
}

/// 128 elements: pages too small, just large enough, and larger.
fn most_elements() -> Case {
    let mut text = Text::new();
    text.make(&row_of(128), 128);
    for count in [1, 8, 9, 10] {
        text.command(0x12, 0, count, 0, 0x1400);
    }
    text.command(0x12, 0, 1, 0x72, 0x200);
    text.command(0x12, 0, 1, 0x71, 0x200);
    text.command(0x12, 0x4000, 2, 0, 0x400);
    text.named("status-most-elements")
}

/// "Allowed during a removal"; bytes 8..11 name the element throughout.
fn in_removal() -> Case {
    let mut text = Text::with_a();
    text.command(0x12, 0, 1, 0, 0x200);
    text.remove(0x0001_0003, 0);
    for event in [
        "step",
        "step",
        "step",
        "softreset",
        "step",
        "error",
        "step",
        "step",
        "cut",
        "step",
        "step",
        "step",
        "step",
    ] {
        text.command(0x12, 0x4000, 1, 0, 0x200);
        text.line(event);
    }
    text.command(0x12, 0, 1, 0, 0x200);
    text.named("status-in-removal")
}

/// "14..15 number at FFh", over the whole table whatever the request.
fn removed_number() -> Case {
    let mut text = Text::new();
    text.make(&row_of(8), 8);
    for identifier in [1, 2, 8] {
        text.removal(identifier, 0);
        for (feature, start) in [(0, 0), (0, 5), (0x4000, 0), (0x4100, 9)] {
            text.command(0x12, feature, 1, start, 0x200);
            text.read(feature, 1, start);
        }
    }
    text.make(&table_a(), 2);
    text.command(0x12, 0x4000, 1, 0, 0x200);
    text.named("status-removed-number")
}
