//! Scripts: tables good and bad in every way that document 01 names.

use super::draft::Case;
use super::script_text::{other, row_of, storage, table_a, Text};
use crate::rules::table::Element;

pub fn cases() -> Vec<Case> {
    vec![
        counts(),
        identifiers(),
        healths(),
        types(),
        sums(),
        limits(),
        flags(),
        refused_keeps(),
        pairs_of_faults(),
    ]
}

/// "1 to 128 elements".
fn counts() -> Case {
    let mut text = Text::new();
    for number in [0, 1, 2, 127, 128, 129, 130, 200] {
        text.make(&row_of(number), 0);
    }
    text.cells();
    text.named("table-counts")
}

/// "identifiers 1 to FFFF_FFFFh, strictly ascending".
fn identifiers() -> Case {
    let mut text = Text::new();
    let tables: [&[u32]; 14] = [
        &[0],
        &[0, 1],
        &[1, 0],
        &[1],
        &[0xFFFF_FFFF],
        &[1, 0xFFFF_FFFF],
        &[0xFFFF_FFFF, 0xFFFF_FFFF],
        &[5, 5],
        &[5, 4],
        &[5, 6, 6],
        &[5, 7, 6],
        &[0xFFFF, 0x1_0000],
        &[0x1_0000, 0xFFFF],
        &[0x7FFF_FFFF, 0x8000_0000],
    ];
    for table in tables {
        let elements: Vec<Element> = table.iter().map(|&id| storage(id, 0, 10)).collect();
        text.make(&elements, 0);
    }
    text.cells();
    text.named("table-identifiers")
}

/// "a health 00h to CFh", at the first and at the last element.
fn healths() -> Case {
    let mut text = Text::new();
    for health in 0..=0xFF {
        text.make(&[storage(1, health, 10), storage(2, 0, 10)], 0);
    }
    for health in [0xCF, 0xD0, 0xFE, 0xFF] {
        text.make(&[storage(1, 0, 10), storage(2, health, 10)], 0);
        text.make(
            &[
                storage(1, 0, 10),
                Element {
                    health,
                    ..other(2, 0x02)
                },
            ],
            0,
        );
    }
    text.cells();
    text.named("table-healths")
}

/// "A type other than 01h has block count 0."
fn types() -> Case {
    let mut text = Text::new();
    for element_type in 0..=0xFF {
        for blocks in [0, 1] {
            let odd = Element {
                blocks,
                ..other(2, element_type)
            };
            text.make(&[storage(1, 0, 10), odd], 0);
        }
    }
    text.make(&[other(1, 0x02), storage(2, 0, 10), other(3, 0x00)], 0);
    text.cells();
    text.make(&[other(1, 0x02)], 0);
    text.named("table-types")
}

/// "The blocks sum to between 2 and 2^48", sums past 64 bits among them.
fn sums() -> Case {
    let two_48: u64 = 1 << 48;
    let two_63: u64 = 1 << 63;
    let mut text = Text::new();
    let tables: [&[u64]; 20] = [
        &[0],
        &[1],
        &[2],
        &[0, 0],
        &[1, 0],
        &[1, 1],
        &[0, 2],
        &[two_48 - 1],
        &[two_48],
        &[two_48 + 1],
        &[two_48 - 1, 1],
        &[two_48, 0],
        &[two_48, 1],
        &[1, two_48],
        &[u64::MAX],
        &[u64::MAX, 3],
        &[u64::MAX, u64::MAX],
        &[two_63, two_63, 5],
        &[two_63, two_63, 0],
        &[two_48 / 2, two_48 / 2],
    ];
    for table in tables {
        let elements: Vec<Element> = (1..)
            .zip(table)
            .map(|(id, &blocks)| storage(id, 0, blocks))
            .collect();
        text.make(&elements, 0);
        text.cells();
    }
    let full: Vec<Element> = (1..=128).map(|id| storage(id, 0, 1 << 41)).collect();
    text.make(&full, 0);
    let over: Vec<Element> = (1..=128).map(|id| storage(id, 0, u64::MAX)).collect();
    text.make(&over, 0);
    // 128 times 2^57 is 2^64: nothing, if only 64 bits are kept.
    let wrapped: Vec<Element> = (1..=128).map(|id| storage(id, 0, 1 << 57)).collect();
    text.make(&wrapped, 0);
    text.command(0x12, 0, 1, 0x7F, 0x200);
    text.named("table-sums")
}

/// "A removal limit, 0 to 128".
fn limits() -> Case {
    let mut text = Text::new();
    for limit in [0, 1, 2, 127, 128, 129, 130, 255, 256, 257, 0x8000, 0xFFFF] {
        text.make(&table_a(), limit);
        text.cells();
    }
    text.named("table-limits")
}

/// The flag "capacity unreported" is allowed on any type.
fn flags() -> Case {
    let mut table = table_a();
    for one in &mut table {
        one.unreported = true;
    }
    let mut text = Text::new();
    text.make(&table, 2);
    text.cells();
    text.command(0x12, 0, 1, 0, 0x200);
    text.read(0, 1, 0);
    // A removal still uses the true blocks.
    text.removal(0x3, 0);
    text.cells();
    text.command(0x12, 0, 1, 0, 0x200);
    text.named("table-flags")
}

/// 8 leaves the device as it was, and the list is empty afterwards.
fn refused_keeps() -> Case {
    let mut text = Text::with_a();
    text.cut_removal(0x0001_0003, 2);
    text.remove(0x1, 0);
    text.steps(2);
    text.make(&[storage(9, 0xD0, 10)], 0);
    text.cells();
    text.line("make 0");
    text.line("element 7 1 0 64 0");
    text.line("make 81");
    text.line("make 0");
    text.cells();
    text.line("element 7 1 0 64 0");
    text.line("make 0");
    text.cells();
    text.line("make 0");
    text.cells();
    text.named("table-refused-keeps")
}

/// Two faults at once, and a fault cured.
fn pairs_of_faults() -> Case {
    let mut text = Text::new();
    text.make(&[storage(0, 0xD0, 10)], 0);
    text.make(&[storage(0, 0, 1)], 129);
    text.make(&[storage(2, 0, 0), other(1, 0x02)], 0);
    text.make(&row_of(129), 129);
    text.cells();
    text.make(&row_of(128), 128);
    text.cells();
    text.named("table-two-faults")
}
