//! Scripts: SCSI data that the device writes.

use super::draft::Case;
use super::script_text::{other, row_of, storage, table_a, Text, ALL};
use crate::rules::table::Element;

/// A lent buffer that every list fits.
const LONG: usize = 0x1_0000;
/// An allocation length above every list.
const WHOLE: u32 = 0x1_0000;

pub fn cases() -> Vec<Case> {
    vec![
        requests(),
        allocations(),
        buffers(),
        lists(),
        most_elements(),
        in_removal(),
    ]
}

/// Elements on both sides of filter and report type.
fn mixed_table() -> Vec<Element> {
    let unreported = Element {
        unreported: true,
        ..storage(0x0102_0304, 0xCF, 1 << 40)
    };
    let slow = Element {
        health: 0xCF,
        ..other(0x30, 0x02)
    };
    vec![
        storage(0x10, 0x64, 10),
        storage(0x20, 0x65, 0x0001_0203_0405),
        slow,
        unreported,
        storage(0xFFFF_FFFF, 0x00, 10),
    ]
}

/// "a filter above 1 or a report type above 1 is due 4, wild values among them".
fn requests() -> Case {
    let mut text = Text::new();
    text.make(&mixed_table(), 3);
    for filter in [0, 1, 2, 3, 4, 5, 0x40, 0x80, 0xC0, 0xFE, 0xFF] {
        for report_type in [0, 1, 2, 3, 0x10, 0x11, 0x80, 0xFE, 0xFF] {
            text.scsi((filter, report_type, 0), WHOLE, LONG);
        }
    }
    check_order(&mut text);
    text.named("scsi-requests")
}

/// "4 ..; last, .. 7", whatever the allocation length.
fn check_order(text: &mut Text) {
    for filter in [0, 1, 2, 4, 0xFF] {
        for report_type in [0, 2, 0xFF] {
            for (allocation, length) in [(0, 0), (1, 0), (32, 31), (WHOLE, 0), (WHOLE, 95)] {
                text.scsi((filter, report_type, 0), allocation, length);
            }
        }
    }
}

/// Every allocation length of a small list; "0 writes nothing; 1 to 31 cut the
/// header".
fn allocations() -> Case {
    let mut text = Text::new();
    text.make(&mixed_table()[2..], 0x02);
    for allocation in 0..=130 {
        text.scsi(ALL, allocation, LONG);
    }
    text.make(&table_a(), 2);
    large_allocations(&mut text);
    text.named("scsi-allocations")
}

/// Allocation lengths about and above the 160 bytes of a list, of any size.
fn large_allocations(text: &mut Text) {
    for allocation in [159, 160, 161, 192, 512, 0xFFFF, 0x1_0000, 0x1_0001] {
        text.scsi(ALL, allocation, LONG);
    }
    for allocation in [0x8000_0000, u32::MAX] {
        text.scsi(ALL, allocation, 160);
        text.scsi(ALL, allocation, 159);
        text.scsi((1, 1, 0x0002_0000), allocation, 32);
        text.scsi((1, 1, 0x0002_0000), allocation, 31);
    }
}

/// "7 if the buffer is below the bytes to be written"; a longer one keeps the rest.
fn buffers() -> Case {
    let mut text = Text::with_a();
    for allocation in [0, 1, 2, 31, 32, 33, 63, 64, 65, 159, 160, 161, 0x1_0000] {
        let written = allocation.min(160) as usize;
        for length in [0, written.saturating_sub(1), written, written + 1] {
            text.scsi(ALL, allocation, length);
        }
    }
    // The filter shortens the list.
    for length in [0, 31, 32, 63, 64, 65, 160] {
        text.scsi((1, 0, 0), WHOLE, length);
        text.scsi((1, 0, 0), 64, length);
        text.scsi((1, 0, 0), 40, length);
    }
    text.named("scsi-buffers")
}

/// Start, report type and filter.
fn lists() -> Case {
    let mut text = Text::new();
    text.make(&mixed_table(), 0);
    starts(&mut text);
    filter_borders(&mut text);
    text.named("scsi-lists")
}

/// "identifier at or above the start", of 32 bits.
fn starts(text: &mut Text) {
    for start in [
        0,
        1,
        0xF,
        0x10,
        0x11,
        0x20,
        0x30,
        0x31,
        0x0102_0303,
        0x0102_0304,
        0x0102_0305,
        0x0403_0201,
        0x7FFF_FFFF,
        0x8000_0000,
        0xFFFF_FFFE,
        0xFFFF_FFFF,
    ] {
        text.scsi((0, 0, start), WHOLE, LONG);
        text.scsiread((0, 0, start));
    }
    for start in [0x11, 0x21, 0x0102_0305] {
        for (filter, report_type) in [(1, 0), (0, 1), (1, 1)] {
            text.scsi((filter, report_type, start), WHOLE, LONG);
        }
    }
}

/// "with filter 01b only health 65h to CFh, or FFh".
fn filter_borders(text: &mut Text) {
    let healths = [0x00, 0x64, 0x65, 0x66, 0xCE, 0xCF, 0x63];
    let table: Vec<Element> = (1..).zip(healths).map(|(k, h)| storage(k, h, 10)).collect();
    text.make(&table, 0);
    text.scsi((1, 0, 0), WHOLE, LONG);
    text.removal(1, 0);
    text.scsi((1, 0, 0), WHOLE, LONG);
    text.scsiread((1, 0, 0));
}

/// 128 elements, cut as pages are and whole.
fn most_elements() -> Case {
    let mut text = Text::new();
    text.make(&row_of(128), 128);
    text.scsi(ALL, 512, 512);
    text.scsi(ALL, 4128, 4127);
    text.scsi(ALL, 4127, 4127);
    text.scsiread(ALL);
    text.scsi(ALL, 4128, 4128);
    text.scsi((0, 1, 0x7F), WHOLE, LONG);
    text.scsi((1, 0, 0), 100, LONG);
    text.named("scsi-most-elements")
}

/// Bytes 8..11 name the element throughout; the health is the stored one.
fn in_removal() -> Case {
    let mut text = Text::with_a();
    text.scsi(ALL, 96, 96);
    text.remove(0x0001_0003, 0);
    for event in [
        "step", "step", "step", "step", "error", "step", "step", "cut", "step", "step", "step",
        "step",
    ] {
        text.scsi((1, 0, 0), 64, 64);
        text.scsiread((1, 0, 0));
        text.line(event);
    }
    text.scsi(ALL, WHOLE, LONG);
    text.cells();
    removed_number(&mut text);
    text.named("scsi-in-removal")
}

/// "14..15 number at FFh", over the whole table whatever the request and the cut.
fn removed_number(text: &mut Text) {
    text.make(&row_of(5), 5);
    for identifier in [1, 2, 5] {
        text.removal(identifier, 0);
        for (request, allocation) in [(ALL, 32), ((0, 0, 3), 64), ((1, 0, 0), 96), ((1, 1, 6), 96)]
        {
            text.scsi(request, allocation, 96);
            text.scsiread(request);
        }
    }
}
