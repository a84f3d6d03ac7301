//! Scripts: the SCSI reader under every filter, report type and start.

use super::draft::{usual_identifier, Case, Draft};
use super::script_text::{row_of, ScsiWords, Text, ALL};
use crate::rules::layout::{descriptor, Order};

/// Each filter with each report type.
const KINDS: [(u8, u8); 4] = [(0, 0), (0, 1), (1, 0), (1, 1)];

pub fn cases() -> Vec<Case> {
    vec![
        descriptors(),
        pairs_of_offences(),
        returned(),
        lengths(),
        requests(),
        other_requests(),
        other_kind(),
    ]
}

/// Three descriptors that every filter and report type takes.
fn base() -> Draft {
    Draft::dock(3)
        .health(0, 0x70)
        .health(1, 0xFF)
        .health(2, 0x65)
        .limit(9)
        .removed(1)
}

/// Reads under each filter and report type, from start 0, from the first
/// identifier, and from one above it.
fn read_all(text: &mut Text) {
    for (filter, report_type) in KINDS {
        for start in [0, 0x100, 0x101] {
            text.scsiread((filter, report_type, start));
        }
    }
}

/// A script that reads each of some changed data.
fn script_of(name: &str, changed: &[Draft]) -> Case {
    Text::new()
        .read_each(&base(), changed, read_all)
        .named(name)
}

/// Each offence of a descriptor, and values beside it: the first, the middle and
/// the last.
fn descriptors() -> Case {
    let mut changed = Vec::new();
    for k in 0..3 {
        changed.extend(identifiers(k));
        changed.push(base().flags(k, 0x01));
        changed.push(base().flags(k, 0xFE));
        changed.push(base().flags(k, 0xFF).health(k, 0xFE));
        for element_type in [0x00, 0x02, 0x81] {
            changed.push(base().element_type(k, element_type));
        }
        for health in [0x00, 0x64, 0xCF, 0xD0, 0xFE] {
            changed.push(base().health(k, health));
        }
    }
    script_of("scsiread-descriptors", &changed)
}

/// "identifier 0, below the start, or not above the one before", big-endian.
fn identifiers(k: usize) -> [Draft; 5] {
    let usual = usual_identifier(k);
    [
        base().identifier(k, 0),
        base().identifier(k, usual - 0x10),
        base().identifier(k, usual - 0x11),
        base().identifier(k, 0xFFFF_FFFF),
        base().in_order(Order::Little).identifier(k, usual),
    ]
}

/// "first offence reported, descriptor by descriptor": 4, 13, 14, 15.
fn pairs_of_offences() -> Case {
    let mut changed = Vec::new();
    for k in [0, 2] {
        changed.push(base().identifier(k, 0).flags(k, 1));
        changed.push(base().flags(k, 1).element_type(k, 2).health(k, 0x64));
        changed.push(base().element_type(k, 2).health(k, 0x64));
    }
    changed.push(base().health(0, 0x64).identifier(1, 0));
    changed.push(base().element_type(0, 2).identifier(1, 0));
    changed.push(base().health(1, 0x64).flags(2, 1));
    changed.push(base().element_type(1, 0).health(0, 0x64));
    changed.push(base().returned(2).identifier(0, 0));
    changed.push(base().both(2).health(1, 0x64).identifier(2, 0));
    script_of("scsiread-pairs", &changed)
}

/// "returned not N (4)", before all descriptors; N x 32 does not wrap.
fn returned() -> Case {
    let mut changed = Vec::new();
    for value in [0, 2, 4, 0x0300_0000, 0x0800_0003, 0xFFFF_FFFF] {
        changed.push(base().returned(value));
        changed.push(base().number(value));
        changed.push(base().both(value));
    }
    for value in [0x0400_0000, 0x07FF_FFFF, 0x0800_0000, 0x0800_0001] {
        changed.push(base().both(value));
    }
    changed.push(base().in_order(Order::Little).both(3));
    script_of("scsiread-returned", &changed)
}

/// Cut, torn, whole and longer.
fn lengths() -> Case {
    let mut text = Text::new();
    past_the_list(&mut text);
    cuts(&mut text);
    torn_offences(&mut text);
    text.named("scsiread-lengths")
}

/// "then the first byte past the list", zero or not, after all descriptors.
fn past_the_list(text: &mut Text) {
    text.page(&base());
    for length in [0x81, 0x9F, 0xA0, 0x200, 0x1_0000, 0x80] {
        text.line(&format!("length {:x}", length));
        text.scsiread(ALL);
        text.scsiread((1, 1, 0x100));
        text.scsiread((1, 1, 0x101));
    }
    // N goes down; the descriptors past it are not judged.
    for number in [2, 1, 0] {
        text.turn(&base(), &base().both(number).identifier(2, 0));
        text.scsiread(ALL);
    }
    text.line("length 20");
    text.scsiread(ALL);
}

/// Every length from a byte past the list down to 0.
fn cuts(text: &mut Text) {
    text.page(&base());
    for length in (0..=descriptor(3) + 1).rev() {
        text.line(&format!("length {:x}", length));
        text.scsiread((1, 1, 0x100));
    }
}

/// An offence is told as long as its descriptor is whole.
fn torn_offences(text: &mut Text) {
    for changed in [
        base().identifier(2, 0),
        base().flags(2, 1),
        base().element_type(2, 2),
        base().health(2, 0x64),
        base().health(0, 0x64).identifier(2, 0),
    ] {
        text.page(&changed);
        for length in [128, 127, 112, 97, 96, 95, 64, 63] {
            text.line(&format!("length {:x}", length));
            text.scsiread((1, 1, 0));
        }
    }
}

/// "a request with a filter or report type due 4 (0)", as is a short length.
fn requests() -> Case {
    let mut text = Text::new();
    let bad = base().returned(2).identifier(0, 0);
    for draft in [base(), bad] {
        text.page(&draft);
        for filter in [0, 1, 2, 3, 4, 0x40, 0xFE, 0xFF] {
            for report_type in [0, 1, 2, 0x10, 0xFF] {
                text.scsiread((filter, report_type, 0));
            }
        }
    }
    for length in ["1f", "0"] {
        text.line(&format!("length {}", length));
        for request in [(0, 0, 0), (2, 0, 0), (0, 2, 0), (1, 1, 1), (0xFF, 0xFF, 0)] {
            text.scsiread(request);
        }
    }
    starts(&mut text);
    text.named("scsiread-requests")
}

/// The start has 32 bits.
fn starts(text: &mut Text) {
    for identifier in [1, 0x0102_0304, 0x8000_0000, 0xFFFF_FFFF] {
        text.page(&Draft::dock(1).identifier(0, identifier));
        for start in [0, 1, 2, 0x0102_0304, 0x0102_0305, 0x0403_0201] {
            text.scsiread((0, 0, start));
        }
        for start in [0x7FFF_FFFF, 0x8000_0000, 0x8000_0001, 0xFFFF_FFFF] {
            text.scsiread((0, 0, start));
        }
    }
    // An empty list has nothing below any start.
    text.page(&Draft::dock(0));
    text.scsiread((1, 1, 0xFFFF_FFFF));
}

/// What the device wrote for one request, read as the answer to another.
fn other_requests() -> Case {
    let mut text = Text::with_a();
    let ask = |text: &mut Text, request: ScsiWords| {
        text.scsi(request, 0x1_0000, 0x1_0000);
        for (filter, report_type) in KINDS {
            for start in [0, request.2, request.2 + 1, 0x0002_0001] {
                text.scsiread((filter, report_type, start));
            }
        }
    };
    for (filter, report_type) in KINDS {
        ask(&mut text, (filter, report_type, 0));
    }
    ask(&mut text, (0, 0, 3));
    ask(&mut text, (1, 1, 0x0001_0003));
    text.removal(0x3, 0);
    ask(&mut text, (1, 0, 0));
    text.named("scsiread-other-requests")
}

/// ATA pages read as SCSI data, and SCSI data read as pages.
fn other_kind() -> Case {
    let mut text = Text::new();
    for number in [1, 15, 16] {
        text.make(&row_of(number), 0);
        text.command(0x12, 0, 1, 0, 0x200);
        text.scsiread(ALL);
        for length in ["40", "3f", "20"] {
            text.line(&format!("length {}", length));
            text.scsiread(ALL);
        }
        text.scsi(ALL, 0x200, 0x200);
        text.read(0, 1, 0);
        text.line("length 200");
        text.read(0, 1, 0);
        text.scsiread(ALL);
    }
    // Of zeros 32 bytes are SCSI data, and 512 a page.
    text.line("length 0");
    text.line("length 20");
    text.scsiread(ALL);
    text.line("length 200");
    text.scsiread(ALL);
    text.read(0, 1, 0);
    text.named("scsiread-other-kind")
}
