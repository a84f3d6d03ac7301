//! Scripts: the reader under every filter, report type and start.

use super::draft::{usual_identifier, Case, Draft};
use super::script_text::{table_a, Text};
use crate::rules::layout::descriptor;

/// Each filter with each report type.
const FEATURES: [u16; 4] = [0x0000, 0x0100, 0x4000, 0x4100];

pub fn cases() -> Vec<Case> {
    vec![
        identifier_offences(),
        flag_offences(),
        type_offences(),
        health_offences(),
        pairs_in_a_descriptor(),
        pairs_of_descriptors(),
        long_list(),
        padding(),
        returned(),
        earlier_checks(),
        requests(),
        starts(),
        lengths(),
        own_pages(),
    ]
}

/// Three descriptors that every filter and report type takes.
fn base() -> Draft {
    Draft::list(1, 3)
        .health(0, 0x70)
        .health(1, 0xFF)
        .health(2, 0x65)
        .limit(9)
        .removed(1)
}

/// Reads under each filter and report type, from start 0, from the first
/// identifier, and from one above it.
fn read_all(text: &mut Text) {
    for feature in FEATURES {
        for start in [0, 0x100, 0x101] {
            text.read(feature, 1, start);
        }
    }
}

/// A script that reads each of some changed pages.
fn script_of(name: &str, changed: &[Draft]) -> Case {
    Text::new()
        .read_each(&base(), changed, read_all)
        .named(name)
}

/// "identifier 0, below the start, or not above the one before".
fn identifier_offences() -> Case {
    let mut changed = Vec::new();
    for k in 0..3 {
        changed.push(base().identifier(k, 0));
        changed.push(base().identifier(k, usual_identifier(k) - 0x10));
        changed.push(base().identifier(k, usual_identifier(k) - 0x11));
        changed.push(base().identifier(k, 0xFFFF_FFFF));
    }
    script_of("read-identifiers", &changed)
}

/// "restoration bit set while health is not FFh".
fn flag_offences() -> Case {
    let mut changed = Vec::new();
    for k in 0..3 {
        changed.push(base().flags(k, 0x01));
        changed.push(base().flags(k, 0xFE));
        changed.push(base().flags(k, 0xFF).health(k, 0xFE));
    }
    script_of("read-flags", &changed)
}

/// "type outside the report type".
fn type_offences() -> Case {
    let mut changed = Vec::new();
    for k in 0..3 {
        for element_type in [0x00, 0x02, 0x81] {
            changed.push(base().element_type(k, element_type));
        }
    }
    script_of("read-types", &changed)
}

/// "health outside the filter".
fn health_offences() -> Case {
    let mut changed = Vec::new();
    for k in 0..3 {
        for health in [0x00, 0x64, 0x65, 0xCF, 0xD0, 0xFE, 0xFF] {
            changed.push(base().health(k, health));
        }
    }
    script_of("read-healths", &changed)
}

/// Two offences in one descriptor: bytes 4, 13, 14, 15 in that order.
fn pairs_in_a_descriptor() -> Case {
    let mut changed = Vec::new();
    for k in [0, 2] {
        changed.push(base().identifier(k, 0).flags(k, 1));
        changed.push(base().identifier(k, 0).element_type(k, 2));
        changed.push(base().identifier(k, 0).health(k, 0x64));
        changed.push(base().flags(k, 1).element_type(k, 2));
        changed.push(base().flags(k, 1).health(k, 0x64));
        changed.push(base().element_type(k, 2).health(k, 0x64));
        changed.push(base().flags(k, 1).element_type(k, 2).health(k, 0xFE));
    }
    script_of("read-pairs-in-one", &changed)
}

/// "descriptor by descriptor": the earlier one is reported, whatever its byte.
fn pairs_of_descriptors() -> Case {
    let padding = descriptor(3);
    let changed = [
        base().health(0, 0x64).identifier(1, 0),
        base().element_type(0, 2).identifier(1, 0),
        base().flags(0, 1).identifier(2, 0),
        base().health(1, 0x64).flags(2, 1),
        base().health(1, 0x64).element_type(2, 0),
        base().element_type(1, 0).flags(2, 1),
        base().identifier(1, 0).health(2, 0x64),
        base().health(2, 0x64).byte(padding, 1),
        base().element_type(2, 2).byte(padding, 1),
        base().flags(2, 1).byte(511, 1),
        base().identifier(2, 0).byte(padding, 1),
    ];
    script_of("read-pairs-of-two", &changed)
}

/// A list over two pages: the first, a middle and the last descriptor.
fn long_list() -> Case {
    let mut good = Draft::list(2, 31);
    for k in 0..31 {
        good = good.element_type(k, 1).health(k, 0x70);
    }
    let mut text = Text::new();
    text.page(&good);
    text.read(0x4100, 2, 0x100);
    for k in [0, 14, 15, 16, 30] {
        for changed in [
            good.clone().identifier(k, 0),
            good.clone().flags(k, 1),
            good.clone().element_type(k, 0x10),
            good.clone().health(k, 0x64),
            good.clone().health(k, 0xD0),
        ] {
            text.turn(&good, &changed);
            text.read(0x4100, 2, 0x100);
            text.turn(&changed, &good);
        }
    }
    text.read(0x4100, 2, 0x101);
    text.read(0x4100, 1, 0);
    text.read(0x4100, 3, 0);
    text.named("read-long-list")
}

/// "then the first non-zero padding byte".
fn padding() -> Case {
    let changed = [
        base().byte(128, 1),
        base().byte(300, 0x80),
        base().byte(511, 0xFF),
        base().byte(511, 1).byte(400, 1),
    ];
    script_of("read-padding", &changed)
}

/// "returned not the smaller of N and 16p - 1 (4)", before all descriptors.
fn returned() -> Case {
    let changed = [
        base().returned(2),
        base().returned(4),
        base().returned(0),
        base().returned(0xFFFF_FFFF),
        base().returned(0x0300_0000),
        base().number(2),
        base().number(4),
        base().number(0),
        base().number(2).returned(2),
        base().number(4).returned(4),
        base().returned(2).identifier(0, 0),
        base().returned(2).element_type(0, 2).health(0, 0x64),
        base().returned(4).byte(511, 1),
    ];
    script_of("read-returned", &changed)
}

/// A request or a length that offends is reported at 0, before all else.
fn earlier_checks() -> Case {
    let mut text = Text::new();
    let bad = base().returned(2).identifier(0, 0).byte(511, 1);
    text.page(&bad);
    for (feature, count) in [
        (0x0000, 1),
        (0x0000, 2),
        (0x0000, 0),
        (0x8000, 1),
        (0x0200, 1),
        (0x8000, 2),
        (0xFFFF, 0),
    ] {
        text.read(feature, count, 0x1000);
    }
    text.line("length 1ff");
    text.read(0, 1, 0);
    text.line("length 201");
    text.read(0, 1, 0);
    text.line("length 200");
    text.read(0, 1, 0);
    text.named("read-earlier-checks")
}

/// "A request that would get 4 gets 9 at place 0"; bits above 47 stay ignored.
fn requests() -> Case {
    let mut text = Text::new();
    text.page(&base());
    for filter in 0..4 {
        for report_type in 0..16 {
            text.read(filter << 14 | report_type << 8, 1, 0);
        }
    }
    for feature in FEATURES {
        text.read(feature, 1, 0xFFFF << 48);
        text.read(feature, 0, 0);
    }
    // The same on a page without bytes.
    text.line("length 0");
    for feature in [0x0000, 0x8000, 0x0200] {
        text.read(feature, 0, 0);
        text.read(feature, 1, 0);
    }
    text.named("read-requests")
}

/// Start and identifier have 32 bits; bits of LBA above 47 do not count.
fn starts() -> Case {
    let starts = [
        0,
        0x0FFF_FFFF,
        0x7FFF_FFFF,
        0x8000_0000,
        0x8000_0001,
        0xFFFF_FFFE,
        0xFFFF_FFFF,
        0x1_0000_0000_0000,
        0x1_0000_8000_0000,
        0x1_0000_8000_0001,
        0x8000_0000_8000_0000,
        0xFFFF_0000_FFFF_FFFF,
    ];
    let mut text = Text::new();
    for identifier in [0x8000_0000, 0xFFFF_FFFF] {
        text.page(&Draft::list(1, 1).identifier(0, identifier));
        for start in starts {
            text.read(0, 1, start);
        }
    }
    // An empty list has nothing below any start.
    text.page(&Draft::blank(1));
    for start in starts {
        text.read(0x4100, 1, start);
    }
    text.named("read-starts")
}

/// "length not 512p, p being the request's count, 1 to 65,535".
fn lengths() -> Case {
    let mut text = Text::new();
    for length in [0, 1, 511, 512, 513, 1023, 1024, 0xFE00, 0xFFFF, 0x1_0000] {
        text.line(&format!("length {:x}", length));
        for count in [0, 1, 2, 127, 128, 129, 0xFFFF] {
            text.read(0, count, 0);
        }
    }
    // A good page lengthened and cut again.
    text.page(&base());
    for length in ["400", "200", "80", "200", "10000", "200"] {
        text.line(&format!("length {}", length));
        text.read(0, 1, 0);
        text.read(0, 2, 0);
        text.read(0, 0x80, 0);
    }
    text.named("read-lengths")
}

/// What the device writes is accepted for its request, not for another.
fn own_pages() -> Case {
    let mut text = Text::with_a();
    let ask = |text: &mut Text| {
        for feature in FEATURES {
            for start in [0, 4, 0xFFFF_FFFE] {
                text.command(0x12, feature, 1, start, 0x200);
                text.read(feature, 1, start);
                text.read(0x4100, 1, start);
                text.read(feature, 1, start + 1);
            }
        }
    };
    ask(&mut text);
    text.remove(0x0001_0003, 0);
    text.steps(3);
    ask(&mut text);
    text.make(&table_a(), 2);
    text.read(0, 1, 0);
    text.named("read-own-pages")
}
