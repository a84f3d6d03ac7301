//! Pages: values that look odd and offend in no way.

use super::draft::{Case, Draft};
use crate::rules::layout::{self, descriptor};

/// These pages, in order.
pub fn cases() -> Vec<Case> {
    let mut cases = Vec::new();
    cases.extend(accepted_headers());
    cases.extend(accepted_descriptors());
    cases.extend(accepted_reserved());
    cases
}

/// Busy, limit, removed: not checked, and printed whatever they are.
fn accepted_headers() -> Vec<Case> {
    let one = || Draft::list(1, 1);
    vec![
        one().busy(0x0001_0003).named("busy-10003"),
        one().busy(0xFFFF_FFFF).named("busy-ffffffff"),
        one().busy(0x0A0B_0C0D).named("busy-a0b0c0d"),
        one().limit(128).named("limit-128"),
        one().limit(0x0102).named("limit-102"),
        one().limit(0xFFFF).named("limit-ffff"),
        one().removed(1).named("removed-1"),
        one().removed(0x0304).named("removed-304"),
        one().removed(0xFFFF).named("removed-ffff"),
        one()
            .busy(u32::MAX)
            .limit(u16::MAX)
            .removed(u16::MAX)
            .named("header-maximal"),
        Draft::list(1, u32::MAX)
            .busy(u32::MAX)
            .limit(u16::MAX)
            .removed(u16::MAX)
            .named("header-maximal-full"),
        Draft::blank(1)
            .busy(0x1234_5678)
            .limit(0x9ABC)
            .removed(0xDEF0)
            .named("header-empty-list"),
    ]
}

/// Values that look odd and are accepted under filter 0 and report type 0.
fn accepted_descriptors() -> Vec<Case> {
    let mut cases = Vec::new();
    for health in [0x00, 0x64, 0x65, 0xCF, 0xD0, 0xE7, 0xFE, 0xFF] {
        let name = format!("health-{:02x}", health);
        cases.push(Draft::list(1, 1).health(0, health).named(&name));
    }
    let mut reserved = Draft::list(3, 47);
    for health in 0xD0..=0xFEu8 {
        reserved = reserved.health(usize::from(health) - 0xD0, health);
    }
    cases.push(reserved.named("health-d0-to-fe"));
    for (name, k) in [("only", 0), ("middle", 7), ("last", 14)] {
        let number = if k == 0 { 1 } else { 15 };
        let draft = Draft::list(1, number).flags(k, 1).health(k, 0xFF);
        cases.push(draft.named(&format!("restore-ff-{}", name)));
    }
    for element_type in [0x00, 0x02, 0x7F, 0x80, 0xFF] {
        let name = format!("type-{:02x}", element_type);
        cases.push(Draft::list(1, 1).element_type(0, element_type).named(&name));
    }
    for identifier in [0x1, 0xABCD, 0xDEAD_BEEF, 0xFFFF_FFFF] {
        let name = format!("identifier-{:x}", identifier);
        cases.push(Draft::list(1, 1).identifier(0, identifier).named(&name));
    }
    cases.extend(capacities());
    cases
}

fn capacities() -> Vec<Case> {
    let values: [(&str, u64); 14] = [
        ("ones", u64::MAX),
        ("ones-but-one", u64::MAX - 1),
        ("0", 0),
        ("1", 1),
        ("9", 9),
        ("10", 10),
        ("2to32", 1 << 32),
        ("2to32-less-1", (1 << 32) - 1),
        ("2to48", 1 << 48),
        ("2to63", 1 << 63),
        ("10to19", 10_000_000_000_000_000_000),
        ("10to19-less-1", 9_999_999_999_999_999_999),
        ("low-half-ones", 0x0000_0000_FFFF_FFFF),
        ("high-half-ones", 0xFFFF_FFFF_0000_0000),
    ];
    let mut cases = Vec::new();
    for (name, capacity) in values {
        let draft = Draft::list(1, 2).capacity(1, capacity);
        cases.push(draft.named(&format!("capacity-{}", name)));
    }
    // All ones but for one byte of the field, each in turn.
    for byte in 0..8 {
        let draft = Draft::list(1, 1)
            .capacity(0, u64::MAX)
            .byte(descriptor(0) + layout::CAPACITY + byte, 0xFE);
        cases.push(draft.named(&format!("capacity-ones-not-byte-{}", byte)));
    }
    cases
}

/// "Reserved bytes are not looked at", each by itself and all together.
fn accepted_reserved() -> Vec<Case> {
    let mut cases = Vec::new();
    for place in 16..32 {
        let draft = Draft::list(1, 1).byte(place, 0x01);
        cases.push(draft.named(&format!("reserved-header-{}", place)));
    }
    let reserved = (0..4).chain(8..13).chain(24..32);
    let mut all = Draft::list(1, 2);
    for byte in reserved {
        let place = descriptor(1) + byte;
        let draft = Draft::list(1, 2).byte(place, 0xFF);
        cases.push(draft.named(&format!("reserved-descriptor-{}", byte)));
        all = all.byte(place, 0xA5);
    }
    for bit in 1..8 {
        let draft = Draft::list(1, 2).flags(0, 1 << bit);
        cases.push(draft.named(&format!("reserved-flag-bit-{}", bit)));
    }
    cases.push(Draft::list(1, 2).flags(1, 0xFE).named("reserved-flags-all"));
    for place in 16..32 {
        all = all.byte(place, 0x5A);
    }
    cases.push(all.flags(0, 0xFE).flags(1, 0xFE).named("reserved-all"));
    cases
}
