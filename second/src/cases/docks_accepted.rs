//! SCSI data: values that look odd and offend in no way.

use super::draft::{Case, Draft};
use crate::rules::layout::{self, descriptor};

/// This data, in order.
pub fn cases() -> Vec<Case> {
    let mut cases = headers();
    cases.extend(descriptors());
    cases.extend(capacities());
    cases.extend(reserved());
    cases
}

/// Busy, limit and removed are not checked.
fn headers() -> Vec<Case> {
    let one = || Draft::dock(1);
    vec![
        one().busy(0x0A0B_0C0D).named("busy-a0b0c0d"),
        one().limit(0x0102).named("limit-102"),
        one().removed(0x0304).named("removed-304"),
        one()
            .busy(u32::MAX)
            .limit(u16::MAX)
            .removed(u16::MAX)
            .named("header-maximal"),
        Draft::dock(0)
            .busy(0x1234_5678)
            .limit(0x9ABC)
            .removed(0xDEF0)
            .named("header-empty-list"),
    ]
}

fn descriptors() -> Vec<Case> {
    let mut cases = Vec::new();
    let mut healths = Draft::dock(48);
    for health in 0xD0..=0xFFu8 {
        healths = healths.health(usize::from(health) - 0xD0, health);
    }
    cases.push(healths.named("health-d0-to-ff"));
    for (spot, k) in [("first", 0), ("middle", 1), ("last", 2)] {
        let draft = Draft::dock(3).flags(k, 1).health(k, 0xFF);
        cases.push(draft.named(&format!("restore-ff-{}", spot)));
    }
    let types = Draft::dock(3)
        .element_type(0, 0x00)
        .element_type(1, 0x80)
        .element_type(2, 0xFF);
    cases.push(types.named("type-00-80-ff"));
    cases.push(
        Draft::dock(1)
            .identifier(0, u32::MAX)
            .named("identifier-most"),
    );
    cases.push(Draft::dock(1).identifier(0, 1).named("identifier-1"));
    cases
}

/// "capacity, `-` for all ones".
fn capacities() -> Vec<Case> {
    let values: [u64; 11] = [
        u64::MAX,
        u64::MAX - 1,
        0,
        1,
        500,
        1 << 32,
        1 << 56,
        0x0102_0304_0506_0708,
        0xFFFF_FFFF_0000_0000,
        0x0000_0000_FFFF_FFFF,
        10_000_000_000_000_000_000,
    ];
    let mut all = Draft::dock(values.len());
    for (k, value) in values.into_iter().enumerate() {
        all = all.capacity(k, value);
    }
    // All ones but for one byte of the field, each in turn.
    let mut nearly = Draft::dock(8);
    for k in 0..8 {
        let place = descriptor(k) + layout::CAPACITY + k;
        nearly = nearly.capacity(k, u64::MAX).byte(place, 0xFE);
    }
    vec![
        all.named("capacities"),
        nearly.named("capacities-nearly-ones"),
    ]
}

/// "Reserved bytes are not looked at", each by itself and all together.
fn reserved() -> Vec<Case> {
    let mut each = Draft::dock(17);
    let places = (0..4).chain(8..13).chain(24..32);
    for (k, byte) in places.clone().enumerate() {
        each = each.byte(descriptor(k) + byte, 0xFF);
    }
    let mut all = Draft::dock(2);
    for byte in places {
        all = all.byte(descriptor(0) + byte, 0xA5);
        all = all.byte(descriptor(1) + byte, 0x5A);
    }
    for place in 16..32 {
        all = all.byte(place, 0xFF);
    }
    let mut flags = Draft::dock(7);
    for bit in 1..8 {
        flags = flags.flags(bit - 1, 1 << bit);
    }
    vec![
        Draft::dock(1).byte(16, 1).named("reserved-header-first"),
        Draft::dock(1).byte(31, 1).named("reserved-header-last"),
        each.named("reserved-each"),
        all.flags(0, 0xFE).flags(1, 0x80).named("reserved-all"),
        flags.named("reserved-flags"),
    ]
}
