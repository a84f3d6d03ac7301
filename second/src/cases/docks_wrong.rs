//! SCSI data: every offence that the listing program's request can show.

use super::draft::{usual_identifier, Case, Draft};
use super::pages_size::g1;
use crate::rules::layout::{descriptor, Order};

/// This data, in order.
pub fn cases() -> Vec<Case> {
    let mut cases = wrong_returned();
    cases.extend(wrong_descriptors());
    cases.extend(wrong_in_cuts());
    cases.extend(wrong_order());
    cases.extend(other_byte_order());
    cases.extend(two_offences());
    cases
}

/// "returned not N (4)": below it, above it, and as an ATA page would have it.
fn wrong_returned() -> Vec<Case> {
    let mut cases = Vec::new();
    for (number, returned) in [
        (0, 1),
        (1, 0),
        (3, 2),
        (3, 4),
        (3, 0),
        (3, 0x0300_0000),
        (4, 3),
        (16, 15),
        (u32::MAX, 3),
        (3, u32::MAX),
    ] {
        let name = format!("returned-{:x}-of-{:x}", returned, number);
        let draft = Draft::dock(3).number(number).returned(returned);
        cases.push(draft.named(&name));
    }
    // Data that is cut or torn, returned as it would be if it counted the rest.
    for length in [64, 96, 100] {
        let given = length as u32 / 32 - 1;
        let name = format!("returned-as-cut-{}", length);
        cases.push(Draft::dock(3).returned(given).length(length).named(&name));
    }
    cases
}

/// The first, the middle and the last descriptor of three, and the only one.
const SPOTS: [(&str, usize, usize); 4] = [
    ("only", 1, 0),
    ("first", 3, 0),
    ("middle", 3, 1),
    ("last", 3, 2),
];

/// Each offence of one descriptor.
fn wrong_descriptors() -> Vec<Case> {
    let mut cases = Vec::new();
    for (spot, number, k) in SPOTS {
        let good = Draft::dock(number);
        let before = usual_identifier(k) - 0x10;
        let mut add = |kind: &str, draft: Draft| {
            cases.push(draft.named(&format!("{}-{}", kind, spot)));
        };
        add("zero", good.clone().identifier(k, 0));
        if k > 0 {
            add("equal", good.clone().identifier(k, before));
            add("below", good.clone().identifier(k, before - 1));
        }
        add("restore", good.clone().flags(k, 0x01));
        add("restore-fe", good.flags(k, 0xFF).health(k, 0xFE));
    }
    let many = Draft::dock(40);
    cases.push(many.clone().flags(20, 1).named("restore-20-of-40"));
    cases.push(many.identifier(39, 1).named("below-39-of-40"));
    cases
}

/// Only a descriptor whose 32 bytes are all there is judged.
fn wrong_in_cuts() -> Vec<Case> {
    let mut cases = Vec::new();
    let zero = Draft::dock(3).identifier(1, 0);
    let restore = Draft::dock(3).flags(1, 1);
    let past = Draft::dock(3).both(4).identifier(2, 0);
    for (name, draft, length) in [
        ("zero-64", &zero, 64),
        ("zero-72", &zero, 72),
        ("zero-95", &zero, 95),
        ("zero-96", &zero, 96),
        ("restore-95", &restore, 95),
        ("restore-96", &restore, 96),
        ("restore-127", &restore, 127),
        ("goes-on-zero-127", &past, 127),
        ("goes-on-zero-128", &past, 128),
    ] {
        let name = format!("cut-{}", name);
        cases.push(draft.clone().length(length).named(&name));
    }
    cases
}

/// Identifiers that ascend in one order of the bytes and not in the other.
fn wrong_order() -> Vec<Case> {
    let mut cases = Vec::new();
    for (a, b) in [
        (0x0100_0002, 0x0200_0001),
        (0x0200_0001, 0x0100_0002),
        (0xFF, 0x100),
        (0x100, 0xFF),
        (0x1_0003, 0x2_0000),
        (0x2_0000, 0x1_0003),
        (0x8000_0000, 0x7FFF_FFFF),
        (0xFFFF_FFFF, 1),
    ] {
        let draft = Draft::dock(2).identifier(0, a).identifier(1, b);
        cases.push(draft.named(&format!("order-{:x}-{:x}", a, b)));
    }
    cases
}

/// ATA pages, and data whose header and descriptors are of two orders.
fn other_byte_order() -> Vec<Case> {
    let little = |draft: Draft| draft.in_order(Order::Little);
    let three = || little(Draft::dock(3));
    let identifiers = three().identifier(0, 1).identifier(1, 2).identifier(2, 3);
    vec![
        g1().named("ata-page"),
        g1().length(64).named("ata-page-64"),
        Draft::blank(1).named("ata-page-empty"),
        Draft::blank(1).length(32).named("ata-page-empty-32"),
        Draft::list(2, 31).named("ata-page-full"),
        three().both(3).named("little-header"),
        three().returned(3).named("little-returned"),
        identifiers.named("little-identifiers"),
        little(Draft::dock(2))
            .identifier(0, 0x0100_0000)
            .identifier(1, 0x0000_0001)
            .named("little-identifiers-fall"),
        three().capacity(1, 500).limit(2).named("little-values"),
    ]
}

/// Which of two offences is reported.
fn two_offences() -> Vec<Case> {
    let three = || Draft::dock(3);
    vec![
        three().returned(2).length(31).named("two-length-returned"),
        three()
            .returned(2)
            .identifier(0, 0)
            .named("two-returned-zero"),
        three().returned(2).length(129).named("two-returned-past"),
        three().number(2).named("two-number-past"),
        three()
            .identifier(1, 0)
            .flags(1, 1)
            .named("two-zero-restore-of-one"),
        three()
            .flags(1, 1)
            .identifier(2, 0)
            .named("two-restore-zero"),
        three()
            .identifier(1, 0)
            .flags(0, 1)
            .named("two-restore-first"),
        three().identifier(2, 0).length(129).named("two-zero-past"),
        three().flags(0, 1).length(160).named("two-restore-past"),
        three()
            .both(2)
            .flags(1, 1)
            .identifier(2, 0)
            .named("two-restore-past-bad"),
        three()
            .flags(0, 1)
            .identifier(2, 0)
            .length(descriptor(2) + 31)
            .named("two-restore-torn-zero"),
    ]
}
