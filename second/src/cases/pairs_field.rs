//! Pairs: the same identifiers, with one field or another different.

use super::draft::{Case, Draft};
use super::pairs::Pairs;
use crate::rules::layout::descriptor;

/// These pairs, in order.
pub fn add(pairs: &mut Pairs) {
    add_single(pairs);
    add_flag(pairs);
    add_bits(pairs);
    add_not_compared(pairs);
}

/// The first, a middle and the last descriptor of a full page.
const SPOTS: [(&str, usize); 3] = [("first", 0), ("middle", 7), ("last", 14)];

/// A full page that is not cut.
fn full() -> Draft {
    Draft::list(1, 15)
}

/// The capacity that descriptor `k` of a list has.
fn capacity(k: usize) -> u64 {
    1000 + k as u64
}

/// One value of one descriptor.
fn add_single(pairs: &mut Pairs) {
    type Change = fn(Draft, usize) -> Draft;
    let changes: [(&str, Change); 5] = [
        ("type", |draft, k| draft.element_type(k, 0x7F)),
        ("health", |draft, k| draft.health(k, 0xFF)),
        ("capacity-low", |draft, k| {
            draft.capacity(k, capacity(k) ^ 1)
        }),
        ("capacity-high", |draft, k| {
            draft.capacity(k, capacity(k) ^ (1 << 63))
        }),
        ("capacity-ones", |draft, k| draft.capacity(k, u64::MAX)),
    ];
    let base = pairs.page(full().named("full"));
    for (name, change) in changes {
        for (spot, k) in SPOTS {
            let name = format!("{}-{}", name, spot);
            let changed = pairs.page(change(full(), k).named(&name));
            pairs.pair(base, changed);
            if name == "capacity-ones-middle" {
                pairs.pair(changed, base);
            }
        }
    }
}

/// Health FFh and this byte 13 at the three spots.
fn removed(flags: u8) -> Draft {
    SPOTS.iter().fold(full(), |draft, &(_, k)| {
        draft.health(k, 0xFF).flags(k, flags)
    })
}

/// The flag alone, which is sound with health FFh only.
fn add_flag(pairs: &mut Pairs) {
    let none = pairs.page(removed(0x00).named("removed-flags-00"));
    for (spot, k) in SPOTS {
        let flag = removed(0x00).flags(k, 0x01);
        let flag = pairs.page(flag.named(&format!("flag-{}", spot)));
        pairs.pair(none, flag);
    }
    let others = pairs.page(removed(0xFE).named("removed-flags-fe"));
    let flag = pairs.page(removed(0x01).named("removed-flags-01"));
    let all = pairs.page(removed(0xFF).named("removed-flags-ff"));
    pairs.pair(flag, all);
    pairs.pair(all, others);
}

/// Each bit of a field, one in each descriptor.
fn add_bits(pairs: &mut Pairs) {
    let eight = pairs.page(Draft::list(1, 8).named("bits-none"));
    let mut types = Draft::list(1, 8);
    let mut healths = Draft::list(1, 8);
    for k in 0..8 {
        let element_type = if k == 4 { 0x02 } else { 0x01 };
        types = types.element_type(k, element_type ^ (1 << k));
        healths = healths.health(k, (7 * k as u8) ^ (1 << k));
    }
    for case in [types.named("bits-type"), healths.named("bits-health")] {
        let bits = pairs.page(case);
        pairs.pair(eight, bits);
    }
    let none = pairs.page(Draft::list(5, 64).named("bits-none-in-5"));
    let mut capacities = Draft::list(5, 64);
    for k in 0..64 {
        capacities = capacities.capacity(k, capacity(k) ^ (1 << k));
    }
    let bits = pairs.page(capacities.named("bits-capacity-in-5"));
    pairs.pair(none, bits);
}

/// Headers and reserved bytes, which are not compared.
fn add_not_compared(pairs: &mut Pairs) {
    let base = pairs.page(Draft::list(1, 3).named("three"));
    for case in headers() {
        let header = pairs.page(case);
        pairs.pair(base, header);
    }
    let mut bytes = Draft::list(1, 3);
    for byte in (0..4).chain(8..13).chain(24..32) {
        for k in 0..3 {
            bytes = bytes.byte(descriptor(k) + byte, 0xA5);
        }
    }
    let flags = Draft::list(1, 3).flags(0, 0xFE).flags(1, 0x02);
    let bytes = pairs.page(bytes.named("reserved-bytes"));
    let flags = pairs.page(flags.flags(2, 0x80).named("reserved-flags"));
    pairs.pair(base, bytes);
    pairs.pair(base, flags);
}

fn headers() -> Vec<Case> {
    let three = || Draft::list(1, 3);
    vec![
        three().busy(0x0001_0003).named("header-busy"),
        three().limit(2).named("header-limit"),
        three().removed(1).named("header-removed"),
        three().byte(16, 0x01).byte(31, 0x80).named("header-rest"),
    ]
}
