//! Pairs: identifiers that are in one of the pages only.

use super::draft::Draft;
use super::pairs::{holding, Pairs};

/// These pairs, in order.
pub fn add(pairs: &mut Pairs) {
    add_one_less(pairs);
    add_shuffled(pairs);
    add_highest(pairs);
    add_alike(pairs);
}

/// One of five is missing, or all are.
fn add_one_less(pairs: &mut Pairs) {
    let five = [0x10, 0x20, 0x30, 0x40, 0x50];
    let all = pairs.page(holding(&five).named("five"));
    for (name, k) in [("first", 0), ("middle", 2), ("last", 4)] {
        let mut rest = five.to_vec();
        rest.remove(k);
        let rest = pairs.page(holding(&rest).named(&format!("five-no-{}", name)));
        pairs.both_ways(all, rest);
    }
    let empty = pairs.page(Draft::blank(1).named("empty"));
    let header = Draft::blank(1).busy(3).limit(2).removed(1);
    let header = pairs.page(header.named("empty-header"));
    pairs.both_ways(empty, all);
    pairs.pair(empty, header);
}

/// One page's identifiers between the other's, or all before them.
fn add_shuffled(pairs: &mut Pairs) {
    let odd = pairs.page(holding(&[1, 3, 5, 7, 9]).named("odd"));
    let even = pairs.page(holding(&[2, 4, 6, 8]).named("even"));
    let high = pairs.page(holding(&[0x1_0001, 0x1_0002, 0x1_0003]).named("high"));
    pairs.both_ways(odd, even);
    pairs.pair(even, high);
}

/// FFFF_FFFFh as the last identifier.
fn add_highest(pairs: &mut Pairs) {
    let below = holding(&[0x1, 0xFFFF_FFFE]);
    let last = holding(&[0x1, 0xFFFF_FFFE, 0xFFFF_FFFF]);
    let changed = last.clone().capacity(2, 0);
    let below = pairs.page(below.named("highest-none"));
    let last = pairs.page(last.named("highest"));
    let changed = pairs.page(changed.named("highest-changed"));
    pairs.both_ways(below, last);
    pairs.pair(last, changed);
}

/// Two identifiers that are equal but for one bit, or in one half only.
fn add_alike(pairs: &mut Pairs) {
    let mut one = |identifier: u32| {
        let page = holding(&[identifier]).health(0, 0x20).capacity(0, 500);
        pairs.page(page.named(&format!("one-{:x}", identifier)))
    };
    let pages = [0x1_0003, 0x1_0002, 0x8001_0003, 0x2_0003].map(&mut one);
    for other in &pages[1..] {
        pairs.pair(pages[0], *other);
    }
}
