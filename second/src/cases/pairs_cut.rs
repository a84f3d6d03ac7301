//! Pairs with a page cut short, and the bound that it sets.

use super::draft::Draft;
use super::pairs::{holding, Pairs};

/// These pairs, in order.
pub fn add(pairs: &mut Pairs) {
    add_one_cut(pairs);
    add_both_cut(pairs);
    add_highest(pairs);
    add_two_pages(pairs);
}

/// Fifteen identifiers: 10h to E0h, then `last`.
fn fifteen(last: u32) -> Draft {
    let mut identifiers: Vec<u32> = (1..=14).map(|k| 0x10 * k).collect();
    identifiers.push(last);
    holding(&identifiers)
}

/// A list of 16, of which the last is not shown.
fn cut(last: u32) -> Draft {
    fifteen(last).number(16)
}

/// The other page ends below the bound, at it or above it, and is not cut.
fn add_one_cut(pairs: &mut Pairs) {
    let bound = pairs.page(cut(0xF0).named("cut-f0"));
    let whole = pairs.page(fifteen(0xF0).named("whole-f0"));
    pairs.both_ways(bound, whole);
    for last in [0xEF, 0xF0, 0xF1] {
        let short = holding(&[0x10, last]);
        let short = pairs.page(short.named(&format!("short-{:x}", last)));
        pairs.both_ways(bound, short);
    }
    let across = holding(&[0xEF, 0xF0, 0xF1]).capacity(1, 0).capacity(2, 0);
    let across = pairs.page(across.named("short-ef-f0-f1"));
    let nothing = pairs.page(Draft::blank(1).limit(2).named("nothing"));
    pairs.pair(bound, across);
    pairs.pair(bound, nothing);
}

/// Equal and unequal last identifiers, and differences about the bound.
fn add_both_cut(pairs: &mut Pairs) {
    let bound = pairs.page(cut(0xF0).limit(2).named("cut-f0-limit"));
    let many = pairs.page(cut(0xF0).number(u32::MAX).named("cut-f0-many"));
    let lower = pairs.page(cut(0xE8).named("cut-e8"));
    let at = pairs.page(cut(0xF0).capacity(14, 0).named("cut-f0-other-f0"));
    let below = pairs.page(cut(0xF0).capacity(13, 0).named("cut-f0-other-e0"));
    pairs.pair(bound, bound);
    pairs.pair(bound, many);
    pairs.both_ways(bound, lower);
    pairs.pair(bound, at);
    pairs.pair(bound, below);
}

/// A cut page that ends at FFFF_FFFFh hides nothing.
fn add_highest(pairs: &mut Pairs) {
    let highest = pairs.page(cut(u32::MAX).named("cut-ffffffff"));
    let changed = cut(u32::MAX).health(14, 0xFF);
    let changed = pairs.page(changed.named("cut-ffffffff-other"));
    let lower = pairs.page(cut(0xFFFF_FFFE).named("cut-fffffffe"));
    let whole = pairs.page(fifteen(0xFFFF_FFFF).named("whole-ffffffff"));
    pairs.pair(highest, changed);
    pairs.pair(highest, whole);
    pairs.pair(lower, highest);
}

/// 31 descriptors of 40.
fn add_two_pages(pairs: &mut Pairs) {
    let list = Draft::list(2, 40);
    let last = list.clone().capacity(30, u64::MAX);
    let list = pairs.page(list.named("cut-2-pages"));
    let last = pairs.page(last.named("cut-2-pages-other"));
    pairs.pair(list, last);
}
