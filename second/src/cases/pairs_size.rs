//! Pairs of the largest pages, and of longer ones.

use super::draft::{usual_identifier, Draft};
use super::pairs::Pairs;

/// "65,536 bytes" are 128 pages.
const PAGES: usize = 128;
const ROOM: usize = 16 * PAGES - 1;

/// These pairs, in order.
pub fn add(pairs: &mut Pairs) {
    let full = pairs.page(Draft::list(PAGES, ROOM as u32).named("largest"));
    let between = pairs.page(between().named("largest-between"));
    let cut = Draft::list(PAGES, ROOM as u32 + 1).capacity(ROOM - 1, u64::MAX);
    let cut = pairs.page(cut.named("largest-cut"));
    pairs.pair(full, full);
    pairs.pair(full, cut);
    pairs.pair(full, between);
    add_too_long(pairs, full);
}

/// Identifiers one above those of the full page, and the longest lines.
fn between() -> Draft {
    let mut draft = Draft::list(PAGES, ROOM as u32);
    for k in 0..ROOM {
        draft = draft
            .identifier(k, usual_identifier(k) + 1)
            .capacity(k, u64::MAX - 1);
    }
    draft
}

/// A byte too long, and a page too long; but for that they are good.
fn add_too_long(pairs: &mut Pairs, full: usize) {
    let byte = Draft::list(PAGES, 3).length(512 * PAGES + 1);
    let byte = pairs.page(byte.named("length-65537"));
    let page = pairs.page(Draft::list(PAGES + 1, 3).named("length-66048"));
    for long in [byte, page] {
        pairs.both_ways(full, long);
    }
    pairs.pair(page, page);
}
