//! Pairs of which a page is refused.

use super::draft::{Case, Draft};
use super::pairs::Pairs;

/// These pairs, in order.
pub fn add(pairs: &mut Pairs) {
    let good = pairs.page(Draft::list(1, 3).limit(2).named("good"));
    let longer = pairs.page(Draft::list(2, 3).named("good-2-pages"));
    pairs.both_ways(good, longer);
    let refused: Vec<usize> = offences().into_iter().map(|one| pairs.page(one)).collect();
    for &page in &refused {
        pairs.both_ways(good, page);
    }
    // Both are refused.
    let (first, last) = (refused[0], refused[refused.len() - 1]);
    pairs.pair(first, last);
    pairs.pair(first, first);
}

/// Broken lengths, then an offence of each kind.
fn offences() -> Vec<Case> {
    let three = || Draft::list(1, 3);
    vec![
        three().length(0).named("length-0"),
        three().length(511).named("length-511"),
        three().length(513).named("length-513"),
        three().returned(2).named("returned"),
        three().identifier(2, 0x110).named("equal"),
        three().flags(1, 0x01).named("restore"),
        three().byte(511, 0x01).named("padding"),
    ]
}
