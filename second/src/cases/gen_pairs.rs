//! The pairs of pages of the committed vectors.

use super::draft::Case;
use super::pairs::Pairs;
use super::random_pair::random_pair;
use super::rng::Rng;
use super::{pairs_cut, pairs_field, pairs_only, pairs_refused, pairs_session, pairs_size};

/// All pairs, in the order in which they are compared.
pub fn pair_cases() -> Pairs {
    let mut pairs = Pairs::new();
    pairs_session::add(&mut pairs);
    pairs_field::add(&mut pairs);
    pairs_only::add(&mut pairs);
    pairs_cut::add(&mut pairs);
    pairs_refused::add(&mut pairs);
    pairs_size::add(&mut pairs);
    add_seeded(&mut pairs);
    pairs
}

/// Pairs from fixed seeds.
fn add_seeded(pairs: &mut Pairs) {
    for seed in 1..=4 {
        let (older, newer) = random_pair(&mut Rng::new(seed), 2);
        let older = pairs.page(Case::new(&format!("seed-{:02}-older", seed), older));
        let newer = pairs.page(Case::new(&format!("seed-{:02}-newer", seed), newer));
        pairs.pair(older, newer);
    }
}
