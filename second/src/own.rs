//! What this program says of a campaign's cases.

use crate::program::Said;
use crate::rules::answer::Answer;
use crate::rules::bench;
use crate::rules::compare::compare;
use crate::rules::listing::Listing;

pub fn own_answers(script: &[u8]) -> Said {
    Said::new(bench::run(script).into_bytes(), 0)
}

pub fn own_listing(listing: Listing) -> Said {
    Said::new(listing.text.into_bytes(), listing.status)
}

pub fn own_comparison(older: &[u8], newer: &[u8]) -> Said {
    let comparison = compare(older, newer);
    Said::new(comparison.text.into_bytes(), comparison.status)
}

/// "no byte on standard output" with a refusal.
pub fn own_conversion(converted: Result<Vec<u8>, usize>) -> Said {
    match converted {
        Ok(bytes) => Said::new(bytes, 0),
        Err(place) => Said {
            refusal: Some(format!("refused {}", Answer::PageRefused { place })),
            ..Said::new(Vec::new(), 1)
        },
    }
}

/// Bytes as the bench shows them, so that a difference can be read.
pub fn in_rows(said: Said) -> Said {
    let text = bench::rows_text(&said.text).into_bytes();
    Said { text, ..said }
}
