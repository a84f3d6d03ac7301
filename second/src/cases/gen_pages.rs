//! The pages of the committed vectors, judged as the listing program does:
//! filter 0, report type 0, start 0, as many pages as there are. The offences
//! "below the start", "type outside the report type" and "health outside the
//! filter" cannot occur under that request; the scripts show them.

use super::draft::Case;
use super::random_page::random_page;
use super::rng::Rng;
use super::{pages_accepted, pages_size, pages_wrong};

/// All pages, in the order in which they are listed.
pub fn page_cases() -> Vec<Case> {
    let mut cases = pages_size::cases();
    cases.extend(pages_wrong::cases());
    cases.extend(pages_accepted::cases());
    cases.extend(seeded());
    cases
}

/// Pages from fixed seeds.
fn seeded() -> Vec<Case> {
    let mut cases = Vec::new();
    for seed in 1..=60 {
        let mut rng = Rng::new(seed);
        cases.push(Case {
            name: format!("seed-{:02}", seed),
            data: random_page(&mut rng, 3),
        });
    }
    cases
}
