//! The SCSI data of the committed vectors (request 2026-03), judged as the listing
//! program does: filter 0, report type 0, start 0. The scripts show the offences
//! that cannot occur under that request.

use super::draft::Case;
use super::random_dock::random_dock;
use super::rng::Rng;
use super::{docks_accepted, docks_size, docks_wrong};

/// All data, in the order in which it is listed.
pub fn dock_cases() -> Vec<Case> {
    let mut cases = docks_size::cases();
    cases.extend(docks_wrong::cases());
    cases.extend(docks_accepted::cases());
    cases.extend(seeded());
    cases
}

/// Data from fixed seeds.
fn seeded() -> Vec<Case> {
    let mut cases = Vec::new();
    for seed in 1..=12 {
        let data = random_dock(&mut Rng::new(seed), 12);
        cases.push(Case::new(&format!("seed-{:02}", seed), data));
    }
    cases
}
