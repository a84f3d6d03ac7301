//! The scripts of the committed vectors.

use super::draft::Case;
use super::random_script::random_script;
use super::random_scsi::random_scsi_script;
use super::random_walk::random_walk_script;
use super::{scripts_command, scripts_convert, scripts_disturbed, scripts_example};
use super::{scripts_grade, scripts_kept, scripts_lines, scripts_reader};
use super::{scripts_removal, scripts_reserved, scripts_scsi, scripts_scsi_read};
use super::{scripts_scsi_write, scripts_status, scripts_table, scripts_unload};
use super::{scripts_walk, scripts_words};

/// All scripts, in the order in which they are run.
pub fn script_cases() -> Vec<Case> {
    let mut cases = scripts_example::cases();
    cases.extend(scripts_table::cases());
    cases.extend(scripts_removal::cases());
    cases.extend(scripts_disturbed::cases());
    cases.extend(scripts_grade::cases());
    cases.extend(scripts_status::cases());
    cases.extend(scripts_command::cases());
    cases.extend(scripts_unload::cases());
    cases.extend(scripts_reader::cases());
    cases.extend(scripts_words::cases());
    cases.extend(scripts_lines::cases());
    cases.extend(scripts_kept::cases());
    cases.extend(seeded());
    cases.extend(scripts_scsi::cases());
    cases.extend(scripts_scsi_write::cases());
    cases.extend(scripts_scsi_read::cases());
    cases.extend(scripts_convert::cases());
    cases.extend(seeded_scsi());
    cases.extend(scripts_walk::cases());
    cases.push(seeded_walk());
    cases.extend(scripts_reserved::cases());
    cases
}

/// Scripts from fixed seeds.
fn seeded() -> Vec<Case> {
    let mut cases = Vec::new();
    for seed in 1..=12 {
        cases.push(Case {
            name: format!("seed-{:02}", seed),
            data: random_script(seed, 300),
        });
    }
    cases
}

/// Scripts from fixed seeds with the calls of request 2026-03.
fn seeded_scsi() -> Vec<Case> {
    let mut cases = Vec::new();
    for seed in 1..=3 {
        let data = random_scsi_script(seed, 150);
        cases.push(Case::new(&format!("scsi-seed-{:02}", seed), data));
    }
    cases
}

/// A script with the calls of request 2026-04, from a seed whose walks go on after
/// their first page.
fn seeded_walk() -> Case {
    Case::new("walk-seed-51", random_walk_script(51, 100))
}
