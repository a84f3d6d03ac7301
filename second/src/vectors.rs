//! The committed vectors: inputs in `data`, their names in `args`, and what is
//! expected of them, in that order, in `stdout`. The names of pairs come in
//! twos, the older page first.

use std::fs;
use std::io;
use std::path::Path;

use crate::cases::draft::Case;
use crate::cases::gen_docks::dock_cases;
use crate::cases::gen_pages::page_cases;
use crate::cases::gen_pairs::pair_cases;
use crate::cases::gen_scripts::script_cases;
use crate::cases::pairs::Pairs;
use crate::rules::bench::run;
use crate::rules::compare::compare;
use crate::rules::listing::{list, list_scsi};

/// Writes all vectors under `dir`; the same bytes each time.
pub fn write_vectors(dir: &Path) -> io::Result<()> {
    write_group(&dir.join("pages"), &page_cases(), page_text)?;
    write_group(&dir.join("docks"), &dock_cases(), dock_text)?;
    write_group(&dir.join("scripts"), &script_cases(), script_text)?;
    write_pairs(&dir.join("pairs"), &pair_cases())
}

/// The name on a line, then the listing exactly.
fn page_text(case: &Case) -> String {
    format!("{}\n{}", case.name, list(&case.data).text)
}

/// The same of SCSI data.
fn dock_text(case: &Case) -> String {
    format!("{}\n{}", case.name, list_scsi(&case.data).text)
}

/// `script` and the name on a line, then the answers from an empty bench.
fn script_text(case: &Case) -> String {
    format!("script {}\n{}", case.name, run(&case.data))
}

/// Both names on a line, then the comparison exactly.
fn pair_text(older: &Case, newer: &Case) -> String {
    let comparison = compare(&older.data, &newer.data);
    format!("{} {}\n{}", older.name, newer.name, comparison.text)
}

fn write_group(dir: &Path, cases: &[Case], expected: fn(&Case) -> String) -> io::Result<()> {
    let mut names = String::new();
    let mut stdout = String::new();
    for case in cases {
        names += &format!("{}\n", case.name);
        stdout += &expected(case);
    }
    write_files(dir, cases, &names, &stdout)
}

fn write_pairs(dir: &Path, cases: &Pairs) -> io::Result<()> {
    let mut names = String::new();
    let mut stdout = String::new();
    for (older, newer) in cases.pairs() {
        names += &format!("{}\n{}\n", older.name, newer.name);
        stdout += &pair_text(older, newer);
    }
    write_files(dir, cases.pages(), &names, &stdout)
}

fn write_files(dir: &Path, inputs: &[Case], names: &str, stdout: &str) -> io::Result<()> {
    let data = dir.join("data");
    fs::create_dir_all(&data)?;
    remove_files(&data)?;
    for input in inputs {
        fs::write(data.join(&input.name), &input.data)?;
    }
    fs::write(dir.join("args"), names)?;
    fs::write(dir.join("stdout"), stdout)
}

/// Stale files go first, so that `data` holds exactly the cases.
fn remove_files(dir: &Path) -> io::Result<()> {
    for entry in fs::read_dir(dir)? {
        fs::remove_file(entry?.path())?;
    }
    Ok(())
}

#[cfg(test)]
mod tests {
    use super::*;
    use std::collections::HashSet;

    fn is_plain(name: &str) -> bool {
        let plain = |c: char| c.is_ascii_lowercase() || c.is_ascii_digit() || c == '-';
        !name.is_empty() && name.len() <= 40 && name.chars().all(plain)
    }

    fn check_names(cases: &[Case]) {
        let names: HashSet<&str> = cases.iter().map(|case| case.name.as_str()).collect();
        assert_eq!(names.len(), cases.len(), "a name stands twice");
        for name in names {
            assert!(is_plain(name), "{}", name);
        }
    }

    #[test]
    fn names_are_plain_and_differ() {
        check_names(&page_cases());
        check_names(&dock_cases());
        check_names(&script_cases());
        check_names(pair_cases().pages());
    }

    #[test]
    fn pages_are_many_and_small() {
        let cases = page_cases();
        let bytes: usize = cases.iter().map(|case| case.data.len()).sum();
        assert!(cases.len() >= 250, "{}", cases.len());
        assert!(bytes <= 1_500_000, "{}", bytes);
    }

    #[test]
    fn docks_are_many_and_small() {
        let cases = dock_cases();
        let bytes: usize = cases.iter().map(|case| case.data.len()).sum();
        assert!(cases.len() >= 200, "{}", cases.len());
        assert!(bytes <= 1_000_000, "{}", bytes);
    }

    #[test]
    fn pairs_are_many_and_small() {
        let cases = pair_cases();
        let bytes: usize = cases.pages().iter().map(|page| page.data.len()).sum();
        let number = cases.pairs().count();
        assert!(number >= 60, "{}", number);
        assert!(bytes <= 700_000, "{}", bytes);
    }

    #[test]
    fn pairs_differ_and_leave_out_no_page() {
        let cases = pair_cases();
        let mut pairs = HashSet::new();
        let mut pages = HashSet::new();
        for (older, newer) in cases.pairs() {
            let names = (older.name.as_str(), newer.name.as_str());
            assert!(pairs.insert(names), "{:?}", names);
            pages.extend([names.0, names.1]);
        }
        assert_eq!(pages.len(), cases.pages().len());
    }

    #[test]
    fn scripts_are_small() {
        let answers: usize = script_cases().iter().map(|one| run(&one.data).len()).sum();
        assert!(answers <= 1_000_000, "{}", answers);
    }
}
