//! The second program: the rules of the recorder's store once more, to hold
//! the proved programs against.

#![forbid(unsafe_code)]

mod campaign;
mod cases;
#[cfg(test)]
mod examples;
mod folder;
mod library;
mod own;
mod program;
mod recorder;
mod rules;
mod vectors;

use std::env;
use std::fs::File;
use std::io::{self, Read, Write};
use std::path::Path;
use std::process::exit;

use library::Library;
use rules::answer::Answer;
use rules::listing::Listing;
use rules::{bench, compare, convert, listing};

const USAGE: &str = "usage: second list < PAGE
       second list --scsi [FILE]
       second convert scsi [FILE]
       second convert ata PAGES [FILE]
       second bench < SCRIPT
       second compare OLDER NEWER
       second vectors DIR
       second campaign RECORDER [SECONDS [RUN FOLDER]]
       second seeded script|page|dock|older|newer SEED";

/// How long a campaign lasts if nothing else is said.
const SECONDS: u64 = 600;

fn main() {
    let words: Vec<String> = env::args().skip(1).collect();
    let words: Vec<&str> = words.iter().map(String::as_str).collect();
    match run(&words) {
        Ok(status) => exit(status),
        Err(error) => {
            eprintln!("second: {}", error);
            exit(2);
        }
    }
}

/// The exit status.
fn run(words: &[&str]) -> io::Result<i32> {
    match words {
        ["list"] => show_listing(listing::list(&input(&[])?)),
        ["list", "--scsi", file @ ..] if file.len() < 2 => {
            show_listing(listing::list_scsi(&input(file)?))
        }
        ["convert", "scsi", file @ ..] if file.len() < 2 => {
            hand_out(convert::input_to_scsi(&input(file)?))
        }
        ["convert", "ata", pages, file @ ..] if file.len() < 2 => match pages_of(pages) {
            Some(pages) => hand_out(convert::input_to_ata(&input(file)?, pages)),
            None => usage(),
        },
        ["bench"] => bench_input(),
        ["compare", older, newer] => compare_files(older, newer),
        ["vectors", dir] => vectors::write_vectors(Path::new(dir)).map(|()| 0),
        ["campaign", recorder] => Ok(campaign::run(recorder, SECONDS, None)),
        ["campaign", recorder, seconds] => run_campaign(recorder, seconds, None),
        ["campaign", recorder, seconds, run, folder] => {
            run_campaign(recorder, seconds, Some(Library { run, folder }))
        }
        ["seeded", what, seed] => match seed.parse() {
            Ok(seed) => seeded(what, seed),
            Err(_) => usage(),
        },
        _ => usage(),
    }
}

fn run_campaign(recorder: &str, seconds: &str, library: Option<Library>) -> io::Result<i32> {
    match seconds.parse() {
        Ok(seconds) => Ok(campaign::run(recorder, seconds, library)),
        Err(_) => usage(),
    }
}

fn usage() -> io::Result<i32> {
    eprintln!("{}", USAGE);
    Ok(2)
}

/// What a seed of a campaign stands for: its script, its page, its SCSI data or a
/// page of its pair.
fn seeded(what: &str, seed: u64) -> io::Result<i32> {
    let bytes = match what {
        "script" => campaign::seeded_script(seed),
        "page" => campaign::seeded_page(seed),
        "dock" => campaign::seeded_dock(seed).0,
        "older" => campaign::seeded_pair(seed).0,
        "newer" => campaign::seeded_pair(seed).1,
        _ => return usage(),
    };
    io::stdout().write_all(&bytes)?;
    Ok(0)
}

/// The listing programs.
fn show_listing(listing: Listing) -> io::Result<i32> {
    io::stdout().write_all(listing.text.as_bytes())?;
    Ok(listing.status)
}

/// The converters: bytes, or the refusal on standard error and status 1.
fn hand_out(converted: Result<Vec<u8>, usize>) -> io::Result<i32> {
    match converted {
        Ok(bytes) => {
            io::stdout().write_all(&bytes)?;
            Ok(0)
        }
        Err(place) => {
            eprintln!("refused {}", Answer::PageRefused { place });
            Ok(1)
        }
    }
}

/// "PAGES decimal, 0 to 128".
fn pages_of(word: &str) -> Option<u16> {
    if !word.bytes().all(|digit| digit.is_ascii_digit()) {
        return None;
    }
    word.parse().ok().filter(|&pages| pages <= 128)
}

/// What the file holds, or standard input if none is named.
fn input(file: &[&str]) -> io::Result<Vec<u8>> {
    match file.first() {
        Some(path) => page_in(path),
        None => read_page(io::stdin()),
    }
}

/// All of a page, and enough of what is too long for one.
fn read_page(input: impl Read) -> io::Result<Vec<u8>> {
    let mut page = Vec::new();
    let most = listing::MOST as u64 + 1;
    input.take(most).read_to_end(&mut page)?;
    Ok(page)
}

/// The comparison of the pages in two files.
fn compare_files(older: &str, newer: &str) -> io::Result<i32> {
    let comparison = compare::compare(&page_in(older)?, &page_in(newer)?);
    io::stdout().write_all(comparison.text.as_bytes())?;
    Ok(comparison.status)
}

/// The page in a file; what goes wrong is said with the file's name.
fn page_in(path: &str) -> io::Result<Vec<u8>> {
    let page = File::open(path).and_then(read_page);
    page.map_err(|error| io::Error::new(error.kind(), format!("{}: {}", path, error)))
}

/// Runs the script to the end of the input.
fn bench_input() -> io::Result<i32> {
    let mut script = Vec::new();
    io::stdin().read_to_end(&mut script)?;
    io::stdout().write_all(bench::run(&script).as_bytes())?;
    Ok(0)
}
