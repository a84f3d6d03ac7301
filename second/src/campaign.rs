//! The campaign: this program and the recorder's side by side.

use std::fs;
use std::io::{self, Write};
use std::time::{Duration, Instant, SystemTime, UNIX_EPOCH};

use crate::cases::placements::{double, single, Placement};
use crate::cases::random_dock::{random_dock, random_pages};
use crate::cases::random_page::random_page;
use crate::cases::random_pair::random_pair;
use crate::cases::random_walk::random_walk_script;
use crate::cases::rng::Rng;
use crate::cases::script_text::Text;
use crate::library::{calls_without_difference, Library};
use crate::own::{in_rows, own_answers, own_comparison, own_conversion, own_listing};
use crate::program::{Program, Said};
use crate::recorder::Recorder;
use crate::rules::convert::{input_to_ata, input_to_scsi};
use crate::rules::listing::{list, list_scsi};
use crate::rules::script::{meaning, Call, Line};

/// Lines of a random script, the calls of later requests not counted: many calls
/// for each start of a program.
const LINES: usize = 2000;
/// Placements in one script.
const BATCH: usize = 60;
/// Gaps that can hold an event. After one event a removal has ended by gap 9;
/// an event from there on meets a device at rest.
const LAST_GAP: usize = 11;
/// Differences shown in full; more are only counted.
const SHOWN: u64 = 5;
/// The part of the time that the library's random calls get, one in so many.
const PART: u64 = 5;
/// Seconds of random calls between two lines of progress.
const SPELL: u64 = 5;

struct Campaign {
    recorder: Recorder,
    /// The programs that run scripts, with what they are called in words.
    benches: Vec<(&'static str, Program)>,
    start: Instant,
    last_progress: Instant,
    cases: u64,
    calls: u64,
    /// Calls of `cut`.
    cuts: u64,
    /// Random calls through the library, beside plain C.
    random: u64,
    differences: u64,
}

/// The whole campaign; 1 if there is a difference, 2 if a program cannot be run.
pub fn run(path: &str, seconds: u64, library: Option<Library>) -> i32 {
    match side_by_side(path, seconds, library) {
        Ok(0) => 0,
        Ok(_) => 1,
        Err(error) => {
            eprintln!("second: {}", error);
            2
        }
    }
}

fn side_by_side(path: &str, seconds: u64, library: Option<Library>) -> io::Result<u64> {
    let mut benches = vec![("bench", Program::bench(path, &["bench"])?)];
    if let Some(library) = &library {
        benches.push(("bench in C", library.bench()?));
    }
    let now = Instant::now();
    let mut campaign = Campaign {
        recorder: Recorder::at(path)?,
        benches,
        start: now,
        last_progress: now,
        cases: 0,
        calls: 0,
        cuts: 0,
        random: 0,
        differences: 0,
    };
    let part = library.as_ref().map_or(0, |_| (seconds / PART).max(1));
    let seed = time_seed();
    println!("first seed {}", seed);
    campaign.all_placements()?;
    campaign.fresh_seeds(seed, Duration::from_secs(seconds.saturating_sub(part)))?;
    if let Some(library) = &library {
        campaign.random_calls(library, seed, part)?;
    }
    println!("{}", campaign.figures());
    Ok(campaign.differences)
}

/// The script that a seed stands for.
pub fn seeded_script(seed: u64) -> Vec<u8> {
    random_walk_script(seed, LINES)
}

/// The page that a seed stands for: small ones mostly.
pub fn seeded_page(seed: u64) -> Vec<u8> {
    let mut rng = Rng::new(seed);
    let most = rng.pick(&[1, 1, 2, 3, 3, 10, 128]);
    random_page(&mut rng, most)
}

/// The pair that a seed stands for, the older page first.
pub fn seeded_pair(seed: u64) -> (Vec<u8>, Vec<u8>) {
    let mut rng = Rng::new(seed);
    let most = rng.pick(&[1, 1, 2, 3, 3, 10, 128]);
    random_pair(&mut rng, most)
}

/// The SCSI data that a seed stands for, and the pages that it is converted to.
pub fn seeded_dock(seed: u64) -> (Vec<u8>, u16) {
    let mut rng = Rng::new(seed);
    let most = rng.pick(&[1, 3, 3, 20, 200, 2047]);
    let data = random_dock(&mut rng, most);
    let pages = random_pages(&mut rng, &data);
    (data, pages)
}

impl Campaign {
    /// For device A, every placement of one and of two cuts or errors in the
    /// removal of every element, with an LBA of 0 and another.
    fn all_placements(&mut self) -> io::Result<()> {
        for identifier in [0x1, 0x3, 0x0001_0003, 0x0002_0000] {
            for lba in [0, 1234] {
                let mut all = single(LAST_GAP);
                all.extend(double(LAST_GAP));
                for batch in all.chunks(BATCH) {
                    let mut text = Text::new();
                    for events in batch {
                        let events = events.clone();
                        Placement {
                            identifier,
                            lba,
                            events,
                        }
                        .write(&mut text);
                    }
                    let label = format!("placements of {:08X}, LBA {}", identifier, lba);
                    self.script(&label, &text.bytes(), batch.len())?;
                }
            }
        }
        Ok(())
    }

    /// Seed after seed: a script, a page, a pair and SCSI data each.
    fn fresh_seeds(&mut self, first: u64, duration: Duration) -> io::Result<()> {
        let mut seed = first;
        while self.start.elapsed() < duration {
            self.script(&format!("seed {}", seed), &seeded_script(seed), 1)?;
            self.page(seed, &seeded_page(seed))?;
            let (older, newer) = seeded_pair(seed);
            self.pair(seed, &older, &newer)?;
            let (data, pages) = seeded_dock(seed);
            self.dock(seed, &data, pages)?;
            seed = seed.wrapping_add(1);
        }
        Ok(())
    }

    /// Random calls through the library, beside plain C, in spells. The cases of
    /// a spell have one seed after the other, fewer than calls.
    fn random_calls(&mut self, library: &Library, first: u64, seconds: u64) -> io::Result<()> {
        let mut seed = first;
        let mut left = seconds;
        while left > 0 {
            let spell = left.min(SPELL);
            let said = library.random(seed, spell)?;
            match calls_without_difference(&said) {
                Some(calls) => self.random += calls,
                None => {
                    self.differences += 1;
                    println!("difference: random calls (status {:?})", said.status);
                    return io::stdout().write_all(&said.text);
                }
            }
            seed = first.wrapping_add(self.random);
            left -= spell;
            self.progress();
        }
        Ok(())
    }

    fn script(&mut self, label: &str, script: &[u8], cases: usize) -> io::Result<()> {
        self.cases += cases as u64;
        self.count_calls(script);
        for (name, bench) in &self.benches {
            if script_differs(bench, script)? {
                self.differences += 1;
                if self.differences <= SHOWN {
                    println!("difference: {}, {}", name, label);
                    show_script(bench, script)?;
                }
            }
        }
        self.progress();
        Ok(())
    }

    fn count_calls(&mut self, script: &[u8]) {
        for line in script.split(|&byte| byte == b'\n') {
            if let Line::Call(call) = meaning(line) {
                self.calls += 1;
                self.cuts += u64::from(call == Call::Cut);
            }
        }
    }

    /// A page listed, and converted.
    fn page(&mut self, seed: u64, page: &[u8]) -> io::Result<()> {
        let inputs = [("page", page)];
        let said = self.recorder.list(page)?;
        self.judge("list", seed, (own_listing(list(page)), said), &inputs);
        let said = in_rows(self.recorder.convert(&["scsi"], page)?);
        let own = in_rows(own_conversion(input_to_scsi(page)));
        self.judge("convert scsi", seed, (own, said), &inputs);
        Ok(())
    }

    fn pair(&mut self, seed: u64, older: &[u8], newer: &[u8]) -> io::Result<()> {
        let said = self.recorder.compare(older, newer)?;
        let both = (own_comparison(older, newer), said);
        self.judge("compare", seed, both, &[("older", older), ("newer", newer)]);
        Ok(())
    }

    /// SCSI data listed, and converted to so many pages.
    fn dock(&mut self, seed: u64, data: &[u8], pages: u16) -> io::Result<()> {
        let inputs = [("dock", data)];
        let said = self.recorder.list_scsi(data)?;
        let both = (own_listing(list_scsi(data)), said);
        self.judge("list --scsi", seed, both, &inputs);
        let words = ["ata", &pages.to_string()];
        let said = in_rows(self.recorder.convert(&words, data)?);
        let own = in_rows(own_conversion(input_to_ata(data, pages)));
        let call = format!("convert ata {}", pages);
        self.judge(&call, seed, (own, said), &inputs);
        Ok(())
    }

    /// One case: what both said, this program first, and of what.
    fn judge(&mut self, call: &str, seed: u64, both: (Said, Said), inputs: &[(&str, &[u8])]) {
        let (own, said) = both;
        self.cases += 1;
        if said != own {
            self.differences += 1;
            if self.differences <= SHOWN {
                println!("difference: {}, seed {}", call, seed);
                show_both(&own, &said);
                for (what, bytes) in inputs {
                    keep_input(what, seed, bytes);
                }
            }
        }
        self.progress();
    }

    fn figures(&self) -> String {
        format!(
            "cases {} calls {} cuts {} random {} seconds {} differences {}",
            self.cases,
            self.calls,
            self.cuts,
            self.random,
            self.start.elapsed().as_secs(),
            self.differences
        )
    }

    fn progress(&mut self) {
        if self.last_progress.elapsed() >= Duration::from_secs(5) {
            self.last_progress = Instant::now();
            eprintln!("{}", self.figures());
        }
    }
}

fn script_differs(bench: &Program, script: &[u8]) -> io::Result<bool> {
    Ok(bench.run(script)? != own_answers(script))
}

/// The smallest prefix that differs, found by halving.
fn show_script(bench: &Program, script: &[u8]) -> io::Result<()> {
    let lines: Vec<&[u8]> = script.split_inclusive(|&byte| byte == b'\n').collect();
    let (mut same, mut differs) = (0, lines.len());
    while differs - same > 1 {
        let middle = same + (differs - same) / 2;
        if script_differs(bench, &lines[..middle].concat())? {
            differs = middle;
        } else {
            same = middle;
        }
    }
    let prefix = lines[..differs].concat();
    println!("smallest failing prefix, {} lines:", differs);
    io::stdout().write_all(&prefix)?;
    show_both(&own_answers(&prefix), &bench.run(&prefix)?);
    Ok(())
}

/// Writes an input that shows a difference to a file.
fn keep_input(what: &str, seed: u64, bytes: &[u8]) {
    let name = format!("difference-{}-{}", what, seed);
    match fs::write(&name, bytes) {
        Ok(()) => println!("the {} is in the file {}", what, name),
        Err(error) => println!("the {} was not written: {}", what, error),
    }
}

/// The first line in which two outputs differ, both statuses, and refusals.
fn show_both(own: &Said, said: &Said) {
    let own_lines: Vec<&[u8]> = own.text.split(|&byte| byte == b'\n').collect();
    let said_lines: Vec<&[u8]> = said.text.split(|&byte| byte == b'\n').collect();
    let equal = own_lines.iter().zip(&said_lines);
    let place = equal.take_while(|(a, b)| a == b).count();
    let line = |lines: &[&[u8]]| match lines.get(place) {
        Some(line) => String::from_utf8_lossy(line).into_owned(),
        None => String::from("(at its end)"),
    };
    println!("output line {}", place + 1);
    for (who, lines, one) in [
        ("second:  ", own_lines, own),
        ("recorder:", said_lines, said),
    ] {
        println!("{} {} (status {:?})", who, line(&lines), one.status);
        if let Some(refusal) = &one.refusal {
            println!("{} {}", who, refusal);
        }
    }
}

/// A seed from the time of day.
fn time_seed() -> u64 {
    let since = SystemTime::now().duration_since(UNIX_EPOCH);
    since.map_or(1, |time| time.as_nanos() as u64)
}
