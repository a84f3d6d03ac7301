//! The library in C, run beside this program: its bench, and its random calls
//! beside plain C.

use std::io;

use crate::program::{said, Program, Said};

/// RUN starts its programs, which stand in FOLDER.
pub struct Library<'a> {
    pub run: &'a str,
    pub folder: &'a str,
}

impl Library<'_> {
    pub fn bench(&self) -> io::Result<Program> {
        Program::bench(self.run, &[&format!("{}/bench", self.folder)])
    }

    /// Random calls from a seed on, for some seconds. A status that says
    /// neither "no difference" nor "a difference" is trouble; a signal is not.
    pub fn random(&self, seed: u64, seconds: u64) -> io::Result<Said> {
        let program = format!("{}/random", self.folder);
        let (seed, seconds) = (seed.to_string(), seconds.to_string());
        let random = Program::new(self.run, &[&program, &seed, "seconds", &seconds]);
        let output = random.run_with(&[], b"")?;
        match output.status.code() {
            Some(0 | 1) | None => Ok(said(output)),
            Some(_) => Err(random.trouble(&last_line(&output.stderr))),
        }
    }
}

fn last_line(errors: &[u8]) -> String {
    let errors = String::from_utf8_lossy(errors);
    let line = errors.lines().last().unwrap_or("did not end well");
    String::from(line)
}

/// How many random calls went well, if that is the last line: `calls N
/// differences 0`.
pub fn calls_without_difference(said: &Said) -> Option<u64> {
    let text = String::from_utf8_lossy(&said.text);
    let line = text.lines().last()?;
    let calls = line.strip_prefix("calls ")?;
    let calls = calls.strip_suffix(" differences 0")?;
    calls.parse().ok().filter(|_| said.status == Some(0))
}
