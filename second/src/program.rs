//! A program that is run beside this one.

use std::ffi::OsStr;
use std::io::{self, Write};
use std::process::{Child, Command, Output, Stdio};
use std::thread;

/// Its path, and the words that it gets before any others.
pub struct Program {
    path: String,
    words: Vec<String>,
}

/// What a program said: its standard output and its exit status.
#[derive(Debug, PartialEq, Eq)]
pub struct Said {
    pub text: Vec<u8>,
    /// `None` if a signal ended it.
    pub status: Option<i32>,
    /// Of a converter, its words on standard error.
    pub refusal: Option<String>,
}

impl Said {
    pub fn new(text: Vec<u8>, status: i32) -> Said {
        Said {
            text,
            status: Some(status),
            refusal: None,
        }
    }
}

impl Program {
    pub fn new(path: &str, words: &[&str]) -> Program {
        Program {
            path: String::from(path),
            words: words.iter().copied().map(String::from).collect(),
        }
    }

    /// A bench, tried on an empty script: no answers, status 0.
    pub fn bench(path: &str, words: &[&str]) -> io::Result<Program> {
        let bench = Program::new(path, words);
        let said = bench.run(b"")?;
        if said.status != Some(0) || !said.text.is_empty() {
            return Err(bench.trouble("does not run an empty script"));
        }
        Ok(bench)
    }

    /// Runs it on an input.
    pub fn run(&self, input: &[u8]) -> io::Result<Said> {
        self.run_with(&[], input).map(said)
    }

    /// Runs it with more words.
    pub fn run_with(&self, words: &[&OsStr], input: &[u8]) -> io::Result<Output> {
        let child = Command::new(&self.path)
            .args(&self.words)
            .args(words)
            .stdin(Stdio::piped())
            .stdout(Stdio::piped())
            .stderr(Stdio::piped())
            .spawn()?;
        let output = converse(child, input)?;
        // A shell's words for "found, but cannot be run" and "not found".
        if [Some(126), Some(127)].contains(&output.status.code()) {
            return Err(self.trouble("cannot be run"));
        }
        Ok(output)
    }

    pub fn trouble(&self, what: &str) -> io::Error {
        let words = format!("{} {}: {}", self.path, self.words.join(" "), what);
        io::Error::new(io::ErrorKind::Other, words)
    }
}

pub fn said(output: Output) -> Said {
    Said {
        text: output.stdout,
        status: output.status.code(),
        refusal: None,
    }
}

/// Writes the input in a thread of its own, so that neither side waits.
fn converse(mut child: Child, input: &[u8]) -> io::Result<Output> {
    let stdin = child.stdin.take();
    thread::scope(|scope| {
        scope.spawn(move || {
            if let Some(mut stdin) = stdin {
                // A program may stop reading early; its answer tells.
                let _ = stdin.write_all(input);
            }
        });
        child.wait_with_output()
    })
}
