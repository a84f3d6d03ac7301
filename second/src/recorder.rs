//! The proved programs, run beside this one.

use std::ffi::OsStr;
use std::io;

use crate::folder::Folder;
use crate::program::{said, Program, Said};

/// The front that starts them, and a folder for their pages.
pub struct Recorder {
    front: Program,
    folder: Folder,
}

impl Recorder {
    pub fn at(path: &str) -> io::Result<Recorder> {
        Ok(Recorder {
            front: Program::new(path, &[]),
            folder: Folder::new()?,
        })
    }

    /// Runs `RECORDER list` on a page.
    pub fn list(&self, page: &[u8]) -> io::Result<Said> {
        self.front.run_with(&["list".as_ref()], page).map(said)
    }

    /// Runs `RECORDER compare` on two pages, each in a file.
    pub fn compare(&self, older: &[u8], newer: &[u8]) -> io::Result<Said> {
        let older = self.folder.write("older", older)?;
        let newer = self.folder.write("newer", newer)?;
        let words = ["compare".as_ref(), older.as_os_str(), newer.as_os_str()];
        self.front.run_with(&words, b"").map(said)
    }

    /// Runs `RECORDER list --scsi` on data in a file.
    pub fn list_scsi(&self, data: &[u8]) -> io::Result<Said> {
        let data = self.folder.write("data", data)?;
        let words = ["list".as_ref(), "--scsi".as_ref(), data.as_os_str()];
        self.front.run_with(&words, b"").map(said)
    }

    /// Runs `RECORDER convert` on what is in a file; its refusal is said too.
    pub fn convert(&self, kind: &[&str], bytes: &[u8]) -> io::Result<Said> {
        let file = self.folder.write("input", bytes)?;
        let mut words: Vec<&OsStr> = vec!["convert".as_ref()];
        words.extend(kind.iter().map(OsStr::new));
        words.push(file.as_os_str());
        let output = self.front.run_with(&words, b"")?;
        Ok(Said {
            refusal: refusal_in(&output.stderr),
            ..said(output)
        })
    }
}

/// The words from `refused` on, wherever on a line they stand.
fn refusal_in(errors: &[u8]) -> Option<String> {
    let errors = String::from_utf8_lossy(errors);
    let line = errors.lines().find(|line| line.contains("refused "))?;
    line.find("refused ").map(|at| String::from(&line[at..]))
}
