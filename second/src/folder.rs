//! A folder for passing files, gone at the end.

use std::env;
use std::fs;
use std::io;
use std::path::PathBuf;

pub struct Folder {
    path: PathBuf,
}

impl Folder {
    /// A new one among the temporary files: the first number that is free.
    pub fn new() -> io::Result<Folder> {
        let mut number = 0;
        loop {
            let path = env::temp_dir().join(format!("second-{}", number));
            match fs::create_dir(&path) {
                Ok(()) => return Ok(Folder { path }),
                Err(error) if error.kind() == io::ErrorKind::AlreadyExists => number += 1,
                Err(error) => return Err(error),
            }
        }
    }

    /// Writes a file in it, and says where that is.
    pub fn write(&self, name: &str, bytes: &[u8]) -> io::Result<PathBuf> {
        let path = self.path.join(name);
        fs::write(&path, bytes)?;
        Ok(path)
    }
}

impl Drop for Folder {
    fn drop(&mut self) {
        // It is of no more use; what stays of it does no harm.
        let _ = fs::remove_dir_all(&self.path);
    }
}
