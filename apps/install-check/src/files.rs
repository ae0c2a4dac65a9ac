//! Which files are checked: those named, and all in folders that are named.

use std::collections::BTreeSet;
use std::fs;
use std::io;
use std::path::{Path, PathBuf};

/// The files to check in their order, and what couldn't be opened.
#[derive(Default)]
pub struct Files {
    /// The files.
    pub found: Vec<PathBuf>,
    /// Paths that can't be read, and why.
    pub unread: Vec<(PathBuf, io::Error)>,
    /// Folders already searched, so that links in a circle end.
    searched: BTreeSet<PathBuf>,
}

impl Files {
    /// Adds a file, or every file in a folder and its folders, by name.
    pub fn add(&mut self, path: &Path) {
        if let Err(error) = self.try_add(path) {
            self.unread.push((path.to_path_buf(), error));
        }
    }

    fn try_add(&mut self, path: &Path) -> io::Result<()> {
        let kind = fs::metadata(path)?;
        if kind.is_file() {
            self.found.push(path.to_path_buf());
            return Ok(());
        }
        if !kind.is_dir() {
            // A pipe could keep the check waiting for ever.
            return Err(io::Error::other("neither a file nor a folder"));
        }
        if !self.searched.insert(path.canonicalize()?) {
            return Ok(());
        }
        let entries = fs::read_dir(path)?.collect::<io::Result<Vec<_>>>()?;
        let mut paths: Vec<PathBuf> = entries.iter().map(|entry| entry.path()).collect();
        paths.sort();
        for path in paths {
            self.add(&path);
        }
        Ok(())
    }
}
