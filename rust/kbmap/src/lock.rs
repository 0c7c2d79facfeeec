//! A file that is held while it is changed: from reading it to renaming the new one nobody else who locks it replaces
//! it, so that of two changes at once none is lost.

use crate::failure::note;
use crate::output::{replace, Writing};
use std::fs::{self, File, Metadata, OpenOptions, TryLockError};
use std::io::{self, IsTerminal};
use std::path::{Path, PathBuf};

/// A locked file under its real name. The lock goes with it.
pub struct Locked {
    path: PathBuf,
    file: File,
}

impl Locked {
    /// Opens a file and waits for its lock. A symbolic link's file is meant, not the link, and one that is
    /// write-protected fails. A file that was replaced meanwhile is no longer the one under the name: then again.
    pub fn open(path: &Path, options: &OpenOptions) -> io::Result<Locked> {
        loop {
            let real = fs::canonicalize(path)?;
            let file = options.open(&real)?;
            wait(&file)?;
            if alike(&file.metadata()?, &fs::metadata(&real)?) {
                return Ok(Locked { path: real, file });
            }
        }
    }

    /// The same to read it as well.
    pub fn open_to_change(path: &Path) -> io::Result<Locked> {
        Locked::open(path, OpenOptions::new().read(true).write(true))
    }

    pub fn file(&self) -> &File {
        &self.file
    }

    /// Puts a new file in the place of this one, or fails and leaves it.
    pub fn replace(self, writing: &Writing) -> io::Result<()> {
        replace(&self.path, Some(&self.file.metadata()?), writing)
    }
}

fn wait(file: &File) -> io::Result<()> {
    let locked = match file.try_lock() {
        Ok(()) => Ok(()),
        Err(TryLockError::WouldBlock) => {
            if io::stderr().is_terminal() {
                note("kbmap: the file is locked by another program; waiting for it");
            }
            file.lock()
        }
        Err(TryLockError::Error(error)) => Err(error),
    };
    locked.map_err(|error| io::Error::other(format!("the file cannot be locked: {error}")))
}

/// Whether two names lead to one file. The names are compared first: a file may be replaced while its metadata is read.
pub fn same_file(one: &Path, two: &Path) -> bool {
    let names = || Some(fs::canonicalize(one).ok()? == fs::canonicalize(two).ok()?);
    let files = || Some(alike_files(&fs::metadata(one).ok()?, &fs::metadata(two).ok()?));
    one == two || names() == Some(true) || files() == Some(true)
}

/// Devices and pipes are no files that one could lose.
fn alike_files(one: &Metadata, two: &Metadata) -> bool {
    cfg!(unix) && one.is_file() && alike(one, two)
}

#[cfg(unix)]
fn alike(one: &Metadata, two: &Metadata) -> bool {
    use std::os::unix::fs::MetadataExt;
    (one.dev(), one.ino()) == (two.dev(), two.ino())
}

/// Where files have no numbers, names alone tell them apart.
#[cfg(not(unix))]
fn alike(_: &Metadata, _: &Metadata) -> bool {
    true
}
