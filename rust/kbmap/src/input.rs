//! What a command reads: a file, or standard input.

use crate::failure::Failure;
use crate::lock::Locked;
use crate::words::visible;
use std::ffi::OsString;
use std::fs::File;
use std::io::{self, Read};
use std::path::PathBuf;

/// More bytes than any map file, table or picture of a bed has; a longer input is not read to its end.
const MOST: u64 = 64 << 20;

/// Standard input, or a file.
#[derive(Clone, Debug, PartialEq, Eq)]
pub enum Source {
    Standard,
    File(PathBuf),
}

impl Source {
    /// `-` is standard input.
    pub fn of(name: OsString) -> Source {
        if name == "-" {
            Source::Standard
        } else {
            Source::File(name.into())
        }
    }

    /// The name for messages.
    pub fn name(&self) -> String {
        match self {
            Source::Standard => "standard input".to_owned(),
            Source::File(path) => visible(&path.to_string_lossy()),
        }
    }

    /// The name that stands over a drawing: that of the file, without its directories.
    pub fn title(&self) -> String {
        match self {
            Source::File(path) => path.file_name().unwrap_or(path.as_os_str()).to_string_lossy().into_owned(),
            Source::Standard => self.name(),
        }
    }

    /// All its bytes.
    pub fn read(&self) -> Result<Vec<u8>, Failure> {
        self.checked(match self {
            Source::Standard => read_most(io::stdin().lock()),
            Source::File(path) => File::open(path).and_then(read_most),
        })
    }

    /// The same of the file that is locked for a change.
    pub fn read_locked(&self, locked: &Locked) -> Result<Vec<u8>, Failure> {
        self.checked(read_most(locked.file()))
    }

    fn checked(&self, bytes: io::Result<Vec<u8>>) -> Result<Vec<u8>, Failure> {
        let bytes = bytes.map_err(|error| Failure::trouble(self.name(), &error))?;
        if bytes.len() as u64 > MOST {
            let reason = format!("longer than {} MB: no map file, table or picture of a bed is", MOST >> 20);
            return Err(Failure::refused(self.name(), reason));
        }
        Ok(bytes)
    }
}

fn read_most(input: impl Read) -> io::Result<Vec<u8>> {
    let mut bytes = Vec::new();
    input.take(MOST + 1).read_to_end(&mut bytes)?;
    Ok(bytes)
}
