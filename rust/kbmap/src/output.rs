//! Where a result goes. A file is written beside the old one and then renamed, so that there is never half a file: a
//! write that fails leaves what was there before, and nothing besides. A device or a pipe is written directly. A file
//! that is replaced is locked meanwhile.

use crate::failure::Failure;
use crate::lock::Locked;
use crate::words::visible;
use std::ffi::OsString;
use std::fs::{self, File, Metadata, OpenOptions};
use std::io::{self, BufWriter, IsTerminal, Write};
use std::path::{Path, PathBuf};
use std::time::SystemTime;

/// Bytes gathered for one write.
const BUFFER: usize = 1 << 16;

/// Standard output, or a file.
#[derive(Clone, Debug, PartialEq, Eq)]
pub enum Target {
    Standard,
    File(PathBuf),
}

/// What writes a result.
pub type Writing<'a> = dyn Fn(&mut dyn Write) -> io::Result<()> + 'a;

impl Target {
    /// `-` is standard output.
    pub fn of(name: OsString) -> Target {
        if name == "-" {
            Target::Standard
        } else {
            Target::File(name.into())
        }
    }

    /// The name for messages.
    pub fn name(&self) -> String {
        match self {
            Target::Standard => "standard output".to_owned(),
            Target::File(path) => visible(&path.to_string_lossy()),
        }
    }

    /// Writes all of a result, or fails and leaves a file as it was.
    pub fn write(&self, writing: &Writing) -> Result<(), Failure> {
        let written = match self {
            Target::Standard => write_through(io::stdout().lock(), writing),
            Target::File(path) => write_file(path, writing),
        };
        written.map_err(|error| Failure::trouble(self.name(), &error))
    }

    /// The same for bytes that are not meant for a terminal.
    pub fn write_bytes(&self, writing: &Writing) -> Result<(), Failure> {
        if *self == Target::Standard && io::stdout().is_terminal() {
            return Err(Failure::usage("the result is no text for a terminal: name a file behind -o, or use a pipe"));
        }
        self.write(writing)
    }
}

/// Text on standard output.
pub fn print(text: &str) -> Result<(), Failure> {
    Target::Standard.write(&|out| out.write_all(text.as_bytes()))
}

fn write_through(out: impl Write, writing: &Writing) -> io::Result<()> {
    let mut out = BufWriter::with_capacity(BUFFER, out);
    writing(&mut out)?;
    out.flush()
}

fn write_file(path: &Path, writing: &Writing) -> io::Result<()> {
    match fs::metadata(path) {
        Ok(found) if found.is_file() => Locked::open(path, OpenOptions::new().write(true))?.replace(writing),
        Ok(_) => write_through(OpenOptions::new().write(true).open(path)?, writing),
        Err(error) if error.kind() != io::ErrorKind::NotFound => Err(error),
        Err(_) if path.is_symlink() => Err(io::Error::other("the symbolic link leads nowhere")),
        Err(_) => replace(path, None, writing),
    }
}

/// Writes a new file and renames it to this path, where one was found or none.
pub fn replace(path: &Path, found: Option<&Metadata>, writing: &Writing) -> io::Result<()> {
    found.map_or(Ok(()), one_name)?;
    let directory = match path.parent() {
        Some(parent) if !parent.as_os_str().is_empty() => parent,
        _ => Path::new("."),
    };
    let beside = Beside::create(directory)?;
    if let Some(found) = found {
        keep_owner(&beside.file, found)?;
        beside.file.set_permissions(found.permissions())?;
    }
    write_through(&beside.file, writing)?;
    beside.file.sync_all()?;
    beside.rename(path)?;
    // That the new name lasts as well is more than a file system need offer.
    let _ = File::open(directory).and_then(|directory| directory.sync_all());
    Ok(())
}

/// A file with several names is not replaced: the others would keep the old one.
#[cfg(unix)]
fn one_name(found: &Metadata) -> io::Result<()> {
    use std::os::unix::fs::MetadataExt;
    match found.nlink() {
        0 | 1 => Ok(()),
        names => Err(io::Error::other(format!(
            "the file has {names} names (hard links), and the others would keep what it was: name another behind -o"
        ))),
    }
}

/// Whoever may write the directory may replace a file in it. It stays its owner's where the system allows; it must
/// stay its group's, or those who share it were locked out.
#[cfg(unix)]
fn keep_owner(file: &File, found: &Metadata) -> io::Result<()> {
    use std::os::unix::fs::{fchown, MetadataExt};
    let group = Some(found.gid());
    let kept = fchown(file, Some(found.uid()), group).or_else(|_| fchown(file, None, group));
    if kept.is_err() && file.metadata()?.gid() != found.gid() {
        let reason = "the new file cannot be given to the old one's group, number";
        return Err(io::Error::other(format!("{reason} {}: name another behind -o", found.gid())));
    }
    Ok(())
}

#[cfg(not(unix))]
fn one_name(_: &Metadata) -> io::Result<()> {
    Ok(())
}

#[cfg(not(unix))]
fn keep_owner(_: &File, _: &Metadata) -> io::Result<()> {
    Ok(())
}

/// A new file that is gone again unless it is renamed.
struct Beside {
    path: PathBuf,
    file: File,
    renamed: bool,
}

impl Beside {
    fn create(directory: &Path) -> io::Result<Beside> {
        loop {
            let time = SystemTime::now().duration_since(SystemTime::UNIX_EPOCH).unwrap_or_default();
            let path = directory.join(format!(".kbmap-{}-{:x}.tmp", std::process::id(), time.as_nanos()));
            match OpenOptions::new().write(true).create_new(true).open(&path) {
                Ok(file) => return Ok(Beside { path, file, renamed: false }),
                Err(error) if error.kind() == io::ErrorKind::AlreadyExists => (),
                Err(error) => return Err(error),
            }
        }
    }

    fn rename(mut self, path: &Path) -> io::Result<()> {
        fs::rename(&self.path, path)?;
        self.renamed = true;
        Ok(())
    }
}

impl Drop for Beside {
    fn drop(&mut self) {
        if !self.renamed {
            let _ = fs::remove_file(&self.path);
        }
    }
}
