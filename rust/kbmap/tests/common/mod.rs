//! What the tests of the program share: running it, a directory of its own for each test, and the worked bed M.

#![allow(dead_code)] // not every test file uses everything

use std::ffi::OsStr;
use std::fs;
use std::io::Write;
use std::path::{Path, PathBuf};
use std::process::{Command, Stdio};
use std::sync::atomic::{AtomicUsize, Ordering};

/// Bed M's file: order 2, the rows 5 5 0 0, 5 5 0 9, 9 0 9 9 and 0 0 9 9.
pub const BED: [u8; 32] =
    [2, 0, 0, 0, 4, 0, 0, 0, 69, 0, 0, 28, 9, 0, 0, 32, 9, 0, 0, 48, 73, 2, 5, 0, 0, 0, 4, 9, 0, 0, 0, 6];

/// The file of zones on it: the blocks NW and SE, account 3's.
pub const ZONES: [u8; 19] = [2, 0, 0, 0, 2, 0, 0, 0, 67, 0, 0, 48, 67, 1, 3, 0, 0, 0, 8];

/// Bed M as a raw picture.
pub const PICTURE: &[u8] = b"P5\n4 4\n63\n\x05\x05\0\0\x05\x05\0\x09\x09\0\x09\x09\0\0\x09\x09";

/// What the program answered.
#[derive(Debug, PartialEq, Eq)]
pub struct Answer {
    pub status: i32,
    pub out: Vec<u8>,
    pub err: String,
}

impl Answer {
    /// Standard output as text.
    pub fn text(&self) -> &str {
        std::str::from_utf8(&self.out).unwrap()
    }
}

/// The answer of a command that is done, and says so.
pub fn ok(text: &str) -> Answer {
    Answer { status: 0, out: text.as_bytes().to_vec(), err: String::new() }
}

/// The answer of one that is refused.
pub fn refused(err: &str) -> Answer {
    Answer { status: 1, out: Vec::new(), err: err.to_owned() }
}

/// A directory that goes with the test.
pub struct Scratch {
    pub path: PathBuf,
}

impl Scratch {
    pub fn new() -> Scratch {
        static NEXT: AtomicUsize = AtomicUsize::new(0);
        let name = format!("kbmap-test-{}-{}", std::process::id(), NEXT.fetch_add(1, Ordering::Relaxed));
        let path = std::env::temp_dir().join(name);
        fs::create_dir(&path).unwrap();
        Scratch { path }
    }

    /// The same with bed M in bed.map.
    pub fn with_bed() -> Scratch {
        let scratch = Scratch::new();
        scratch.put("bed.map", &BED);
        scratch
    }

    /// The same with zones in zones.map.
    pub fn with_zones() -> Scratch {
        let scratch = Scratch::with_bed();
        scratch.put("zones.map", &ZONES);
        scratch
    }

    pub fn put(&self, name: impl AsRef<Path>, bytes: &[u8]) {
        fs::write(self.path.join(name), bytes).unwrap();
    }

    pub fn get(&self, name: &str) -> Vec<u8> {
        fs::read(self.path.join(name)).unwrap()
    }

    /// The names of its files.
    pub fn names(&self) -> Vec<String> {
        let entries = fs::read_dir(&self.path).unwrap();
        let mut names: Vec<String> = entries.map(|e| e.unwrap().file_name().to_string_lossy().into_owned()).collect();
        names.sort();
        names
    }

    /// A command with the program in this directory; what it shows does not depend on the terminal around the tests.
    pub fn command(&self, program: impl AsRef<OsStr>) -> Command {
        let mut command = Command::new(program);
        command.current_dir(&self.path).stdin(Stdio::null()).env_remove("COLUMNS").env_remove("NO_COLOR");
        command
    }

    /// Calls kbmap with the words of a line.
    pub fn kbmap(&self, line: &str) -> Answer {
        self.fed(line, b"")
    }

    /// The same with bytes on standard input.
    pub fn fed(&self, line: &str, input: &[u8]) -> Answer {
        let mut command = self.command(env!("CARGO_BIN_EXE_kbmap"));
        command.args(line.split_whitespace());
        answer(&mut command, input)
    }
}

impl Drop for Scratch {
    fn drop(&mut self) {
        let _ = fs::remove_dir_all(&self.path);
    }
}

/// Waits for a command that is fed some bytes.
pub fn answer(command: &mut Command, input: &[u8]) -> Answer {
    let piped = command.stdin(Stdio::piped()).stdout(Stdio::piped()).stderr(Stdio::piped());
    let mut child = piped.spawn().unwrap();
    let mut stdin = child.stdin.take().unwrap();
    let input = input.to_vec();
    // A command that fails early does not read its input.
    let feeder = std::thread::spawn(move || drop(stdin.write_all(&input)));
    let output = child.wait_with_output().unwrap();
    feeder.join().unwrap();
    let err = String::from_utf8(output.stderr).unwrap();
    Answer { status: output.status.code().unwrap_or(-1), out: output.stdout, err }
}

/// A picture of random accounts, 0 to 63, and the same numbers each time.
pub fn noise(side: usize) -> Vec<u8> {
    let mut picture = format!("P5\n{side} {side}\n63\n").into_bytes();
    let mut state = 1u32;
    picture.extend((0..side * side).map(|_| {
        state = state.wrapping_mul(1664525).wrapping_add(1013904223);
        (state >> 26) as u8
    }));
    picture
}
