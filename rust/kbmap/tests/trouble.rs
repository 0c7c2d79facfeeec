//! The program when something cannot be read or written: never half a file, never a panic.

#![cfg(unix)]

mod common;

use common::{answer, noise, Scratch, BED, PICTURE};
use std::fs::{self, File, OpenOptions};
use std::io::{Read, Write};
use std::process::Stdio;

const KBMAP: &str = env!("CARGO_BIN_EXE_kbmap");

/// Standard error of a call that fails with status 2 and prints nothing.
fn trouble(scratch: &Scratch, line: &str) -> String {
    let answer = scratch.kbmap(line);
    assert_eq!((answer.status, answer.text()), (2, ""), "{line}: {}", answer.err);
    answer.err
}

#[test]
fn usage() {
    let scratch = Scratch::new();
    assert_eq!(trouble(&scratch, ""), "kbmap: a command is missing; see kbmap --help\n");
    assert_eq!(trouble(&scratch, "paint"), "kbmap: there is no command paint; see kbmap --help\n");
    assert_eq!(trouble(&scratch, "check"), "kbmap: FILE is missing; see kbmap --help\n");
}

#[test]
fn unreadable() {
    let scratch = Scratch::with_bed();
    for line in [
        "check no.map",
        "show no.map",
        "at no.map 0 0",
        "preview no.map 0 0 7",
        "draw no.map",
        "scan no.map -o x",
        "release no.map 0 0",
        "inside no.map bed.map -o x",
        "outside bed.map no.map -o x",
        "table no.map",
        "rights no.map 0 0 9",
        "rights bed.map 0 0 9 --table no.map",
    ] {
        assert_eq!(trouble(&scratch, line), "kbmap: no.map: No such file or directory\n");
    }
    assert_eq!(trouble(&scratch, "check ."), "kbmap: .: Is a directory\n");
    assert_eq!(scratch.names(), ["bed.map"]);
}

#[test]
fn unwritable() {
    let scratch = Scratch::with_bed();
    let nowhere = "kbmap: no/bed.pgm: No such file or directory\n";
    assert_eq!(trouble(&scratch, "decode bed.map -o no/bed.pgm"), nowhere);
    assert_eq!(trouble(&scratch, "decode bed.map -o ."), "kbmap: .: Is a directory\n");
    std::os::unix::fs::symlink("gone", scratch.path.join("link")).unwrap();
    assert_eq!(trouble(&scratch, "decode bed.map -o link"), "kbmap: link: the symbolic link leads nowhere\n");
    assert_eq!(scratch.names(), ["bed.map", "link"]);
}

/// A write-protected file stays as it is, though its directory may be written. The superuser may write everything.
#[test]
fn write_protected() {
    let scratch = Scratch::with_bed();
    let path = scratch.path.join("bed.map");
    let mut permissions = fs::metadata(&path).unwrap().permissions();
    permissions.set_readonly(true);
    fs::set_permissions(&path, permissions).unwrap();
    if OpenOptions::new().write(true).open(&path).is_err() {
        assert_eq!(trouble(&scratch, "release bed.map 0 2"), "kbmap: bed.map: Permission denied\n");
        assert_eq!(scratch.get("bed.map"), BED);
    }
}

/// A full disk, behind -o and as standard output.
#[test]
fn full_disk() {
    let scratch = Scratch::with_bed();
    scratch.put("bed.pgm", PICTURE);
    for line in [
        "scan bed.pgm -o /dev/full",
        "decode bed.map -o /dev/full",
        "claim bed.map 0 2 7 -o /dev/full",
        "outside bed.map bed.map -o /dev/full",
        "table 11110 11000 10000 -o /dev/full",
        "draw bed.map --svg -o /dev/full",
        "draw bed.map --html -o /dev/full",
    ] {
        assert_eq!(trouble(&scratch, line), "kbmap: /dev/full: No space left on device\n");
    }
    for line in [
        "--help",
        "check bed.map",
        "show bed.map",
        "at bed.map 0 0",
        "preview bed.map 0 0 7",
        "rights bed.map 0 0 7",
        "table 11110 11000 10000 -o -",
        "decode bed.map -o -",
        "draw bed.map",
    ] {
        let full = OpenOptions::new().write(true).open("/dev/full").unwrap();
        let mut command = scratch.command(KBMAP);
        let output = command.args(line.split_whitespace()).stdout(full).output().unwrap();
        assert_eq!(output.status.code(), Some(2), "{line}");
        assert_eq!(String::from_utf8(output.stderr).unwrap(), "kbmap: standard output: No space left on device\n");
    }
    assert_eq!(scratch.get("bed.map"), BED);
}

/// A disk that gets full half-way: a limit on the length of files stands in for it. The old file stays, and nothing
/// else.
#[test]
fn failed_writes_leave_the_old_file() {
    let scratch = Scratch::new();
    assert_eq!(scratch.fed("scan - -o large.map", &noise(64)).status, 0);
    let large = scratch.get("large.map");
    scratch.put("old", b"what was there");
    for line in [
        "decode large.map -o old",
        "draw large.map --svg -o old",
        "inside large.map large.map -o old",
        "release large.map 0 0",
    ] {
        let mut command = scratch.command("sh");
        command.args(["-c", r#"trap "" XFSZ; ulimit -f 1; exec "$0" "$@""#, KBMAP]).args(line.split_whitespace());
        let failed = answer(&mut command, b"");
        assert_eq!((failed.status, failed.text()), (2, ""));
        assert!(failed.err.ends_with(": File too large\n"), "{}", failed.err);
    }
    assert_eq!(scratch.get("old"), b"what was there");
    assert_eq!(scratch.get("large.map"), large);
    assert_eq!(scratch.names(), ["large.map", "old"]);
}

/// The reader closes the pipe before the first byte: a quiet end.
#[test]
fn closed_pipe() {
    let scratch = Scratch::with_bed();
    for line in [
        "check -",
        "show -",
        "at - 0 0",
        "preview - 0 0 7",
        "rights - 0 0 7",
        "decode - -o -",
        "release - 0 0",
        "inside - bed.map -o -",
        "draw -",
        "draw - --html -o -",
    ] {
        let mut command = scratch.command(KBMAP);
        command.args(line.split_whitespace()).stdin(Stdio::piped()).stdout(Stdio::piped()).stderr(Stdio::piped());
        let mut child = command.spawn().unwrap();
        drop(child.stdout.take());
        child.stdin.take().unwrap().write_all(&BED).unwrap();
        let output = child.wait_with_output().unwrap();
        assert_eq!((output.status.code(), output.stderr.as_slice()), (Some(2), &b""[..]), "{line}");
    }
}

/// The reader closes the pipe after a few bytes of many.
#[test]
fn pipe_closed_half_way() {
    let scratch = Scratch::new();
    assert_eq!(scratch.fed("scan - -o large.map", &noise(128)).status, 0);
    let mut command = scratch.command(KBMAP);
    command.args(["draw", "large.map", "--svg", "-o", "-"]).stdout(Stdio::piped()).stderr(Stdio::piped());
    let mut child = command.spawn().unwrap();
    let mut first = [0; 4];
    let mut stdout = child.stdout.take().unwrap();
    stdout.read_exact(&mut first).unwrap();
    drop(stdout);
    let output = child.wait_with_output().unwrap();
    assert_eq!((&first, output.status.code(), output.stderr.as_slice()), (b"<svg", Some(2), &b""[..]));
}

/// A named pipe is written as it is, and not replaced.
#[test]
fn named_pipe() {
    let scratch = Scratch::with_bed();
    let pipe = scratch.path.join("pipe");
    assert!(scratch.command("mkfifo").arg(&pipe).status().unwrap().success());
    let reader = std::thread::spawn({
        let pipe = pipe.clone();
        move || {
            let mut bytes = Vec::new();
            File::open(pipe).unwrap().read_to_end(&mut bytes).unwrap();
            bytes
        }
    });
    assert_eq!(scratch.kbmap("decode bed.map -o pipe").status, 0);
    assert_eq!(reader.join().unwrap(), PICTURE);
    assert_eq!(scratch.names(), ["bed.map", "pipe"]);
    assert!(!fs::metadata(&pipe).unwrap().is_file());
}

/// What comes out of a pipe by a name cannot be replaced there.
#[test]
fn claim_from_a_device() {
    let scratch = Scratch::new();
    let hint = "kbmap: /dev/null is no file to replace: name another behind -o; see kbmap --help\n";
    assert_eq!(trouble(&scratch, "release /dev/null 0 0"), hint);
}
