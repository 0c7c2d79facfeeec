//! Files that are replaced: by many programs at once, under several names, by someone else than their owner.

#![cfg(unix)]

mod common;

use common::{answer, Answer, Scratch, BED, PICTURE, ZONES};
use std::fs::{self, File, Permissions};
use std::os::unix::fs::{chown, symlink, MetadataExt, PermissionsExt};
use std::process::{Child, Stdio};
use std::time::Duration;

const KBMAP: &str = env!("CARGO_BIN_EXE_kbmap");

/// A program that has begun.
fn begun(scratch: &Scratch, line: &str) -> Child {
    let mut command = scratch.command(KBMAP);
    command.args(line.split_whitespace()).stdout(Stdio::null()).stderr(Stdio::null()).spawn().unwrap()
}

/// Sixteen programs claim a pixel each of one file, by its name, by another path and by a link: no claim is lost.
#[test]
fn claims_at_once() {
    let scratch = Scratch::with_bed();
    symlink("bed.map", scratch.path.join("link.map")).unwrap();
    for round in 0..8 {
        let line = |pixel: u32| {
            let account = (pixel + 7 * round) % 63 + 1;
            match pixel % 3 {
                0 => format!("claim bed.map {pixel} 0 {account}"),
                1 => format!("claim link.map {pixel} 0 {account}"),
                _ => format!("claim bed.map {pixel} 0 {account} -o ./bed.map"),
            }
        };
        let mut programs: Vec<Child> = (0..16).map(|pixel| begun(&scratch, &line(pixel))).collect();
        assert!(programs.iter_mut().all(|program| program.wait().unwrap().success()));
        let decoded = scratch.kbmap("decode bed.map --plain -o -");
        let mut greys: Vec<u32> = decoded.text().split_whitespace().skip(4).map(|grey| grey.parse().unwrap()).collect();
        let mut claimed: Vec<u32> = (0..16).map(|pixel| (pixel + 7 * round) % 63 + 1).collect();
        greys.sort();
        claimed.sort();
        assert_eq!(greys, claimed, "round {round}");
    }
    assert_eq!(scratch.names(), ["bed.map", "link.map"]);
}

/// A change waits for the lock of another, and then changes the file that stands there by then.
#[test]
fn claims_wait() {
    let scratch = Scratch::with_bed();
    let held = File::open(scratch.path.join("bed.map")).unwrap();
    held.lock().unwrap();
    let mut claim = begun(&scratch, "claim bed.map 5 0 7");
    std::thread::sleep(Duration::from_millis(200));
    assert!(claim.try_wait().unwrap().is_none());
    // A preview only reads, and waits for nobody.
    assert!(scratch.kbmap("preview bed.map 5 0 7").text().ends_with("  tiles: 4 now, 5 after\n"));
    scratch.put("new.map", &[2, 0, 0, 0, 0, 0]);
    fs::rename(scratch.path.join("new.map"), scratch.path.join("bed.map")).unwrap();
    drop(held);
    assert!(claim.wait().unwrap().success());
    assert!(scratch.kbmap("check bed.map").text().contains(" 1 tile, "));
}

/// Status 2, nothing on standard output, and these words in the message.
fn fails(answer: &Answer, words: &str) {
    assert_eq!((answer.status, answer.text()), (2, ""), "{}", answer.err);
    assert!(answer.err.contains(words), "{}", answer.err);
}

#[test]
fn hard_links() {
    let scratch = Scratch::with_bed();
    fs::hard_link(scratch.path.join("bed.map"), scratch.path.join("also.map")).unwrap();
    let table = "table 11110 11000 10000 -o also.map";
    for line in ["claim bed.map 0 0 7", "release also.map 0 0", "claim bed.map 0 0 7 -o also.map", table] {
        fails(&scratch.kbmap(line), ".map: the file has 2 names (hard links), and the others would keep what it was");
    }
    assert_eq!((scratch.get("bed.map"), scratch.get("also.map")), (BED.to_vec(), BED.to_vec()));
    assert_eq!(scratch.kbmap("claim bed.map 0 0 7 -o new.map").status, 0);
    assert_eq!(scratch.names(), ["also.map", "bed.map", "new.map"]);
}

/// A picture, a page or a third map does not take the place of a map that it is made of, by whatever name.
#[test]
fn output_is_the_input() {
    let scratch = Scratch::with_zones();
    scratch.put("bed.pgm", PICTURE);
    symlink("bed.map", scratch.path.join("link.svg")).unwrap();
    fs::hard_link(scratch.path.join("bed.pgm"), scratch.path.join("also.pgm")).unwrap();
    let lines = [
        "draw bed.map --svg -o bed.map",
        "draw bed.map -o link.svg",
        "draw link.svg --html -o ./bed.map",
        "decode bed.map -o bed.map",
        "decode bed.map --plain -o link.svg",
        "scan bed.pgm -o bed.pgm",
        "scan bed.pgm -o also.pgm",
        "inside bed.map zones.map -o bed.map",
        "outside zones.map bed.map -o bed.map",
        "inside bed.map zones.map -o link.svg",
        "outside zones.map link.svg -o ./bed.map",
    ];
    for line in lines {
        fails(&scratch.kbmap(line), " is the input itself: name another file behind -o");
    }
    let piped = [
        "decode - -o bed.map",
        "draw - --svg -o bed.map",
        "claim - 0 0 7 -o bed.map",
        "inside - zones.map -o bed.map",
        "outside zones.map - -o bed.map",
    ];
    for line in piped {
        let mut command = scratch.command(KBMAP);
        command.args(line.split_whitespace()).stdin(File::open(scratch.path.join("bed.map")).unwrap());
        assert_eq!(command.output().unwrap().status.code(), Some(2), "{line}");
    }
    assert_eq!((scratch.get("bed.map"), scratch.get("bed.pgm")), (BED.to_vec(), PICTURE.to_vec()));
    assert_eq!(scratch.get("zones.map"), ZONES);
    assert_eq!(scratch.fed("draw /dev/stdin --svg -o /dev/null", &BED).status, 0);
}

/// A user and a group that own nothing else, and a group that the user shares.
const BOB: u32 = 61001;
const ALICE: u32 = 61002;
const SHARED: u32 = 61003;

/// Bob of the shared group claims a file of Alice's. Nothing if we cannot be somebody else, or he cannot call kbmap.
fn claimed_by_bob(scratch: &Scratch, group: u32, mode: u32) -> Option<Answer> {
    let bed = scratch.path.join("bed.map");
    fs::set_permissions(&scratch.path, Permissions::from_mode(0o777)).unwrap();
    fs::set_permissions(&bed, Permissions::from_mode(mode)).unwrap();
    chown(&bed, Some(ALICE), Some(group)).ok()?;
    let (bob, shared) = (BOB.to_string(), SHARED.to_string());
    let as_bob = |words: &[&str]| {
        let mut command = scratch.command("setpriv");
        command.args(["--reuid", &bob, "--regid", &bob, "--groups", &shared, KBMAP]).args(words);
        command
    };
    let callable = as_bob(&["--version"]).output().is_ok_and(|output| output.status.success());
    callable.then(|| answer(&mut as_bob(&["claim", "bed.map", "0", "2", "7"]), b""))
}

#[test]
fn the_group_is_kept() {
    let scratch = Scratch::with_bed();
    let Some(claimed) = claimed_by_bob(&scratch, SHARED, 0o660) else { return };
    assert_eq!(claimed.status, 0, "{}", claimed.err);
    let found = fs::metadata(scratch.path.join("bed.map")).unwrap();
    assert_eq!((found.uid(), found.gid(), found.mode() & 0o777), (BOB, SHARED, 0o660));
}

#[test]
fn a_group_that_cannot_be_kept() {
    let scratch = Scratch::with_bed();
    let Some(claimed) = claimed_by_bob(&scratch, ALICE, 0o666) else { return };
    fails(&claimed, "bed.map: the new file cannot be given to the old one's group, number 61002: name another");
    let found = fs::metadata(scratch.path.join("bed.map")).unwrap();
    assert_eq!((found.uid(), found.gid(), scratch.get("bed.map")), (ALICE, ALICE, BED.to_vec()));
    assert_eq!(scratch.names(), ["bed.map"]);
}
