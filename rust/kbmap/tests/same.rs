//! Two files of one map, and two that are not.

mod common;

use common::{noise, ok, refused, Answer, Scratch, BED, ZONES};

/// The answer of one that says where two maps differ.
fn differ(text: &str) -> Answer {
    Answer { status: 1, ..ok(text) }
}

#[test]
fn same_map() {
    let scratch = Scratch::with_bed();
    scratch.put("copy.map", &BED);
    let tiles = "  order 2, 4 by 4 pixels, 4 tiles\n";
    assert_eq!(scratch.kbmap("same bed.map copy.map"), ok(&format!("bed.map and copy.map: the same map\n{tiles}")));
    assert_eq!(scratch.kbmap("same bed.map bed.map"), ok(&format!("bed.map and bed.map: the same map\n{tiles}")));
    let piped = format!("bed.map and standard input: the same map\n{tiles}");
    assert_eq!(scratch.fed("same bed.map -", &BED), ok(&piped));
}

/// A map that was made by claims, and one that was changed and changed back, have the file that a scan has.
#[test]
fn same_map_by_other_ways() {
    let scratch = Scratch::with_bed();
    assert_eq!(scratch.fed("scan - -o made.map", b"P2 4 4 63 0 0 0 0 0 0 0 0 0 0 0 0 0 0 0 0").status, 0);
    let status = |line: &str| {
        let answer = scratch.kbmap(line);
        assert_eq!(answer.err, "", "{line}");
        answer.status
    };
    for claim in ["2,2 1 9", "0,2 0 9", "3,1 0 9", "0,0 1 5"] {
        assert_eq!(status("same bed.map made.map"), 1);
        assert_eq!(scratch.kbmap(&format!("claim made.map {claim}")).status, 0);
    }
    assert_eq!(status("same bed.map made.map"), 0);
    assert_eq!(scratch.get("made.map"), BED);
    for line in ["claim made.map 2,0 0 63", "release made.map 2,0 0"] {
        assert_eq!(status(line), 0);
        assert_eq!(status("same made.map bed.map"), i32::from(line.starts_with("claim")));
    }
}

/// The first pixel is that of the rows, from the north-west: here it is not the first by Morton number.
#[test]
fn first_pixel() {
    let scratch = Scratch::with_bed();
    for claim in ["2,0 0 51", "0,1 0 51"] {
        assert_eq!(scratch.kbmap(&format!("claim bed.map {claim} -o other.map")).status, 0);
        scratch.put("bed.map", &scratch.get("other.map"));
    }
    scratch.put("bed.map", &BED);
    let first = "first at column 2, row 0, in mils from 31.50, 0.00:";
    let whose = "    bed.map: nobody's\n    other.map: account 51's, guest\n";
    let text = format!("bed.map and other.map: not the same map\n  {first}\n{whose}  pixels that differ: 2 of 16\n");
    assert_eq!(scratch.kbmap("same bed.map other.map"), differ(&text));
    let whose = "    standard input: account 5's, staff\n    zones.map: account 3's, staff\n";
    let first = "first at column 0, row 0, in mils from 0.00, 0.00:";
    let text =
        format!("standard input and zones.map: not the same map\n  {first}\n{whose}  pixels that differ: 10 of 16\n");
    scratch.put("zones.map", &ZONES);
    assert_eq!(scratch.fed("same - zones.map", &BED), differ(&text));
}

/// The same tiles on a larger bed: the files differ in their first byte alone.
#[test]
fn orders() {
    let scratch = Scratch::with_bed();
    let mut larger = BED;
    larger[0] = 3;
    scratch.put("larger.map", &larger);
    let orders = "  bed.map: order 2, 4 by 4 pixels\n  larger.map: order 3, 8 by 8 pixels\n";
    let text = format!("bed.map and larger.map: not the same map\n{orders}");
    assert_eq!(scratch.kbmap("same bed.map larger.map"), differ(&text));
}

/// Beds of one pixel.
#[test]
fn smallest_beds() {
    let scratch = Scratch::new();
    for (name, account) in [("free", 0), ("held", 63)] {
        assert_eq!(scratch.fed(&format!("scan - -o {name}.map"), format!("P2 1 1 63 {account}").as_bytes()).status, 0);
    }
    let whose = "    free.map: nobody's\n    held.map: account 63's, guest\n";
    let first = "first at column 0, row 0, in mils from 0.00, 0.00:";
    let text = format!("free.map and held.map: not the same map\n  {first}\n{whose}  pixels that differ: 1 of 1\n");
    assert_eq!(scratch.kbmap("same free.map held.map"), differ(&text));
    assert_eq!(scratch.kbmap("same held.map held.map").status, 0);
}

/// One pixel of the largest bed.
#[test]
fn one_pixel() {
    let scratch = Scratch::new();
    let mut picture = noise(1024);
    scratch.put("bed.pgm", &picture);
    let last = picture.len() - 1;
    picture[last] ^= 1;
    scratch.put("other.pgm", &picture);
    for name in ["bed", "other"] {
        assert_eq!(scratch.kbmap(&format!("scan {name}.pgm -o {name}.map")).status, 0);
    }
    let answer = scratch.kbmap("same bed.map other.map");
    assert_eq!((answer.status, answer.err.as_str()), (1, ""));
    assert!(answer.text().contains("  first at column 1023, row 1023, in mils from 16110.24, 16110.24:\n"));
    assert!(answer.text().ends_with("  pixels that differ: 1 of 1048576\n"), "{}", answer.text());
}

/// What is no map is refused, the first file's trouble first, and bytes alone make no map.
#[test]
fn refuses() {
    let scratch = Scratch::with_bed();
    scratch.put("cut.map", &BED[..20]);
    scratch.put("long.map", &[&BED[..], &[0]].concat());
    let cut = "cut.map: refused, 41 FILE_CUT_SHORT: the file ends too early
  the file has 20 bytes; with 4 tiles its roster begins at byte 21\n";
    let long = "long.map: refused, 42 TRAILING_BYTES: bytes follow the end of the file's roster
  byte 32: the file should end here, and 1 byte follows\n";
    for (line, verdict) in [
        ("same bed.map long.map", long),
        ("same cut.map bed.map", cut),
        ("same cut.map long.map", cut),
        ("same long.map cut.map", long),
        ("same cut.map cut.map", cut),
    ] {
        assert_eq!(scratch.kbmap(line), refused(&format!("kbmap: {verdict}")), "{line}");
    }
    let none = Answer { status: 2, ..refused("kbmap: none.map: No such file or directory\n") };
    assert_eq!(scratch.kbmap("same bed.map none.map"), none);
    assert_eq!(scratch.kbmap("same none.map cut.map"), none);
    assert_eq!(scratch.kbmap("same cut.map none.map"), refused(&format!("kbmap: {cut}")));
}
