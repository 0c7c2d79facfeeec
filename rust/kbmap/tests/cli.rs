//! The program on good files and on refused ones.

mod common;

use common::{answer, noise, ok, refused, Scratch, BED, PICTURE, ZONES};
use std::fs;

#[test]
fn help_and_version() {
    let scratch = Scratch::new();
    let help = scratch.kbmap("--help");
    assert!(help.status == 0 && help.text().starts_with("kbmap: ") && help.err.is_empty());
    assert_eq!(scratch.kbmap("--version"), ok(&format!("kbmap {}\n", env!("CARGO_PKG_VERSION"))));
}

#[test]
fn check() {
    let scratch = Scratch::with_bed();
    assert_eq!(scratch.kbmap("check bed.map"), ok("bed.map: a map of order 2, 4 by 4 pixels, 4 tiles, 32 bytes\n"));
    let said = "standard input: a map of order 2, 4 by 4 pixels, 4 tiles, 32 bytes\n";
    assert_eq!(scratch.fed("check -", &BED), ok(said));
}

/// Each refusal of a file: its number, its name, and the byte.
#[test]
fn check_refuses() {
    let scratch = Scratch::new();
    let cases: [(usize, u8, &str, &str); 9] = [
        (0, 11, "1 ORDER_TOO_LARGE", "byte 0: the order is 11"),
        (
            1,
            9,
            "25 SLOTS_EXCEEDED",
            "bytes 1 to 4: the tile count is 150994948, and no bed has more than 1048576 tiles",
        ),
        (5, 64, "11 HIGH_BITS_SET", "word 0 (the first is 0), bytes 5 to 8, 0x40000045"),
        (
            8,
            0xc5,
            "12 SIZE_ABOVE_ORDER",
            "word 0 (the first is 0), bytes 5 to 8, 0x000000c5: account 5, corner 0, size 3",
        ),
        (7, 4, "13 CORNER_INVALID", "word 0 (the first is 0), bytes 5 to 8, 0x00000445: account 5, corner 1, size 1"),
        (16, 0, "14 ACCOUNT_ZERO", "word 2 (the first is 0), bytes 13 to 16"),
        (11, 8, "15 TILES_OVERLAP", "word 1 (the first is 0), bytes 9 to 12, 0x00000809: account 9, corner 2, size 0"),
        (
            26,
            5,
            "43 ROSTER_WRONG",
            "entry 0 (the first is 0), byte 22: account 5 has 5 pixels here, and 4 by the tiles",
        ),
        (22, 10, "54 ROSTER_UNSORTED", "entry 1 (the first is 0), byte 27: account 9 is below account 10 of entry 0"),
    ];
    for (at, byte, name, told) in cases {
        let mut bytes = BED;
        bytes[at] = byte;
        scratch.put("bad.map", &bytes);
        let answer = scratch.kbmap("check bad.map");
        assert_eq!((answer.status, answer.err.as_str()), (1, ""));
        let text = answer.text();
        assert!(text.starts_with(&format!("bad.map: refused, {name}: ")), "{text}");
        assert!(text.contains(told), "{text}");
    }
}

#[test]
fn check_refuses_other_lengths() {
    let scratch = Scratch::new();
    let short = scratch.fed("check -", &BED[..20]);
    let detail = "  the file has 20 bytes; with 4 tiles its roster begins at byte 21\n";
    assert_eq!(short.text(), format!("standard input: refused, 41 FILE_CUT_SHORT: the file ends too early\n{detail}"));
    assert_eq!(short.status, 1);
    let long = scratch.fed("check -", &[&BED[..], &[0]].concat());
    assert!(long.text().ends_with("\n  byte 32: the file should end here, and 1 byte follows\n"));
    assert!(scratch.fed("check -", b"").text().ends_with("\n  the file is empty\n"));
    let endless = scratch.kbmap("check /dev/zero");
    assert_eq!(endless, refused("kbmap: /dev/zero: longer than 64 MB: no map file, table or picture of a bed is\n"));
}

/// Bed M's file with the two entries of its roster turned round, and with the first one twice.
#[test]
fn check_refuses_unsorted_rosters() {
    let scratch = Scratch::with_zones();
    let rosters = [
        ([9, 0, 0, 0, 6, 5, 0, 0, 0, 4], "account 5 is below account 9 of entry 0, byte 22"),
        ([5, 0, 0, 0, 4, 5, 0, 0, 0, 4], "account 5 again, as in entry 0, byte 22"),
    ];
    let sentence = "the accounts in the file's roster do not rise from entry to entry";
    let rule = "the account of each entry must be above that of the entry ahead of it";
    for (entries, told) in rosters {
        let detail = format!("entry 1 (the first is 0), byte 27: {told}");
        let verdict = format!("bad.map: refused, 54 ROSTER_UNSORTED: {sentence}\n  {detail}\n  {rule}\n");
        scratch.put("bad.map", &[&BED[..22], &entries].concat());
        let checked = scratch.kbmap("check bad.map");
        assert_eq!((checked.status, checked.text(), checked.err.as_str()), (1, verdict.as_str(), ""));
        for line in ["show bad.map", "claim bad.map 0 0 9", "inside zones.map bad.map -o third.map"] {
            assert_eq!(scratch.kbmap(line), refused(&format!("kbmap: {verdict}")));
        }
        assert_eq!(scratch.names(), ["bad.map", "bed.map", "zones.map"]);
    }
}

#[test]
fn show() {
    let text = "bed.map
  order   2  4 by 4 pixels
  tiles   4  by 2 accounts
  held   10  pixels, 62.5 %
  free    6  pixels, 37.5 %

  account  class      tiles   pixels    share
        5  staff          1        4   25.0 %
        9  student        3        6   37.5 %
";
    assert_eq!(Scratch::with_bed().kbmap("show bed.map"), ok(text));
}

#[test]
fn scan_and_decode() {
    let scratch = Scratch::new();
    scratch.put("bed.pgm", PICTURE);
    assert_eq!(scratch.kbmap("scan bed.pgm -o bed.map"), ok("bed.map: order 2, 4 by 4 pixels, 4 tiles\n"));
    assert_eq!(scratch.get("bed.map"), BED);
    assert_eq!(scratch.kbmap("decode bed.map -o out.pgm"), ok("out.pgm: 4 by 4 pixels, grey value = account\n"));
    assert_eq!(scratch.get("out.pgm"), PICTURE);
    let plain = "P2\n4 4\n63\n 5  5  0  0\n 5  5  0  9\n 9  0  9  9\n 0  0  9  9\n";
    assert_eq!(scratch.kbmap("decode bed.map --plain -o -"), ok(plain));
    let piped = scratch.fed("scan - -o -", plain.as_bytes());
    assert_eq!((piped.status, piped.out.as_slice()), (0, &BED[..]));
    assert_eq!(piped.err, "standard output: order 2, 4 by 4 pixels, 4 tiles\n");
    assert_eq!(scratch.fed("decode - -o -", &BED).out, PICTURE);
}

/// All orders, there and back.
#[test]
fn all_orders() {
    let scratch = Scratch::new();
    for order in 0..=10 {
        let picture = noise(1 << order);
        let scanned = scratch.fed("scan - -o bed.map", &picture);
        assert!(scanned.text().starts_with(&format!("bed.map: order {order}, ")), "{scanned:?}");
        let decoded = scratch.kbmap("decode bed.map -o -");
        assert!(decoded.status == 0 && decoded.out == picture, "order {order}");
    }
}

#[test]
fn scan_takes_greys_as_they_are() {
    let scratch = Scratch::new();
    let answer = scratch.fed("scan - -o bed.map", b"P2 1 1 255 63");
    let note = "  the picture's maxval is 255; grey values were taken as they are, not scaled\n";
    assert_eq!(answer, ok(&format!("bed.map: order 0, 1 by 1 pixel, 1 tile\n{note}")));
    assert!(scratch.kbmap("at bed.map 0 0").text().starts_with("column 0, row 0: account 63, guest\n"));
}

#[test]
fn scan_refuses() {
    let scratch = Scratch::new();
    let sides = "a bed is a square with a side of 1, 2, 4, 8, 16, 32, 64, 128, 256, 512 or 1024 pixels";
    let oblong = format!("kbmap: standard input: the picture is 4 by 2 pixels; {sides}\n");
    assert_eq!(scratch.fed("scan - -o x.map", b"P2 4 2 63 1 1 1 1 1 1 1 1"), refused(&oblong));
    let bright = "kbmap: standard input: refused, 24 ACCOUNT_TOO_LARGE: the account is above 63\n  \
                  column 1, row 1: grey value 64\n";
    assert_eq!(scratch.fed("scan - -o x.map", b"P2 2 2 255 1 2 3 64"), refused(bright));
    let deep = scratch.fed("scan - -o x.map", b"P5 2 2 65535\n\0\0\0\0\0\0\0\0");
    assert!(deep.status == 1 && deep.err.contains("the maxval is 65535"), "{}", deep.err);
    let other = scratch.fed("scan - -o x.map", b"\x89PNG");
    assert!(other.status == 1 && other.err.contains("neither with P5 nor with P2"), "{}", other.err);
    assert!(scratch.names().is_empty());
}

/// A picture that ends early is a scan that is not finished: no map file, and no pixel of it taken as nobody's.
#[test]
fn scan_refuses_unfinished() {
    let scratch = Scratch::new();
    let refusal = "refused, 52 UNSCANNED: the pixel, the block or the bed is not wholly scanned yet";
    let ends = |at: &str, scanned: &str| {
        refused(&format!("kbmap: standard input: {refusal}\n  the picture ends before {at}: {scanned} scanned\n"))
    };
    for cut in [&b"P5 2 2 63\n\x07\x07\0"[..], b"P2 2 2 63 7 7 0\n", b"P2 2 2 63\n7 7 0 # and no more"] {
        assert_eq!(scratch.fed("scan - -o x.map", cut), ends("column 1, row 1", "3 of 4 pixels"));
    }
    assert_eq!(scratch.fed("scan - -o -", b"P5 1 1 63\n"), ends("column 0, row 0", "0 of 1 pixel"));
    for pixels in 0..16 {
        let cut = &PICTURE[..PICTURE.len() - 16 + pixels];
        let (column, row) = (pixels % 4, pixels / 4);
        let expected = ends(&format!("column {column}, row {row}"), &format!("{pixels} of 16 pixels"));
        assert_eq!(scratch.fed("scan - -o x.map", cut), expected);
    }
    // What is wrong with a pixel that is there is told first.
    let bright = scratch.fed("scan - -o x.map", b"P2 2 2 255 1 64");
    assert!(bright.status == 1 && bright.err.contains("refused, 24 "), "{}", bright.err);
    assert!(scratch.names().is_empty());
}

#[test]
fn claim_and_release() {
    let scratch = Scratch::with_bed();
    let claimed = "bed.map: columns 2 to 3, rows 0 to 1: now account 9's, student\n  \
                   held before: account 9 (1 pixel), nobody's (3 pixels)\n  tiles: 4 before, 4 after\n";
    assert_eq!(scratch.kbmap("claim bed.map 3,0 1 9"), ok(claimed));
    assert!(scratch.kbmap("at bed.map 2 0").text().starts_with("column 2, row 0: account 9, student\n"));
    let released = "bed.map: column 0, row 0: now nobody's\n  held before: account 5 (1 pixel)\n  \
                    tiles: 4 before, 6 after\n";
    assert_eq!(scratch.kbmap("release bed.map 0 0"), ok(released));
    let back = scratch.kbmap("claim bed.map 0 0 5");
    assert!(back.text().ends_with("6 before, 4 after\n"));
    assert_eq!(scratch.names(), ["bed.map"]);
}

/// A preview tells what the claim then does, and does nothing.
#[test]
fn preview() {
    let scratch = Scratch::with_bed();
    let told = "bed.map: columns 2 to 3, rows 0 to 1: would be account 9's, student\n  \
                holds now: account 9 (1 pixel), nobody's (3 pixels)\n  tiles: 4 now, 4 after\n";
    assert_eq!(scratch.kbmap("preview bed.map 3,0 1 9"), ok(told));
    let released = "standard input: column 0, row 0: would be nobody's\n  holds now: account 5 (1 pixel)\n  \
                    tiles: 4 now, 6 after\n";
    assert_eq!(scratch.fed("preview - 0 0 0", &BED), ok(released));
    for (claim, tiles) in [("0 0 9", 7), ("0 1 9", 4), ("8 1 9", 4), ("8 0 0", 3), ("0 2 7", 1), ("0 2 0", 0)] {
        let answer = scratch.kbmap(&format!("preview bed.map {claim}"));
        assert!(answer.text().ends_with(&format!("\n  tiles: 4 now, {tiles} after\n")), "{}", answer.text());
        let claimed = scratch.fed(&format!("claim - {claim}"), &BED).err;
        assert!(claimed.ends_with(&format!("\n  tiles: 4 before, {tiles} after\n")), "{claimed}");
    }
    assert_eq!((scratch.get("bed.map"), scratch.names()), (BED.to_vec(), vec!["bed.map".to_owned()]));
}

#[test]
fn claims_say_what_was_there() {
    let scratch = Scratch::with_bed();
    let said = |line: &str| scratch.fed(line, &BED).err;
    let whole = "  held before: account 5 (4 pixels), account 9 (6 pixels), nobody's (6 pixels)\n";
    assert!(said("release - 0 2").contains(whole));
    assert!(said("claim - 3,3 0 7").contains("  held before: account 9 (1 pixel)\n"));
    assert!(said("claim - 2,0 0 7").contains("  held before: nobody's (1 pixel)\n"));
}

#[test]
fn claim_elsewhere() {
    let scratch = Scratch::with_bed();
    assert_eq!(scratch.kbmap("claim bed.map 0 2 63 -o new.map").status, 0);
    assert_eq!(scratch.get("bed.map"), BED);
    assert_eq!(scratch.get("new.map"), [2, 0, 0, 0, 1, 0, 0, 0, 0xbf, 1, 63, 0, 0, 0, 16]);
    let piped = scratch.fed("release - 0 2", &BED);
    assert_eq!((piped.status, piped.out.as_slice()), (0, &[2, 0, 0, 0, 0, 0][..]));
    assert!(piped.err.ends_with("4 before, 0 after\n"), "{}", piped.err);
}

#[test]
fn claim_refuses() {
    let scratch = Scratch::with_bed();
    let detail = "on a bed of order 2, 4 by 4 pixels, 4 tiles\n";
    let invalid = "kbmap: bed.map: refused, 32 BLOCK_INVALID: ";
    let cases = [
        ("claim bed.map 1 1 9", invalid, "corner 1, size 1, account 9, "),
        ("release bed.map 0 3", invalid, "corner 0, size 3, "),
        (
            "claim bed.map 9,9 3 9",
            "kbmap: bed.map: refused, 31 ",
            "the block around column 9, row 9, size 3, account 9, ",
        ),
        ("claim bed.map 0 0 64", "kbmap: bed.map: refused, 24 ", "corner 0, size 0, account 64, "),
        ("claim bed.map 0 0 261", "kbmap: bed.map: refused, 24 ", "corner 0, size 0, account 261, "),
    ];
    for (line, start, asked) in cases {
        let answer = scratch.kbmap(line);
        if line.starts_with("claim") {
            assert_eq!(scratch.kbmap(&line.replace("claim", "preview")), answer);
        }
        assert!(answer.status == 1 && answer.out.is_empty(), "{line}");
        assert!(answer.err.starts_with(start), "{}", answer.err);
        assert!(answer.err.ends_with(&format!("\n  {asked}{detail}")), "{}", answer.err);
    }
    assert_eq!(scratch.get("bed.map"), BED);
}

/// Bed M inside its zones, and outside them.
const INSIDE: [u8; 24] = [2, 0, 0, 0, 2, 0, 0, 0, 69, 0, 0, 48, 73, 2, 5, 0, 0, 0, 4, 9, 0, 0, 0, 4];
const OUTSIDE: [u8; 19] = [2, 0, 0, 0, 2, 0, 0, 28, 9, 0, 0, 32, 9, 1, 9, 0, 0, 0, 2];

#[test]
fn inside_and_outside() {
    let scratch = Scratch::with_zones();
    let told = |kept: &str| format!("order 2, 4 by 4 pixels, 2 tiles\n  kept: {kept} held pixels\n");
    let inside = scratch.kbmap("inside bed.map zones.map -o third.map");
    assert_eq!((inside, scratch.get("third.map")), (ok(&format!("third.map: {}", told("8 of 10"))), INSIDE.to_vec()));
    let outside = scratch.kbmap("outside bed.map zones.map -o third.map");
    assert_eq!((outside, scratch.get("third.map")), (ok(&format!("third.map: {}", told("2 of 10"))), OUTSIDE.to_vec()));
    let piped = |line: &str, input: &[u8]| {
        let answer = scratch.fed(line, input);
        (answer.status, answer.out, answer.err)
    };
    let err = |kept| format!("standard output: {}", told(kept));
    assert_eq!(piped("inside - zones.map -o -", &BED), (0, INSIDE.to_vec(), err("8 of 10")));
    assert_eq!(piped("outside bed.map - -o -", &ZONES), (0, OUTSIDE.to_vec(), err("2 of 10")));
    assert_eq!((scratch.get("bed.map"), scratch.get("zones.map")), (BED.to_vec(), ZONES.to_vec()));
    assert_eq!(scratch.names(), ["bed.map", "third.map", "zones.map"]);
}

/// All of a bed is inside itself, and nothing of it outside.
#[test]
fn inside_itself() {
    let scratch = Scratch::with_bed();
    let whole = ok("third.map: order 2, 4 by 4 pixels, 4 tiles\n  kept: 10 of 10 held pixels\n");
    assert_eq!(scratch.kbmap("inside bed.map bed.map -o third.map"), whole);
    assert_eq!(scratch.get("third.map"), BED);
    let nothing = ok("third.map: order 2, 4 by 4 pixels, 0 tiles\n  kept: 0 of 10 held pixels\n");
    assert_eq!(scratch.kbmap("outside bed.map bed.map -o third.map"), nothing);
    assert_eq!(scratch.get("third.map"), [2, 0, 0, 0, 0, 0]);
    scratch.put("one.map", &[0, 0, 0, 0, 1, 0, 0, 0, 3, 1, 3, 0, 0, 0, 1]);
    let one = ok("third.map: order 0, 1 by 1 pixel, 1 tile\n  kept: 1 of 1 held pixel\n");
    assert_eq!(scratch.kbmap("inside one.map one.map -o third.map"), one);
}

/// Every pixel of small beds and of a large one, as the two pictures have it.
#[test]
fn inside_and_outside_by_pixels() {
    let scratch = Scratch::new();
    for order in [0, 1, 5, 10] {
        let (picture, pixels) = (noise(1 << order), 1 << (2 * order));
        let head = picture.len() - pixels;
        let mut zones = picture.clone();
        zones[head..].reverse();
        zones[head..].iter_mut().filter(|grey| **grey < 30).for_each(|grey| *grey = 0);
        assert_eq!(scratch.fed("scan - -o bed.map", &picture).status, 0);
        assert_eq!(scratch.fed("scan - -o zones.map", &zones).status, 0);
        for (command, somebodys) in [("inside", true), ("outside", false)] {
            assert_eq!(scratch.kbmap(&format!("{command} bed.map zones.map -o third.map")).status, 0);
            let mut third = picture.clone();
            let left = third[head..].iter_mut().zip(&zones[head..]).filter(|(_, &zone)| (zone != 0) != somebodys);
            left.for_each(|(grey, _)| *grey = 0);
            assert!(scratch.kbmap("decode third.map -o -").out == third, "{command}, order {order}");
        }
    }
}

#[test]
fn inside_refuses() {
    let scratch = Scratch::with_zones();
    scratch.put("large.map", &[3, 0, 0, 0, 0, 0]);
    scratch.put("cut.map", &BED[..20]);
    let differ = "refused, 51 ORDERS_DIFFER: the two maps have different orders";
    let (bed, large) = ("  bed.map: order 2, 4 by 4 pixels\n", "  large.map: order 3, 8 by 8 pixels\n");
    let answer = scratch.kbmap("inside bed.map large.map -o third.map");
    assert_eq!(answer, refused(&format!("kbmap: bed.map and large.map: {differ}\n{bed}{large}")));
    let answer = scratch.kbmap("outside large.map bed.map -o third.map");
    assert_eq!(answer, refused(&format!("kbmap: large.map and bed.map: {differ}\n{large}{bed}")));
    let cut = "kbmap: cut.map: refused, 41 FILE_CUT_SHORT: the file ends too early\n  \
               the file has 20 bytes; with 4 tiles its roster begins at byte 21\n";
    for line in ["inside cut.map zones.map -o third.map", "outside bed.map cut.map -o third.map"] {
        assert_eq!(scratch.kbmap(line), refused(cut));
    }
    assert_eq!(scratch.names(), ["bed.map", "cut.map", "large.map", "zones.map"]);
}

/// The file that is replaced keeps its permissions, and a link to it stays a link.
#[cfg(unix)]
#[test]
fn claim_keeps_permissions_and_links() {
    use std::os::unix::fs::{symlink, PermissionsExt};
    let scratch = Scratch::with_bed();
    let bed = scratch.path.join("bed.map");
    fs::set_permissions(&bed, fs::Permissions::from_mode(0o640)).unwrap();
    symlink("bed.map", scratch.path.join("link.map")).unwrap();
    assert_eq!(scratch.kbmap("release link.map 0 2").status, 0);
    assert!(scratch.path.join("link.map").is_symlink());
    assert_eq!(scratch.get("bed.map"), [2, 0, 0, 0, 0, 0]);
    assert_eq!(fs::metadata(&bed).unwrap().permissions().mode() & 0o777, 0o640);
    assert_eq!(scratch.names(), ["bed.map", "link.map"]);
}

/// A name need not be text.
#[cfg(unix)]
#[test]
fn odd_names() {
    use std::os::unix::ffi::OsStrExt;
    let scratch = Scratch::new();
    let name = std::ffi::OsStr::from_bytes(b"b\xffd<&.map");
    scratch.put(name, &BED);
    let mut command = scratch.command(env!("CARGO_BIN_EXE_kbmap"));
    let drawn = answer(command.arg("draw").arg(name).args(["--svg", "-o", "-"]), b"");
    assert!(drawn.status == 0 && drawn.text().contains("<title>b\u{fffd}d&lt;&amp;.map: a bed of order 2"));
}
