//! Where a column and a row are asked for: whose the pixel is, and both as positions in mils.

mod common;

use common::{answer, noise, ok, refused, Answer, Scratch, BED};

/// What is said of a pixel of bed M.
fn said(pixel: &str, who: &str, block: &str, mils: &str) -> Answer {
    ok(&format!("{pixel}: {who}\n  {block}\n  in mils: from {mils}\n"))
}

#[test]
fn at() {
    let scratch = Scratch::with_bed();
    let tile = "tile: corner 12, size 1: columns 2 to 3, rows 2 to 3, 4 pixels";
    let held = said("column 3, row 2", "account 9, student", tile, "47.25, 31.50");
    assert_eq!(scratch.kbmap("at bed.map 3 2"), held);
    let tile = "tile: corner 7, size 0: column 3, row 1, 1 pixel";
    let single = said("column 3, row 1", "account 9, student", tile, "47.25, 15.75");
    assert_eq!(scratch.kbmap("at bed.map 3 1"), single);
    let block = "free block: corner 9, size 0: column 1, row 2, 1 pixel";
    let free = said("column 1, row 2", "nobody's", block, "15.75, 31.50");
    assert_eq!(scratch.kbmap("at bed.map 1 2"), free);
    // Account 9's pixel in the block NE released, the whole block is free.
    assert_eq!(scratch.kbmap("release bed.map 3,1 0 -o fewer.map").status, 0);
    let block = "free block: corner 4, size 1: columns 2 to 3, rows 0 to 1, 4 pixels";
    assert_eq!(scratch.kbmap("at fewer.map 2 0"), said("column 2, row 0", "nobody's", block, "31.50, 0.00"));
    let outside = "kbmap: bed.map: refused, 31 POINT_OUTSIDE: the pixel is off the bed\n  \
                   column 4, row 0, on a bed of 4 by 4 pixels\n";
    assert_eq!(scratch.kbmap("at bed.map 4 0"), refused(outside));
}

/// Every pixel of a bed of many accounts, as the picture has it, and again by where it is said to begin.
#[test]
fn at_every_pixel() {
    let scratch = Scratch::new();
    let picture = noise(8);
    assert_eq!(scratch.fed("scan - -o bed.map", &picture).status, 0);
    for (at, &account) in picture[picture.len() - 64..].iter().enumerate() {
        let (column, row) = (at % 8, at / 8);
        let answer = scratch.kbmap(&format!("at bed.map {column} {row}"));
        let who = if account == 0 { "nobody's\n".to_owned() } else { format!("account {account}, ") };
        let text = answer.text();
        assert!(text.starts_with(&format!("column {column}, row {row}: {who}")), "{text}");
        let what = if account == 0 { "\n  free block: corner " } else { "\n  tile: corner " };
        assert!(text.contains(what), "{text}");
        let (_, begins) = text.trim_end().split_once("\n  in mils: from ").unwrap();
        assert_eq!(scratch.kbmap(&format!("at bed.map {}", begins.replace(',', ""))), answer);
    }
}

/// The last column ends with 62.99 on bed M, with 16125.98 on the largest bed. One of column and row may be a number.
#[test]
fn at_in_mils() {
    let scratch = Scratch::with_bed();
    let same = scratch.kbmap("at bed.map 3 2");
    for place in ["47.25 31.50", "62.99 47.24", "55.00 2", "3 40.00", "-- 62.99 31.50"] {
        assert_eq!(scratch.kbmap(&format!("at bed.map {place}")), same, "{place}");
    }
    assert_eq!(scratch.fed("at - 50.00 40.00", &BED), same);
    scratch.put("large.map", &[10, 0, 0, 0, 0, 0]);
    let block = "free block: corner 0, size 10: columns 0 to 1023, rows 0 to 1023, 1048576 pixels";
    let last = said("column 1023, row 0", "nobody's", block, "16110.24, 0.00");
    assert_eq!(scratch.kbmap("at large.map 16125.98 0.00"), last);
}

fn invalid(file: &str, detail: &str) -> Answer {
    let sentence = "the text is no position in mils, or the position is off the bed";
    let form = "a position is one to five digits, a point and two digits, with no needless leading zero, as 123.45";
    refused(&format!("kbmap: {file}: refused, 53 POSITION_INVALID: {sentence}\n  {detail}\n  {form}\n"))
}

#[test]
fn at_refuses_positions() {
    let scratch = Scratch::with_bed();
    scratch.put("large.map", &[10, 0, 0, 0, 0, 0]);
    let off = invalid("large.map", "COLUMN 16125.99, on a bed of 1024 by 1024 pixels");
    assert_eq!(scratch.kbmap("at large.map 16125.99 0"), off);
    let column = |word: &str| invalid("bed.map", &format!("COLUMN {word}, on a bed of 4 by 4 pixels"));
    for word in ["63.00", "99999.99", ".45", "00.45", "01.00", "1.0", "1.000", "1.", ".", "+1.00", "1,00.00"] {
        assert_eq!(scratch.kbmap(&format!("at bed.map {word} 0")), column(word));
    }
    assert_eq!(scratch.kbmap("at bed.map -- -1.00 0"), column("-1.00"));
    assert_eq!(scratch.kbmap("at bed.map 0.00 63.00"), invalid("bed.map", "ROW 63.00, on a bed of 4 by 4 pixels"));
    // The column is looked at first, and a position ahead of a pixel's number.
    assert_eq!(scratch.kbmap("at bed.map 63.00 63.00"), column("63.00"));
    assert_eq!(scratch.kbmap("at bed.map 4 63.00"), invalid("bed.map", "ROW 63.00, on a bed of 4 by 4 pixels"));
    let outside = scratch.kbmap("at bed.map 4 0.00").err;
    assert!(outside.starts_with("kbmap: bed.map: refused, 31 POINT_OUTSIDE: "), "{outside}");
    // A file that is no map is told before anything that is asked of it.
    let cut = scratch.fed("at - 63.00 0", &BED[..20]);
    assert!(cut.status == 1 && cut.err.contains("refused, 41 "), "{}", cut.err);
}

/// Line feeds, blanks, and bytes that are no text: they are refused, and shown so that they do no harm.
#[cfg(unix)]
#[test]
fn odd_positions() {
    use std::ffi::OsStr;
    use std::os::unix::ffi::OsStrExt;
    let scratch = Scratch::with_bed();
    let call = |words: &[&[u8]]| {
        let mut command = scratch.command(env!("CARGO_BIN_EXE_kbmap"));
        answer(command.args(words.iter().map(|word| OsStr::from_bytes(word))), b"")
    };
    let cases: [(&[u8], &str); 6] = [
        (b"1.00\n", "1.00\\x0a"),
        (b" 1.00", " 1.00"),
        (b"1.00 ", "1.00 "),
        (b"\x1b[2J.00", "\\x1b[2J.00"),
        (b"1.0\xff", "1.0\u{fffd}"),
        (b"\xd9\xa1.00", "\u{661}.00"),
    ];
    for (word, shown) in cases {
        let detail = |what| format!("{what} {shown}, on a bed of 4 by 4 pixels");
        assert_eq!(call(&[b"at", b"bed.map", word, b"0"]), invalid("bed.map", &detail("COLUMN")));
        let corner = [b"0,", word].concat();
        assert_eq!(call(&[b"release", b"bed.map", &corner, b"0"]), invalid("bed.map", &detail("ROW")));
    }
    for words in [[&b"at"[..], b"bed.map", b"\xff", b"0"], [b"release", b"bed.map", b"\xff,\xff", b"0"]] {
        let answer = call(&words);
        assert!(answer.status == 2 && answer.err.starts_with("kbmap: COLUMN is "), "{}", answer.err);
    }
    assert_eq!(scratch.get("bed.map"), BED);
}

/// Claims, releases and previews, the block by a position in it.
#[test]
fn claims_in_mils() {
    let scratch = Scratch::with_bed();
    let previewed = scratch.kbmap("preview bed.map 3,0 1 9");
    assert_eq!(scratch.kbmap("preview bed.map 47.25,15.74 1 9"), previewed);
    for (numbers, mils) in [
        ("claim - 3,0 1 9", "claim - 62.99,0.00 1 9"),
        ("claim - 3,0 1 9", "claim - 3,15.74 1 9"),
        ("release - 0,1 0", "release - 15.74,1 0"),
    ] {
        let answer = scratch.fed(mils, &BED);
        assert!(answer.status == 0 && answer == scratch.fed(numbers, &BED), "{mils}");
    }
    let claimed = scratch.kbmap("claim bed.map 50.00,0.45 1 9");
    assert!(claimed.text().starts_with("bed.map: columns 2 to 3, rows 0 to 1: now account 9's, student\n"));
    assert_ne!(scratch.get("bed.map"), BED);
}

/// Refused, nothing changes, and nothing is left beside the file.
#[test]
fn claims_refuse_positions() {
    let scratch = Scratch::with_bed();
    for (corner, detail) in [
        ("63.00,0", "COLUMN 63.00"),
        ("0,63.00", "ROW 63.00"),
        ("1.0,63.00", "COLUMN 1.0"),
        ("1.00,2.00,3.00", "ROW 2.00,3.00"),
        ("9,.45", "ROW .45"),
    ] {
        let refused = invalid("bed.map", &format!("{detail}, on a bed of 4 by 4 pixels"));
        // The position comes first: the size is no block's and the account above 63.
        for line in [format!("claim bed.map {corner} 3 64"), format!("preview bed.map {corner} 3 256")] {
            assert_eq!(scratch.kbmap(&line), refused, "{line}");
        }
        assert_eq!(scratch.kbmap(&format!("release bed.map {corner} 0")), refused);
    }
    let large = "kbmap: bed.map: refused, 32 BLOCK_INVALID: ";
    let around =
        "\n  the block around column 3, row 0, size 3, account 9, on a bed of order 2, 4 by 4 pixels, 4 tiles\n";
    let answer = scratch.kbmap("claim bed.map 50.00,0.45 3 9");
    assert!(answer.err.starts_with(large) && answer.err.ends_with(around), "{}", answer.err);
    assert_eq!((scratch.get("bed.map"), scratch.names()), (BED.to_vec(), vec!["bed.map".to_owned()]));
}
