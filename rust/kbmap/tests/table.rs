//! Tables of rights, shown and made, and who may place where by them.

mod common;

use common::{ok, refused, Answer, Scratch, BED};

const OLD: [u8; 16] = [15, 1, 1, 1, 1, 0, 1, 1, 0, 0, 0, 1, 0, 0, 0, 0];
const WORKSHOP: [u8; 16] = [15, 1, 1, 1, 1, 0, 1, 1, 0, 0, 0, 1, 1, 0, 0, 0];

/// The rows of the lab's table for workshops.
const ROWS: &str = "  asking   own  nobody's  guest's  student's  staff's
  staff    yes  yes       yes      yes        no
  student  yes  yes       no       no         no
  guest    yes  yes       no       no         no
";

/// Bed M in bed.map, and the lab's table.
fn scratch() -> Scratch {
    let scratch = Scratch::with_bed();
    scratch.put("workshop.table", &WORKSHOP);
    scratch
}

#[test]
fn table_shows() {
    let scratch = scratch();
    assert_eq!(scratch.kbmap("table workshop.table"), ok(&format!("workshop.table: a table of rights\n{ROWS}")));
    let old = ROWS.replace("guest    yes  yes", "guest    yes  no ");
    assert_eq!(scratch.fed("table -", &OLD), ok(&format!("standard input: a table of rights\n{old}")));
    assert_eq!(scratch.names(), ["bed.map", "workshop.table"]);
}

#[test]
fn table_makes() {
    let scratch = Scratch::new();
    let made = scratch.kbmap("table 11110 11000 11000 -o workshop.table");
    assert_eq!(made, ok(&format!("workshop.table: a table of rights\n{ROWS}")));
    assert_eq!(scratch.get("workshop.table"), WORKSHOP);
    // Over another, and to a pipe.
    assert_eq!(scratch.kbmap("table -o workshop.table 11110 11000 10000").status, 0);
    assert_eq!((scratch.get("workshop.table"), scratch.names()), (OLD.to_vec(), vec!["workshop.table".to_owned()]));
    let piped = scratch.kbmap("table 11110 11000 11000 -o -");
    assert_eq!((piped.status, piped.out.as_slice()), (0, &WORKSHOP[..]));
    assert_eq!(piped.err, format!("standard output: a table of rights\n{ROWS}"));
}

fn malformed(name: &str, detail: &str) -> Answer {
    let sentence = "the table of rights has a wrong count, a wrong length or a byte above 1";
    refused(&format!("kbmap: {name}: refused, 55 TABLE_MALFORMED: {sentence}\n  {detail}\n"))
}

fn unsound(name: &str, detail: &str) -> Answer {
    let sentence = "a row of the table of rights lacks a yes that it must have";
    refused(&format!("kbmap: {name}: refused, 56 TABLE_UNSOUND: {sentence}\n  {detail}\n"))
}

/// The same is said of a table file, of one that was to be made, and of one that rights should go by.
#[test]
fn table_refuses() {
    let scratch = scratch();
    let lacks = "byte 7, student, nobody's: no, where a guest has a yes; a student must have it too";
    let above = "byte 15, guest, staff's: 2, and should be 1 for yes or 0 for no";
    for (digits, name, refused) in [
        ("11110 10000 11000", "bad.table", unsound("bad.table", lacks)),
        ("11110 11000 11002", "bad.table", malformed("bad.table", above)),
    ] {
        assert_eq!(scratch.kbmap(&format!("table {digits} -o {name}")), refused);
        assert_eq!(scratch.names(), ["bed.map", "workshop.table"]);
        let bytes: Vec<u8> = digits.bytes().filter(u8::is_ascii_digit).map(|digit| digit - b'0').collect();
        scratch.put(name, &[&[15], &bytes[..]].concat());
        assert_eq!(scratch.kbmap(&format!("table {name}")), refused);
        assert_eq!(scratch.kbmap(&format!("rights bed.map 2 0 51 --table {name}")), refused);
        std::fs::remove_file(scratch.path.join(name)).unwrap();
    }
    let both = "byte 0: the count is 2, and should be 15\n  the file has 32 bytes; a count and 15 bytes take 16";
    assert_eq!(scratch.kbmap("table bed.map"), malformed("bed.map", both));
    assert_eq!(scratch.kbmap("rights bed.map 2 0 51 --table bed.map"), malformed("bed.map", both));
    let empty = "the file is empty; a count and 15 bytes take 16";
    assert_eq!(scratch.fed("table -", b""), malformed("standard input", empty));
    // A table that is refused does not take the place of one that is there.
    let refused = scratch.kbmap("table 01110 11000 11000 -o workshop.table");
    assert_eq!(
        refused,
        unsound("workshop.table", "byte 1, staff, own: no, and each row must say yes to its own pixels")
    );
    assert_eq!(scratch.get("workshop.table"), WORKSHOP);
}

/// What is said of an account at a pixel of bed M.
fn said(answer: &str, pixel: &str, table: &str) -> Answer {
    ok(&format!("{answer}\n  the pixel: {pixel}\n  the table: {table}\n"))
}

#[test]
fn rights() {
    let scratch = scratch();
    let guest = |may: &str| format!("{may} place at column 2, row 0");
    let no = said(&guest("no: account 51, guest, may not"), "nobody's", "the old one");
    assert_eq!(scratch.kbmap("rights bed.map 2 0 51"), no);
    let yes = said(&guest("yes: account 51, guest, may"), "nobody's", "workshop.table");
    assert_eq!(scratch.kbmap("rights bed.map 2 0 51 --table workshop.table"), yes);
    assert_eq!(scratch.kbmap("rights --table workshop.table bed.map 35.00 12.70 51"), yes);
    let piped = said(&guest("yes: account 51, guest, may"), "nobody's", "standard input");
    assert_eq!(scratch.fed("rights bed.map 2 0 51 --table -", &WORKSHOP), piped);
    assert_eq!(scratch.fed("rights - 2 0 51", &BED), no);
    for (asking, told, pixel) in [
        (9, "yes: account 9, student, may place", "its own"),
        (12, "no: account 12, student, may not place", "account 9's, student"),
        (5, "yes: account 5, staff, may place", "account 9's, student"),
        (63, "no: account 63, guest, may not place", "account 9's, student"),
    ] {
        let answer = said(&format!("{told} at column 3, row 1"), pixel, "the old one");
        assert_eq!(scratch.kbmap(&format!("rights bed.map 3 1 {asking}")), answer);
    }
    assert_eq!(scratch.names(), ["bed.map", "workshop.table"]);
}

/// Every cell of some tables: the program says what the digits say.
#[test]
fn rights_by_every_cell() {
    let scratch = Scratch::new();
    // The asker's own pixel, nobody's, a guest's, a student's and a staff member's.
    for (row, asking) in [3, 12, 51].into_iter().enumerate() {
        let picture = format!("P2 4 4 63 {asking} 0 60 40 7 0 0 0 0 0 0 0 0 0 0 0");
        assert_eq!(scratch.fed("scan - -o bed.map", picture.as_bytes()).status, 0);
        for digits in ["11110 11000 10000", "11110 11000 11000", "11111 10000 10000", "11111 11111 11111"] {
            assert_eq!(scratch.kbmap(&format!("table {} -o rights.table", digits)).status, 0);
            let cells = digits.split(' ').nth(row).unwrap();
            for (cell, place) in cells.chars().zip(["0 0", "1 0", "2 0", "3 0", "0 1"]) {
                let answer = scratch.kbmap(&format!("rights bed.map {place} {asking} --table rights.table"));
                let word = if cell == '1' { "yes: " } else { "no: " };
                assert!(answer.status == 0 && answer.text().starts_with(word), "{digits}, {asking}: {answer:?}");
            }
        }
    }
}

#[test]
fn rights_refuse() {
    let scratch = scratch();
    let asker = "kbmap: bed.map: refused, 34 ASKER_INVALID: the asking account is 0 or above 63\n  account";
    for asking in ["0", "64", "255", "256", "257", "4294967295"] {
        let told = format!("{asker} {asking} at column 2, row 0, on a bed of 4 by 4 pixels\n");
        assert_eq!(scratch.kbmap(&format!("rights bed.map 2 0 {asking}")), refused(&told));
    }
    let outside = "kbmap: bed.map: refused, 31 POINT_OUTSIDE: the pixel is off the bed\n  account";
    for asking in ["9", "0", "257"] {
        let told = format!("{outside} {asking} at column 4, row 0, on a bed of 4 by 4 pixels\n");
        assert_eq!(scratch.kbmap(&format!("rights bed.map 4 0 {asking}")), refused(&told));
    }
    let position = scratch.kbmap("rights bed.map 63.00 0 9").err;
    assert!(position.starts_with("kbmap: bed.map: refused, 53 POSITION_INVALID: "), "{position}");
    let cut = scratch.fed("rights - 0 0 9", &BED[..20]);
    assert!(cut.status == 1 && cut.err.contains("refused, 41 "), "{}", cut.err);
}
