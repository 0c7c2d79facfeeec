//! Command lines, good and bad.

use super::Coordinate::{Mils, Number};
use super::*;
use std::path::PathBuf;

fn parsed(line: &str) -> Result<Command, Failure> {
    parse(line.split_whitespace().map(OsString::from))
}

fn bed() -> Source {
    Source::File("bed.map".into())
}

fn to(name: &str) -> Target {
    Target::File(PathBuf::from(name))
}

#[test]
fn commands() {
    assert_eq!(parsed("check bed.map"), Ok(Command::Check { file: bed() }));
    assert_eq!(parsed("check -"), Ok(Command::Check { file: Source::Standard }));
    assert_eq!(parsed("show -- -odd"), Ok(Command::Show { file: Source::File("-odd".into()) }));
    let at = |column, row| Ok(Command::At { file: bed(), place: Place { column, row } });
    assert_eq!(parsed("at bed.map 3 1"), at(Number(3), Number(1)));
    let image = Source::File("bed.pgm".into());
    assert_eq!(parsed("scan -o bed.map bed.pgm"), Ok(Command::Scan { image, out: to("bed.map") }));
    let decode = |plain| Ok(Command::Decode { file: bed(), out: Target::Standard, plain });
    assert_eq!(parsed("decode bed.map -o -"), decode(false));
    assert_eq!(parsed("decode bed.map --output - --plain"), decode(true));
}

#[test]
fn help_and_version() {
    for line in ["--help", "-h", "help", "check --help", "draw -h nothing"] {
        assert_eq!(parsed(line), Ok(Command::Help));
    }
    assert_eq!(parsed("--version"), Ok(Command::Version));
    assert_eq!(parsed("-V"), Ok(Command::Version));
}

#[test]
fn claims() {
    let claim = |corner, account| Claim { corner, size: 3, account };
    let at = Corner::In(Place { column: Number(40), row: Number(24) });
    let claimed = Command::Claim { file: bed(), out: None, claim: claim(Corner::Morton(2496), Some(21)) };
    assert_eq!(parsed("claim bed.map 2496 3 21"), Ok(claimed));
    let released = Command::Claim { file: bed(), out: Some(to("new.map")), claim: claim(at, None) };
    assert_eq!(parsed("release bed.map 40,24 3 -o new.map"), Ok(released));
    let piped = Command::Claim { file: Source::Standard, out: None, claim: claim(Corner::Morton(0), None) };
    assert_eq!(parsed("release - 0 3"), Ok(piped));
    let preview = Command::Preview { file: bed(), claim: claim(Corner::Morton(2496), Some(21)) };
    assert_eq!(parsed("preview bed.map 2496 3 21"), Ok(preview));
}

/// Any word with a point in it, and whatever else: the library is to say what it is.
#[test]
fn positions() {
    let mils = |text: &str| Mils(text.as_bytes().to_vec());
    let at = |column, row| Ok(Command::At { file: bed(), place: Place { column, row } });
    assert_eq!(parsed("at bed.map 123.45 67.80"), at(mils("123.45"), mils("67.80")));
    assert_eq!(parsed("at bed.map 7 67.80"), at(Number(7), mils("67.80")));
    assert_eq!(parsed("at bed.map .x 7"), at(mils(".x"), Number(7)));
    assert_eq!(parsed("at bed.map -- -1.50 +1.50"), at(mils("-1.50"), mils("+1.50")));
    let release = |column, row| {
        let claim = Claim { corner: Corner::In(Place { column, row }), size: 1, account: None };
        Ok(Command::Claim { file: bed(), out: None, claim })
    };
    assert_eq!(parsed("release bed.map 123.45,67.80 1"), release(mils("123.45"), mils("67.80")));
    assert_eq!(parsed("release bed.map 123.45,4 1"), release(mils("123.45"), Number(4)));
    assert_eq!(parsed("release bed.map 7,67,80. 1"), release(Number(7), mils("67,80.")));
}

/// A word need not be text.
#[cfg(unix)]
#[test]
fn odd_words() {
    use std::os::unix::ffi::OsStringExt;
    let parsed = |words: [&[u8]; 4]| parse(words.map(|word| OsString::from_vec(word.to_vec())));
    let place = Place { column: Mils(b"1\xff.5\n".to_vec()), row: Number(0) };
    assert_eq!(parsed([b"at", b"bed.map", b"1\xff.5\n", b"0"]), Ok(Command::At { file: bed(), place }));
    let corner = Corner::In(Place { column: Number(1), row: Mils(b"\xff.".to_vec()) });
    let released = Command::Claim { file: bed(), out: None, claim: Claim { corner, size: 2, account: None } };
    assert_eq!(parsed([b"release", b"bed.map", b"1,\xff.", b"2"]), Ok(released));
    for words in [[&b"at"[..], b"bed.map", b"1\xff", b"0"], [b"release", b"bed.map", b"\xff", b"2"]] {
        assert_eq!(parsed(words).map_err(|failure| failure.status), Err(2));
    }
}

#[test]
fn comparisons() {
    let copy = || Source::File("copy.map".into());
    assert_eq!(parsed("same bed.map copy.map"), Ok(Command::Same { file: bed(), other: copy() }));
    assert_eq!(parsed("same - copy.map"), Ok(Command::Same { file: Source::Standard, other: copy() }));
    assert_eq!(parsed("same bed.map -"), Ok(Command::Same { file: bed(), other: Source::Standard }));
}

#[test]
fn combinings() {
    let zones = || Source::File("zones.map".into());
    let combine = |choice, file, zones, out| Ok(Command::Combine { choice, file, zones, out });
    let inside = combine(Choice::Inside, bed(), zones(), to("third.map"));
    assert_eq!(parsed("inside bed.map zones.map -o third.map"), inside);
    assert_eq!(
        parsed("outside - zones.map -o -"),
        combine(Choice::Outside, Source::Standard, zones(), Target::Standard)
    );
    let piped = combine(Choice::Outside, bed(), Source::Standard, to("third.map"));
    assert_eq!(parsed("outside -o third.map bed.map -"), piped);
}

#[test]
fn tables() {
    let table = |name: &str| Source::File(name.into());
    assert_eq!(parsed("table lab.table"), Ok(Command::Table { file: table("lab.table") }));
    assert_eq!(parsed("table -"), Ok(Command::Table { file: Source::Standard }));
    let make = |bytes, out| Ok(Command::MakeTable { bytes, out });
    let bytes = [1, 1, 1, 1, 0, 1, 1, 0, 0, 0, 1, 1, 0, 0, 0];
    assert_eq!(parsed("table 11110 11000 11000 -o lab.table"), make(bytes, to("lab.table")));
    assert_eq!(parsed("table -o - 11110 11000 11000"), make(bytes, Target::Standard));
    // What the digits may be, the library says.
    assert_eq!(parsed("table 98765 43210 00000 -o x"), make([9, 8, 7, 6, 5, 4, 3, 2, 1, 0, 0, 0, 0, 0, 0], to("x")));
}

#[test]
fn rights() {
    let rights = |place, account, table| Ok(Command::Rights { file: bed(), place, account, table });
    let place = || Place { column: Number(3), row: Number(1) };
    assert_eq!(parsed("rights bed.map 3 1 51"), rights(place(), 51, None));
    let lab = Some(Source::File("lab.table".into()));
    assert_eq!(parsed("rights bed.map 3 1 256 --table lab.table"), rights(place(), 256, lab));
    assert_eq!(parsed("rights --table - bed.map 3 1 51"), rights(place(), 51, Some(Source::Standard)));
    let mils = Place { column: Mils(b"47.25".to_vec()), row: Number(1) };
    assert_eq!(parsed("rights bed.map 47.25 1 51"), rights(mils, 51, None));
}

#[test]
fn drawings() {
    let draw = |out, style| Ok(Command::Draw { file: bed(), out, style });
    assert_eq!(parsed("draw bed.map -o bed.svg"), draw(to("bed.svg"), Style::Svg));
    assert_eq!(parsed("draw bed.map -o bed.html"), draw(to("bed.html"), Style::Html));
    assert_eq!(parsed("draw bed.map -o odd --html"), draw(to("odd"), Style::Html));
    assert_eq!(parsed("draw bed.map --svg -o -"), draw(Target::Standard, Style::Svg));
    let terminal = |colour, width| draw(Target::Standard, Style::Terminal { colour, width });
    assert_eq!(parsed("draw bed.map"), terminal(false, None));
    assert_eq!(parsed("draw bed.map -o - --color --width 60"), terminal(true, Some(60)));
}

fn hint(line: &str) -> String {
    let failure = parsed(line).unwrap_err();
    assert_eq!(failure.status, 2);
    failure.message.unwrap().strip_suffix("; see kbmap --help").unwrap().to_owned()
}

#[test]
fn mistakes() {
    assert_eq!(hint(""), "a command is missing");
    assert_eq!(hint("paint bed.map"), "there is no command paint");
    assert_eq!(hint("check"), "FILE is missing");
    assert_eq!(hint("check a b"), "check takes no further b");
    assert_eq!(hint("check a --plain"), "check takes no --plain here");
    assert_eq!(hint("check a -o b"), "check takes no -o here");
    assert_eq!(hint("check a --fast"), "there is no option --fast");
    assert_eq!(hint("scan a"), "-o is missing: where should the result go?");
    assert_eq!(hint("scan a -o"), "nothing follows -o");
    assert_eq!(hint("scan a -o b -o c"), "-o is there a second time");
    assert_eq!(hint("at a 1"), "ROW is missing");
    let number = format!("a whole number from 0 to {}", u32::MAX);
    let coordinate = format!("{number}, or a position in mils as 123.45");
    assert_eq!(hint("at a 1 x"), format!("ROW is {coordinate}, not x"));
    assert_eq!(hint("at a +1 2"), format!("COLUMN is {coordinate}, not +1"));
    assert_eq!(hint("at a 1,00 2.00"), format!("COLUMN is {coordinate}, not 1,00"));
    assert_eq!(hint("at a -1.00 2"), "there is no option -1.00");
    assert_eq!(hint("claim a 1,2 4294967296 3"), format!("SIZE is {number}, not 4294967296"));
    assert_eq!(hint("claim a 1,2 1.00 3"), format!("SIZE is {number}, not 1.00"));
    assert_eq!(hint("claim a 1, 2 3"), format!("ROW is {coordinate}, not "));
    assert_eq!(hint("claim a 1.00 2 3"), format!("CORNER is COLUMN,ROW or {number}, not 1.00"));
    assert_eq!(hint("release a 0 1 2"), "release takes no further 2");
    assert_eq!(hint("preview a 0 1"), "ACCOUNT is missing");
    assert_eq!(hint("preview a 0 1 2 -o b"), "preview takes no -o here");
    assert_eq!(hint("same a"), "OTHER is missing");
    assert_eq!(hint("same - -"), "FILE and OTHER cannot both be standard input");
    assert_eq!(hint("same a b c"), "same takes no further c");
    assert_eq!(hint("same a b -o c"), "same takes no -o here");
    assert_eq!(hint("inside a -o c"), "ZONES is missing");
    assert_eq!(hint("inside a b"), "-o is missing: where should the result go?");
    assert_eq!(hint("inside - - -o c"), "FILE and ZONES cannot both be standard input");
    assert_eq!(hint("outside a b c -o d"), "outside takes no further c");
    assert_eq!(hint("outside a b -o c --plain"), "outside takes no --plain here");
    assert_eq!(hint("table"), "TABLE is missing");
    assert_eq!(hint("table a b"), "table takes no further b");
    assert_eq!(hint("table a --table b"), "table takes no --table here");
    assert_eq!(hint("table 11110 11000 11000"), "-o is missing: where should the result go?");
    assert_eq!(hint("table 11110 11000 -o a"), "GUEST is missing");
    assert_eq!(hint("table 11110 11000 11000 1 -o a"), "table takes no further 1");
    let row = "is five digits, 1 for yes and 0 for no";
    assert_eq!(hint("table a -o b"), format!("STAFF {row}, not a"));
    assert_eq!(hint("table 11110 1100 11000 -o a"), format!("STUDENT {row}, not 1100"));
    assert_eq!(hint("table 11110 11000 110000 -o a"), format!("GUEST {row}, not 110000"));
    assert_eq!(hint("table 11110 11000 1100x -o a"), format!("GUEST {row}, not 1100x"));
    assert_eq!(hint("rights a 1 2"), "ACCOUNT is missing");
    assert_eq!(hint("rights a 1 2 x"), format!("ACCOUNT is {number}, not x"));
    assert_eq!(hint("rights a 1 2 3 --table"), "nothing follows --table");
    assert_eq!(hint("rights - 1 2 3 --table -"), "FILE and TABLE cannot both be standard input");
    assert_eq!(hint("rights a 1 2 3 -o b"), "rights takes no -o here");
    assert_eq!(hint("at a 1 2 --table b"), "at takes no --table here");
    assert_eq!(hint("draw a -o b.png"), "b.png ends neither in .svg nor in .html");
    assert_eq!(hint("draw a --svg --html"), "--svg and --html exclude each other");
    assert_eq!(hint("draw a -o b.svg --colour"), "draw takes no --colour here");
}

/// The help fits a terminal of 80 columns and names every command.
#[test]
fn help() {
    assert!(HELP.lines().all(|line| line.len() <= 80));
    let asking = ["check", "show", "same", "at", "preview", "rights"];
    let making = ["scan", "decode", "claim", "release", "inside", "outside", "draw", "table"];
    for command in asking.iter().chain(&making) {
        assert!(HELP.contains(&format!("  kbmap {command} ")), "{command}");
    }
}
