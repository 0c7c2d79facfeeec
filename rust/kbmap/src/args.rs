//! The command line.

use crate::failure::Failure;
use crate::input::Source;
use crate::output::Target;
use kingletbed::{Choice, Table};
use std::ffi::OsString;
use std::fmt::Display;

/// What `--help` says.
pub const HELP: &str = include_str!("help.txt");

/// What is to be done.
#[derive(Debug, PartialEq, Eq)]
pub enum Command {
    Help,
    Version,
    Check { file: Source },
    Show { file: Source },
    Same { file: Source, other: Source },
    At { file: Source, place: Place },
    Rights { file: Source, place: Place, account: u32, table: Option<Source> },
    Table { file: Source },
    MakeTable { bytes: [u8; Table::LENGTH], out: Target },
    Scan { image: Source, out: Target },
    Decode { file: Source, out: Target, plain: bool },
    Claim { file: Source, out: Option<Target>, claim: Claim<Place> },
    Preview { file: Source, claim: Claim<Place> },
    Combine { choice: Choice, file: Source, zones: Source, out: Target },
    Draw { file: Source, out: Target, style: Style },
}

/// A column or a row: its number, or a position in mils, as it was given. The library says what that is.
#[derive(Debug, PartialEq, Eq)]
pub enum Coordinate {
    Number(u32),
    Mils(Vec<u8>),
}

/// A pixel as it was named. Which one a position in mils lies in, and whether in any, depends on the bed.
#[derive(Debug, PartialEq, Eq)]
pub struct Place {
    pub column: Coordinate,
    pub row: Coordinate,
}

/// A block to give away: by its corner or a pixel in it, and its size. Without an account it is released.
#[derive(Debug, PartialEq, Eq)]
pub struct Claim<P> {
    pub corner: Corner<P>,
    pub size: u32,
    pub account: Option<u32>,
}

/// A block's corner as a Morton number, or any pixel of the block.
#[derive(Debug, PartialEq, Eq)]
pub enum Corner<P> {
    Morton(u32),
    In(P),
}

/// How to draw.
#[derive(Debug, PartialEq, Eq)]
pub enum Style {
    Svg,
    Html,
    Terminal { colour: bool, width: Option<usize> },
}

/// The command of these arguments, those behind the program's name.
pub fn parse(args: impl IntoIterator<Item = OsString>) -> Result<Command, Failure> {
    let mut line = Line::of(args)?;
    if line.flag("--help") {
        return Ok(Command::Help);
    }
    if line.flag("--version") {
        return Ok(Command::Version);
    }
    let Some(name) = line.next() else { return Err(Failure::usage("a command is missing")) };
    let command = match name.to_str() {
        Some("help") => Command::Help,
        Some("check") => Command::Check { file: line.source("FILE")? },
        Some("show") => Command::Show { file: line.source("FILE")? },
        Some("same") => line.same()?,
        Some("at") => Command::At { file: line.source("FILE")?, place: line.place()? },
        Some("rights") => line.rights()?,
        Some("table") => line.table()?,
        Some("scan") => Command::Scan { image: line.source("IMAGE")?, out: line.target()? },
        Some("decode") => {
            Command::Decode { file: line.source("FILE")?, out: line.target()?, plain: line.flag("--plain") }
        }
        Some("preview") => Command::Preview { file: line.source("FILE")?, claim: line.block(true)? },
        Some("claim") => line.claim(true)?,
        Some("release") => line.claim(false)?,
        Some("inside") => line.combine(Choice::Inside)?,
        Some("outside") => line.combine(Choice::Outside)?,
        Some("draw") => line.draw()?,
        _ => return Err(Failure::usage(format!("there is no command {}", name.to_string_lossy()))),
    };
    line.end(&name.to_string_lossy())?;
    Ok(command)
}

/// The options that are flags, and those that another argument belongs to.
const FLAGS: [&str; 6] = ["--help", "--version", "--plain", "--svg", "--html", "--colour"];
const VALUED: [&str; 3] = ["-o", "--table", "--width"];

/// The arguments not looked at yet.
struct Line {
    words: std::vec::IntoIter<OsString>,
    flags: Vec<&'static str>,
    values: Vec<(&'static str, OsString)>,
}

impl Line {
    fn of(args: impl IntoIterator<Item = OsString>) -> Result<Line, Failure> {
        let (mut words, mut flags, mut values) = (Vec::new(), Vec::new(), Vec::new());
        let mut args = args.into_iter();
        while let Some(arg) = args.next() {
            let text = match arg.to_str() {
                Some("--") => {
                    words.extend(args);
                    break;
                }
                Some("-h") => "--help",
                Some("-V") => "--version",
                Some("--color") => "--colour",
                Some("--output") => "-o",
                Some(text) if text.len() > 1 && text.starts_with('-') => text,
                _ => {
                    words.push(arg);
                    continue;
                }
            };
            if let Some(flag) = FLAGS.into_iter().find(|&flag| flag == text) {
                flags.push(flag);
            } else if let Some(option) = VALUED.into_iter().find(|&option| option == text) {
                let value = args.next().ok_or_else(|| Failure::usage(format!("nothing follows {option}")))?;
                if values.iter().any(|&(earlier, _)| earlier == option) {
                    return Err(Failure::usage(format!("{option} is there a second time")));
                }
                values.push((option, value));
            } else {
                return Err(Failure::usage(format!("there is no option {text}")));
            }
        }
        Ok(Line { words: words.into_iter(), flags, values })
    }

    fn next(&mut self) -> Option<OsString> {
        self.words.next()
    }

    fn word(&mut self, what: &str) -> Result<OsString, Failure> {
        self.next().ok_or_else(|| Failure::usage(format!("{what} is missing")))
    }

    fn flag(&mut self, name: &str) -> bool {
        let before = self.flags.len();
        self.flags.retain(|&flag| flag != name);
        self.flags.len() < before
    }

    fn value(&mut self, name: &str) -> Option<OsString> {
        let at = self.values.iter().position(|&(option, _)| option == name)?;
        Some(self.values.remove(at).1)
    }

    fn source(&mut self, what: &str) -> Result<Source, Failure> {
        self.word(what).map(Source::of)
    }

    fn target(&mut self) -> Result<Target, Failure> {
        let missing = || Failure::usage("-o is missing: where should the result go?");
        self.value("-o").map(Target::of).ok_or_else(missing)
    }

    fn number(&mut self, what: &str) -> Result<u32, Failure> {
        number(what, WHOLE, self.word(what)?.as_encoded_bytes())
    }

    fn coordinate(&mut self, what: &str) -> Result<Coordinate, Failure> {
        coordinate(what, self.word(what)?.as_encoded_bytes())
    }

    fn place(&mut self) -> Result<Place, Failure> {
        Ok(Place { column: self.coordinate("COLUMN")?, row: self.coordinate("ROW")? })
    }

    /// Two inputs, of which one at most can be standard input.
    fn sources(&mut self, what: &str, other: &str) -> Result<(Source, Source), Failure> {
        let pair = (self.source(what)?, self.source(other)?);
        match pair {
            (Source::Standard, Source::Standard) => {
                Err(Failure::usage(format!("{what} and {other} cannot both be standard input")))
            }
            _ => Ok(pair),
        }
    }

    fn same(&mut self) -> Result<Command, Failure> {
        let (file, other) = self.sources("FILE", "OTHER")?;
        Ok(Command::Same { file, other })
    }

    fn rights(&mut self) -> Result<Command, Failure> {
        let (file, place, account) = (self.source("FILE")?, self.place()?, self.number("ACCOUNT")?);
        let table = self.value("--table").map(Source::of);
        if (&file, &table) == (&Source::Standard, &Some(Source::Standard)) {
            return Err(Failure::usage("FILE and TABLE cannot both be standard input"));
        }
        Ok(Command::Rights { file, place, account, table })
    }

    /// One is made of three words, and goes somewhere.
    fn table(&mut self) -> Result<Command, Failure> {
        let makes = self.words.len() == 3 || self.values.iter().any(|&(option, _)| option == "-o");
        if !makes {
            return Ok(Command::Table { file: self.source("TABLE")? });
        }
        let mut bytes = [0; Table::LENGTH];
        for (what, row) in ["STAFF", "STUDENT", "GUEST"].into_iter().zip(bytes.chunks_mut(Table::LENGTH / 3)) {
            self.row(what, row)?;
        }
        Ok(Command::MakeTable { bytes, out: self.target()? })
    }

    /// A row of a table in digits. The library says which digits it takes.
    fn row(&mut self, what: &str, row: &mut [u8]) -> Result<(), Failure> {
        let word = self.word(what)?;
        let digits = word.as_encoded_bytes();
        if digits.len() != row.len() || !digits.iter().all(u8::is_ascii_digit) {
            let text = word.to_string_lossy();
            return Err(Failure::usage(format!("{what} is five digits, 1 for yes and 0 for no, not {text}")));
        }
        row.iter_mut().zip(digits).for_each(|(byte, digit)| *byte = digit - b'0');
        Ok(())
    }

    fn claim(&mut self, account: bool) -> Result<Command, Failure> {
        let (file, claim) = (self.source("FILE")?, self.block(account)?);
        Ok(Command::Claim { file, out: self.value("-o").map(Target::of), claim })
    }

    fn block(&mut self, account: bool) -> Result<Claim<Place>, Failure> {
        let corner = corner(self.word("CORNER")?.as_encoded_bytes())?;
        let size = self.number("SIZE")?;
        let account = if account { Some(self.number("ACCOUNT")?) } else { None };
        Ok(Claim { corner, size, account })
    }

    fn combine(&mut self, choice: Choice) -> Result<Command, Failure> {
        let (file, zones) = self.sources("FILE", "ZONES")?;
        Ok(Command::Combine { choice, file, zones, out: self.target()? })
    }

    fn draw(&mut self) -> Result<Command, Failure> {
        let file = self.source("FILE")?;
        let out = self.value("-o").map_or(Target::Standard, Target::of);
        let style = match (self.flag("--svg"), self.flag("--html"), ending(&out)) {
            (true, true, _) => return Err(Failure::usage("--svg and --html exclude each other")),
            (true, false, _) => Style::Svg,
            (false, true, _) => Style::Html,
            (false, false, Some("svg")) => Style::Svg,
            (false, false, Some("html" | "htm")) => Style::Html,
            _ if out == Target::Standard => Style::Terminal { colour: self.flag("--colour"), width: self.width()? },
            _ => return Err(Failure::usage(format!("{} ends neither in .svg nor in .html", out.name()))),
        };
        Ok(Command::Draw { file, out, style })
    }

    fn width(&mut self) -> Result<Option<usize>, Failure> {
        match self.value("--width") {
            Some(word) => Ok(usize::try_from(number("--width", WHOLE, word.as_encoded_bytes())?).ok()),
            None => Ok(None),
        }
    }

    /// Nothing may be left over.
    fn end(mut self, command: &str) -> Result<(), Failure> {
        let option = self.flags.first().copied().or(self.values.first().map(|&(option, _)| option));
        match (self.next(), option) {
            (Some(word), _) => Err(Failure::usage(format!("{command} takes no further {}", word.to_string_lossy()))),
            (None, Some(option)) => Err(Failure::usage(format!("{command} takes no {option} here"))),
            (None, None) => Ok(()),
        }
    }
}

/// What a number is, in words.
const WHOLE: &str = "a whole number from 0 to 4294967295";

/// The number that a word is, or, if it is none, what the word should be.
fn number(what: &str, should: impl Display, word: &[u8]) -> Result<u32, Failure> {
    let text = String::from_utf8_lossy(word);
    let digits = !word.is_empty() && word.iter().all(u8::is_ascii_digit);
    let number = if digits { text.parse().ok() } else { None };
    number.ok_or_else(|| Failure::usage(format!("{what} is {should}, not {text}")))
}

/// What has a point in it is meant as a position in mils.
fn coordinate(what: &str, word: &[u8]) -> Result<Coordinate, Failure> {
    if word.contains(&b'.') {
        return Ok(Coordinate::Mils(word.to_vec()));
    }
    number(what, format_args!("{WHOLE}, or a position in mils as 123.45"), word).map(Coordinate::Number)
}

fn corner(word: &[u8]) -> Result<Corner<Place>, Failure> {
    let mut parts = word.splitn(2, |&byte| byte == b',');
    match (parts.next(), parts.next()) {
        (Some(column), Some(row)) => {
            Ok(Corner::In(Place { column: coordinate("COLUMN", column)?, row: coordinate("ROW", row)? }))
        }
        _ => number("CORNER", format_args!("COLUMN,ROW or {WHOLE}"), word).map(Corner::Morton),
    }
}

/// The ending of a file's name.
fn ending(out: &Target) -> Option<&str> {
    match out {
        Target::Standard => None,
        Target::File(path) => path.extension()?.to_str(),
    }
}

#[cfg(test)]
mod tests;
