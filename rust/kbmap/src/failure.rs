//! How a command fails: the exit status, and what is said on standard error.

use crate::words::visible;
use kingletbed::Refusal;
use std::fmt::Display;
use std::io::{self, Write};

/// The file or picture, or what was asked of it, is refused; or two maps differ.
const REFUSED: u8 = 1;
/// The command line is wrong, or something could not be read or written.
const TROUBLE: u8 = 2;

/// A failed command. Without a message everything is said already, or nobody is left to hear it.
#[derive(Debug, PartialEq, Eq)]
pub struct Failure {
    pub status: u8,
    pub message: Option<String>,
}

impl Failure {
    /// The command line cannot be understood.
    pub fn usage(message: impl Display) -> Failure {
        let message = visible(&message.to_string());
        Failure { status: TROUBLE, message: Some(format!("{message}; see kbmap --help")) }
    }

    /// Something could not be read or written. A pipe that the reader has closed is no news to anybody.
    pub fn trouble(name: impl Display, error: &io::Error) -> Failure {
        let message = (error.kind() != io::ErrorKind::BrokenPipe).then(|| format!("{name}: {}", plain_words(error)));
        Failure { status: TROUBLE, message }
    }

    /// What was handed over is refused, for a reason that has no number.
    pub fn refused(name: impl Display, reason: impl Display) -> Failure {
        Failure { status: REFUSED, message: Some(format!("{name}: {reason}")) }
    }

    /// The library refused: number, name and sentence, and where the trouble stands if that can be told.
    pub fn refusal(name: impl Display, refusal: Refusal, details: &[String]) -> Failure {
        Failure { status: REFUSED, message: Some(verdict(name, refusal, details)) }
    }

    /// A refusal, or a difference, that the command has told already.
    pub fn told() -> Failure {
        Failure { status: REFUSED, message: None }
    }

    /// Says the message on standard error, if there is one.
    pub fn tell(&self) {
        if let Some(message) = &self.message {
            note(format_args!("kbmap: {message}"));
        }
    }
}

/// A refusal for people to read: one short line, and below it, indented, the details.
pub fn verdict(name: impl Display, refusal: Refusal, details: &[String]) -> String {
    let mut text = format!("{name}: refused, {} {}: {refusal}", refusal.number(), refusal.name());
    for detail in details {
        text.push_str("\n  ");
        text.push_str(detail);
    }
    text
}

/// A line on standard error; if that is closed or full, there is nowhere left to say so.
pub fn note(line: impl Display) {
    let _ = writeln!(io::stderr(), "{line}");
}

/// The system's words for an error, without its number.
fn plain_words(error: &io::Error) -> String {
    let text = error.to_string();
    match text.split_once(" (os error") {
        Some((words, _)) => words.to_owned(),
        None => text,
    }
}

#[cfg(test)]
mod tests {
    use super::*;

    #[test]
    fn verdicts() {
        let details = ["here".to_owned(), "there".to_owned()];
        let text = "bed.map: refused, 42 TRAILING_BYTES: bytes follow the end of the file's roster\n  here\n  there";
        assert_eq!(verdict("bed.map", Refusal::TrailingBytes, &details), text);
    }

    #[test]
    fn system_words() {
        let full = Failure::trouble("x", &io::Error::from_raw_os_error(28));
        assert_eq!(full, Failure { status: 2, message: Some("x: No space left on device".to_owned()) });
        let closed = Failure::trouble("x", &io::Error::from(io::ErrorKind::BrokenPipe));
        assert_eq!(closed, Failure { status: 2, message: None });
    }
}
