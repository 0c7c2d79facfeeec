//! The commands, in a file each, or together with those that are like them.

mod ask;
mod change;
mod check;
mod combine;
mod draw;
mod raster;
mod same;
mod table;

pub use ask::{at, rights, show};
pub use change::{claim, preview};
pub use check::check;
pub use combine::combine;
pub use draw::draw;
pub use raster::{decode, scan};
pub use same::same;
pub use table::{make_table, show_table};

use crate::args::{Coordinate, Place};
use crate::failure::{note, Failure};
use crate::input::Source;
use crate::lock::same_file;
use crate::map::Map;
use crate::output::{print, Target};
use crate::words::{class, visible};
use kingletbed::{mils, Account, Pixel, Refusal};
use std::path::Path;

/// What is made of a file must not take its place.
fn apart(file: &Source, out: &Target) -> Result<(), Failure> {
    let path = match file {
        Source::Standard => Path::new("/dev/stdin"),
        Source::File(path) => path,
    };
    match out {
        Target::File(to) if to.is_file() && same_file(path, to) => {
            Err(Failure::usage(format!("{} is the input itself: name another file behind -o", out.name())))
        }
        _ => Ok(()),
    }
}

/// What a position in mils is, in words.
const FORM: &str = "a position is one to five digits, a point and two digits, with no needless leading zero, as 123.45";

/// The pixel of a place on a map's bed. Numbers are taken as they are: whoever asks for the pixel checks them.
fn pixel(map: &Map, place: &Place) -> Result<Pixel, Failure> {
    let order = map.bed.order();
    let number = |what: &str, coordinate: &Coordinate| match coordinate {
        Coordinate::Number(number) => Ok(*number),
        Coordinate::Mils(text) => mils::pixel(order, text).map_err(|refusal| {
            let position = visible(&String::from_utf8_lossy(text));
            map.refused(refusal, format!("{what} {position}, on a bed of {}\n  {FORM}", map.extent()))
        }),
    };
    Ok(Pixel { column: number("COLUMN", &place.column)?, row: number("ROW", &place.row)? })
}

/// Where a pixel begins in mils, from the west and from the north edge: "47.25, 31.50".
fn begins(map: &Map, pixel: Pixel) -> Result<String, Refusal> {
    let text = |number| mils::text(map.bed.order(), number);
    Ok(format!("{}, {}", text(pixel.column)?, text(pixel.row)?))
}

/// "account 9's, student".
fn whose(account: Account) -> String {
    match account {
        Account::NOBODY => "nobody's".to_owned(),
        Account(number) => format!("account {number}'s, {}", class(account)),
    }
}

/// Tells what was done: on standard output, or on standard error if the result went there.
fn tell(out: &Target, line: &str) -> Result<(), Failure> {
    match out {
        Target::Standard => {
            note(line);
            Ok(())
        }
        Target::File(_) => print(&format!("{line}\n")),
    }
}
