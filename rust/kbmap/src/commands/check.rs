//! `check`: is it a map file, and if not, what is wrong and where?

use crate::failure::{verdict, Failure};
use crate::input::Source;
use crate::locate::locate;
use crate::map;
use crate::output::print;
use crate::words::{count, square};

pub fn check(file: &Source) -> Result<(), Failure> {
    let bytes = file.read()?;
    match map::read(&bytes) {
        Ok(bed) => {
            let (order, square) = (bed.order(), square(bed.side()));
            let (tiles, length) = (count(bed.words().len(), "tile"), count(bytes.len(), "byte"));
            print(&format!("{}: a map of order {order}, {square}, {tiles}, {length}\n", file.name()))
        }
        Err(refusal) => {
            print(&format!("{}\n", verdict(file.name(), refusal, &locate(&bytes, refusal))))?;
            Err(Failure::told())
        }
    }
}
