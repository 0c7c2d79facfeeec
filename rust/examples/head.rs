//! A head that goes over a bed row after row, to and fro, and asks whose ground is under it only where it leaves the
//! block that the last lookup named. It goes once while the camera is half through, and again when that is done: where
//! the camera has not been, the lookup is refused. Such ground is not free, and the head must not place there.
//!
//!     cargo run --example head

use kingletbed::{Bed, Found, Kind, Pixel, Refusal};
use std::error::Error;
use std::fmt::Write;

/// The accounts of a bed of order 3.
const SEEN: [u8; 64] = [
    9, 9, 9, 9, 0, 0, 4, 4, //
    9, 9, 9, 9, 0, 0, 4, 4, //
    9, 9, 9, 9, 0, 7, 0, 0, //
    9, 9, 9, 9, 7, 7, 0, 0, //
    0, 0, 0, 0, 2, 2, 2, 2, //
    0, 5, 5, 0, 2, 2, 2, 2, //
    0, 5, 5, 0, 2, 2, 2, 2, //
    0, 0, 0, 0, 2, 2, 2, 2, //
];

fn main() -> Result<(), Box<dyn Error>> {
    let mut text = String::new();
    head(&mut text)?;
    print!("{text}");
    Ok(())
}

pub fn head(text: &mut String) -> Result<(), Box<dyn Error>> {
    let mut bed = Bed::fresh(Kind::Rows, 3, [0; 64])?;
    let (first, rest) = SEEN.split_at(36);
    bed.feed(first)?;
    go(&bed, text)?;
    bed.feed(rest)?;
    writeln!(text)?;
    go(&bed, text)
}

/// One way over the bed, as far as it is scanned.
fn go<S: AsRef<[u32]>>(bed: &Bed<S>, text: &mut String) -> Result<(), Box<dyn Error>> {
    let mut known: Option<Found> = None;
    let (mut asked, mut refused) = (0, 0);
    writeln!(text, "{} of {} pixels scanned\nwhose    asked", bed.scanned(), bed.pixels())?;
    for row in 0..bed.side() {
        let (mut whose, mut marks) = (['-'; 8], ['.'; 8]);
        for step in 0..bed.side() {
            let column = if row % 2 == 0 { step } else { bed.side() - 1 - step };
            let at = Pixel { column, row };
            if !known.is_some_and(|found| found.block.has(at)) {
                asked += 1;
                marks[column as usize] = '?';
                known = match bed.lookup(at) {
                    Err(Refusal::Unscanned) => None,
                    found => Some(found?),
                };
                refused += u32::from(known.is_none());
            }
            if let Some(found) = known {
                whose[column as usize] = char::from(b'0' + found.account.0);
            }
        }
        writeln!(text, "{} {}", String::from_iter(whose), String::from_iter(marks))?;
    }
    writeln!(text, "{asked} lookups for {} pixels", bed.pixels())?;
    if refused > 0 {
        writeln!(text, "{refused} of them refused: {}", Refusal::Unscanned)?;
    }
    Ok(())
}
