//! Too few slots: a feed that was stopped, what stands of it, and the same scan gone on with in more slots.
//!
//!     cargo run --example slots

use kingletbed::{Bed, Kind, Refusal, Stopped};
use std::error::Error;
use std::fmt::Write;

/// The accounts of a bed of order 2 by rising Morton number.
const SEEN: [u8; 16] = [5, 5, 5, 5, 9, 0, 9, 0, 9, 9, 0, 0, 9, 9, 9, 9];

fn main() -> Result<(), Box<dyn Error>> {
    let mut text = String::new();
    slots(&mut text)?;
    print!("{text}");
    Ok(())
}

pub fn slots(text: &mut String) -> Result<(), Box<dyn Error>> {
    // The slots are lent by borrow. While the bed lives nobody else writes them; when it has ended they are free again.
    let mut few = [0; 3];
    let mut bed = Bed::fresh(Kind::Morton, 2, &mut few)?;
    let taken = match bed.feed(&SEEN) {
        Err(Stopped { refusal: refusal @ Refusal::SlotsExceeded, taken }) => {
            writeln!(text, "stopped after {taken} pixels: {refusal}")?;
            taken
        }
        other => return Ok(other?),
    };
    writeln!(text, "standing: {:?}", bed.words())?;

    // An unfinished scan moves with all its numbers, to slots enough: its list alone does not tell how far it is.
    let (mut enough, tiles) = (bed.words().to_vec(), bed.words().len());
    enough.resize(16, 0);
    let mut more = Bed::from_scan(bed.kind(), bed.order(), bed.scanned(), tiles, enough)?;
    writeln!(text, "moved to {} slots, the same bed: {}", more.slots().len(), more == bed)?;
    more.feed(&SEEN[taken..])?;
    writeln!(text, "wholly scanned: {}, {} tiles", more.is_scanned(), more.tiles().len())?;

    // Of a finished one the list is enough: its words, to as many slots as it has tiles.
    let kept = Bed::from_slots(more.order(), more.words().len(), more.words().to_vec())?;
    writeln!(text, "kept in {} slots, the same bed: {}", kept.slots().len(), kept == more)?;
    Ok(())
}
