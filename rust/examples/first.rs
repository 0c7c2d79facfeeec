//! A first program. It prints: 3 tiles, account 7 at (1, 0)

use kingletbed::{Bed, Kind, Pixel};

fn main() -> Result<(), Box<dyn std::error::Error>> {
    let mut bed = Bed::fresh(Kind::Rows, 1, [0; 16])?;
    bed.feed(&[7, 7, 0, 7])?;
    println!("{} tiles, {} at (1, 0)", bed.tiles().len(), bed.lookup(Pixel { column: 1, row: 0 })?.account);
    Ok(())
}
