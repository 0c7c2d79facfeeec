//! A panel that draws a bed one block of 2 by 2 pixels at a time, and the trap in it: a block under a larger tile has
//! no tile inside, so that a panel which draws the block's part shows held ground as free. One lookup tells whether a
//! block has one account; where it has not, its part has its tiles. `Bed::shown` gives the same as tiles. The bed is
//! wholly scanned: on a scan that goes on, a block that is not (`Bed::is_block_scanned`) needs a mark of its own.
//!
//!     cargo run --example panel

use kingletbed::{Account, Bed, Block, Kind, Pixel, Refusal, Tile};
use std::error::Error;
use std::fmt::Write;

/// The accounts of a bed of order 3.
const SEEN: [u8; 64] = [
    9, 9, 9, 9, 0, 0, 4, 4, //
    9, 9, 9, 9, 0, 0, 4, 4, //
    9, 9, 9, 9, 0, 7, 0, 0, //
    9, 9, 9, 9, 7, 7, 0, 0, //
    0, 0, 0, 0, 2, 2, 2, 2, //
    0, 5, 5, 0, 2, 2, 2, 2, //
    0, 5, 5, 0, 2, 2, 2, 2, //
    0, 0, 0, 0, 2, 2, 2, 2, //
];

fn main() -> Result<(), Box<dyn Error>> {
    let mut text = String::new();
    panel(&mut text)?;
    print!("{text}");
    Ok(())
}

pub fn panel(text: &mut String) -> Result<(), Box<dyn Error>> {
    let mut bed = Bed::fresh(Kind::Rows, 3, vec![0; 64])?;
    bed.feed(&SEEN)?;
    let (mut wrong, mut right) = (Canvas::of(&bed), Canvas::of(&bed));
    for (column, row) in (0..4).flat_map(|row| (0..4).map(move |column| (2 * column, 2 * row))) {
        let block = Block::around(bed.order(), Pixel { column, row }, 1)?;
        let inside = bed.part(block)?.iter().map(|&word| Tile::of_word(word));
        for tile in inside.clone() {
            wrong.paint(tile.block(), tile.account())?;
        }
        if let Some(account) = bed.account_of(block)? {
            right.paint(block, account)?;
        } else {
            for tile in inside {
                right.paint(tile.block(), tile.account())?;
            }
        }
    }
    writeln!(text, "by parts    by lookups")?;
    for (wrong, right) in wrong.lines().zip(right.lines()) {
        writeln!(text, "{wrong}    {right}")?;
    }
    Ok(())
}

/// A digit for each pixel, a point where it is nobody's.
struct Canvas {
    side: usize,
    pixels: Vec<char>,
}

impl Canvas {
    fn of<S: AsRef<[u32]>>(bed: &Bed<S>) -> Canvas {
        Canvas { side: bed.side() as usize, pixels: vec!['.'; bed.pixels() as usize] }
    }

    fn paint(&mut self, block: Block, account: Account) -> Result<(), Refusal> {
        let (at, side) = (block.pixel()?, block.side()? as usize);
        let digit = if account == Account::NOBODY { '.' } else { char::from(b'0' + account.0) };
        for row in self.pixels.chunks_mut(self.side).skip(at.row as usize).take(side) {
            row[at.column as usize..][..side].fill(digit);
        }
        Ok(())
    }

    fn lines(&self) -> impl Iterator<Item = String> + '_ {
        self.pixels.chunks(self.side).map(|row| row.iter().collect())
    }
}
