//! The map file, item by item.

use super::bed::painted;
use super::list::Passed;
use super::Tile;

/// The accounts of the pixels, each with its number of pixels, by rising account.
fn roster(order: u32, tiles: &[Tile]) -> Vec<(u8, u32)> {
    let accounts = painted(order, tiles);
    let mut totals = [0u32; 64];
    for account in accounts {
        totals[usize::from(account)] += 1;
    }
    (1..64)
        .filter(|&account| totals[usize::from(account)] > 0)
        .map(|account| (account, totals[usize::from(account)]))
        .collect()
}

/// The file of a list.
pub fn write(order: u32, tiles: &[Tile]) -> Vec<u8> {
    let mut bytes = vec![order as u8];
    bytes.extend((tiles.len() as u32).to_be_bytes());
    for tile in tiles {
        bytes.extend(tile.word().to_be_bytes());
    }
    let roster = roster(order, tiles);
    bytes.push(roster.len() as u8);
    for (account, pixels) in roster {
        bytes.push(account);
        bytes.extend(pixels.to_be_bytes());
    }
    bytes
}

/// What is left of the bytes.
struct Items<'a> {
    bytes: std::slice::Iter<'a, u8>,
}

impl Items<'_> {
    /// The next byte, or 41.
    fn byte(&mut self) -> Result<u8, u32> {
        self.bytes.next().copied().ok_or(41)
    }

    fn word(&mut self) -> Result<u32, u32> {
        let mut word = 0;
        for _ in 0..4 {
            word = word * 256 + u32::from(self.byte()?);
        }
        Ok(word)
    }
}

/// The order and the tiles of a file, with m slots, or the number of the first check that it breaks.
pub fn read(bytes: &[u8], m: usize) -> Result<(u32, Vec<Tile>), u32> {
    let mut items = Items { bytes: bytes.iter() };
    let order = u32::from(items.byte()?);
    if order > 10 {
        return Err(1);
    }
    let count = items.word()?;
    if count as usize > m {
        return Err(25);
    }
    let mut passed = Passed::default();
    let mut tiles = Vec::new();
    for _ in 0..count {
        let word = items.word()?;
        match passed.next(order, word) {
            0 => tiles.push(Tile::of_word(word)),
            number => return Err(number),
        }
    }
    let mut entries: Vec<(u8, u32)> = Vec::new();
    for _ in 0..items.byte()? {
        let entry = (items.byte()?, items.word()?);
        if let Some(ahead) = entries.last() {
            if entry.0 <= ahead.0 {
                return Err(54);
            }
        }
        entries.push(entry);
    }
    if items.bytes.next().is_some() {
        return Err(42);
    }
    if entries != roster(order, &tiles) {
        return Err(43);
    }
    Ok((order, tiles))
}
