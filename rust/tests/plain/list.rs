//! The calls that are handed an order or a record, a count and slots. Each gives its answer; those that write give the
//! storage too.

use super::bed::{block_in, painted, Bed};
use super::table::Table;
use super::{area, file, left, morton, Record, Tile};

/// The tiles of a list whose words have passed their checks; their corners rise.
#[derive(Default)]
pub struct Passed {
    tiles: Vec<Tile>,
}

impl Passed {
    /// Checks the next word of a list of an order: 11 to 16, or 0.
    pub fn next(&mut self, order: u32, word: u32) -> u32 {
        let tile = Tile::of_word(word);
        if word / (1 << 30) != 0 {
            return 11;
        }
        if tile.size > order {
            return 12;
        }
        if tile.corner >= area(order) || tile.corner % area(tile.size) != 0 {
            return 13;
        }
        if tile.account == 0 {
            return 14;
        }
        if self.tiles.last().is_some_and(|ahead| tile.corner < ahead.end()) {
            return 15;
        }
        let parent = tile.corner - tile.corner % area(tile.size + 1);
        let mut siblings = (0..3).map(|quarter| Tile { corner: parent + quarter * area(tile.size), ..tile });
        if tile.corner == parent + 3 * area(tile.size) && siblings.all(|sibling| self.has(sibling)) {
            return 16;
        }
        self.tiles.push(tile);
        0
    }

    fn has(&self, tile: Tile) -> bool {
        self.tiles.binary_search_by_key(&tile.corner, |seen| seen.corner).is_ok_and(|at| self.tiles[at] == tile)
    }
}

pub fn check(order: u32, tiles: usize, slots: &[u32]) -> u32 {
    if order > 10 {
        return 1;
    }
    if tiles > slots.len() {
        return 2;
    }
    let mut passed = Passed::default();
    slots[..tiles].iter().map(|&word| passed.next(order, word)).find(|&number| number != 0).unwrap_or(0)
}

/// The tiles of a list that passes its checks.
fn checked(order: u32, tiles: usize, slots: &[u32]) -> Result<Vec<Tile>, u32> {
    match check(order, tiles, slots) {
        0 => Ok(slots[..tiles].iter().map(|&word| Tile::of_word(word)).collect()),
        number => Err(number),
    }
}

pub fn fresh(kind: u32, order: u32, slots: &[u32]) -> (u32, Record, Vec<u32>) {
    let kind = kind.min(1);
    if order > 10 {
        return (1, Record { kind, order: 0, pixels: 0, tiles: 0 }, slots.to_vec());
    }
    (0, Record { kind, order, pixels: 0, tiles: 0 }, vec![0; slots.len()])
}

/// The number, the count taken, the record and the slots.
pub fn feed(record: Record, slots: &[u32], accounts: &[u8]) -> (u32, usize, Record, Vec<u32>) {
    let record = Record { kind: record.kind.min(1), ..record };
    let mut bed = match opened(record, slots) {
        Ok(bed) => bed,
        Err(number) => return (number, 0, record, slots.to_vec()),
    };
    let (number, taken) = bed.feed(slots.len(), accounts);
    let blocks = bed.blocks();
    let after = Record { pixels: bed.scanned as u32, tiles: blocks.len(), ..record };
    (number, taken, after, left(slots.len(), &blocks))
}

/// The bed of a record and its list, or the first of the checks that opens a feed and every call on a record.
fn opened(record: Record, slots: &[u32]) -> Result<Bed, u32> {
    let tiles = checked(record.order, record.tiles, slots)?;
    if u64::from(record.pixels) > area(record.order) {
        return Err(21);
    }
    let bed = Bed::upto(record.kind, record.order, record.pixels.into(), painted(record.order, &tiles));
    if bed.held_unseen() {
        return Err(22);
    }
    Ok(bed)
}

/// The opening checks alone.
pub fn open(record: Record, slots: &[u32]) -> u32 {
    opened(record, slots).err().unwrap_or(0)
}

pub fn decode(order: u32, tiles: usize, slots: &[u32], raster: &[u8]) -> (u32, Vec<u8>) {
    match checked(order, tiles, slots) {
        Err(number) => (number, raster.to_vec()),
        Ok(_) if raster.len() as u64 != area(order) => (33, raster.to_vec()),
        Ok(tiles) => (0, painted(order, &tiles)),
    }
}

/// The number and the block named, with its account: of the quadrant blocks that have the pixel the largest one whose
/// pixels all have its account and are all scanned.
pub fn lookup(record: Record, slots: &[u32], column: u32, row: u32) -> (u32, Tile) {
    let nothing = Tile { corner: 0, size: 0, account: 0 };
    let bed = match opened(record, slots) {
        Err(number) => return (number, nothing),
        Ok(bed) => bed,
    };
    let (side, column, row) = (bed.side(), column as usize, row as usize);
    if column >= side || row >= side {
        return (31, nothing);
    }
    if !bed.seen[row * side + column] {
        return (52, nothing);
    }
    let account = bed.accounts[row * side + column];
    for size in (0..=record.order).rev() {
        let wide = 2usize.pow(size);
        let (west, north) = (column - column % wide, row - row % wide);
        let alike = |from: usize| {
            bed.accounts[from..from + wide].iter().all(|&other| other == account)
                && bed.seen[from..from + wide].iter().all(|&seen| seen)
        };
        if (north..north + wide).all(|row| alike(row * side + west)) {
            return (0, Tile { corner: morton(west, north), size, account });
        }
    }
    panic!("the pixel itself is scanned and of one account");
}

/// The number, the position and the length.
pub fn part(order: u32, tiles: usize, slots: &[u32], corner: u32, size: u32) -> (u32, usize, usize) {
    let tiles = match checked(order, tiles, slots) {
        Err(number) => return (number, 0, 0),
        Ok(tiles) => tiles,
    };
    if !block_in(order, corner, size) {
        return (32, 0, 0);
    }
    let corner = u64::from(corner);
    let inside = |tile: &Tile| tile.corner >= corner && tile.end() <= corner + area(size);
    let position = tiles.iter().filter(|tile| tile.corner < corner).count();
    let length = tiles.iter().filter(|tile| inside(tile)).count();
    assert!(tiles[position..position + length].iter().all(inside), "the tiles inside stand together");
    (0, position, length)
}

/// What a block shows: the tiles that a bed of the block alone would have, and by rising Morton number the accounts of
/// its pixels and whether they are scanned.
#[derive(Default)]
pub struct Shown {
    pub tiles: Vec<Tile>,
    pub accounts: Vec<u8>,
    pub seen: Vec<bool>,
}

/// The number and what the block shows.
pub fn shown(record: Record, slots: &[u32], corner: u32, size: u32) -> (u32, Shown) {
    let bed = match opened(record, slots) {
        Err(number) => return (number, Shown::default()),
        Ok(bed) => bed,
    };
    if !block_in(record.order, corner, size) {
        return (32, Shown::default());
    }
    let corner = u64::from(corner);
    let pixels: Vec<usize> = (corner..corner + area(size)).map(|morton| bed.index_of_morton(morton)).collect();
    let accounts = pixels.iter().map(|&at| bed.accounts[at]).collect();
    let seen = pixels.iter().map(|&at| bed.seen[at]).collect();
    (0, Shown { tiles: bed.blocks_of(corner, size), accounts, seen })
}

/// Rights by the table that counts where these bytes are handed in.
pub fn rights(table: &[u8], record: Record, slots: &[u32], column: u32, row: u32, asking: u8) -> (u32, bool) {
    let (number, Tile { account: holder, .. }) = lookup(record, slots, column, row);
    if number != 0 {
        return (number, false);
    }
    if asking == 0 || asking > 63 {
        return (34, false);
    }
    (0, Table::in_force(table).may(asking, holder))
}

/// The number, the tile count and the slots.
pub fn claim(record: Record, slots: &[u32], corner: u32, size: u32, account: u8) -> (u32, usize, Vec<u32>) {
    let mut bed = match opened(record, slots) {
        Err(number) => return (number, 0, slots.to_vec()),
        Ok(bed) => bed,
    };
    match bed.claim(slots.len(), corner, size, account) {
        0 => {
            let blocks = bed.blocks();
            (0, blocks.len(), left(slots.len(), &blocks))
        }
        number => (number, 0, slots.to_vec()),
    }
}

/// The number and the tile count: those of the claim on a copy.
pub fn preview(record: Record, slots: &[u32], corner: u32, size: u32, account: u8) -> (u32, usize) {
    let (number, count, _) = claim(record, slots, corner, size, account);
    (number, count)
}

/// An order, a tile count and slots.
pub type Map<'a> = (u32, usize, &'a [u32]);

/// The number, the third map's tile count and its slots. What is not scanned is nobody's on both maps.
pub fn combine(choice: u32, first: Map, second: Map, out: &[u32]) -> (u32, usize, Vec<u32>) {
    let bed = |(order, tiles, slots): Map| Ok(Bed::whole(order, painted(order, &checked(order, tiles, slots)?)));
    let third = bed(first).and_then(|first| first.combine(out.len(), choice, &bed(second)?));
    match third {
        Err(number) => (number, 0, out.to_vec()),
        Ok(third) => {
            let blocks = third.blocks();
            (0, blocks.len(), left(out.len(), &blocks))
        }
    }
}

/// The number, the length and the bytes.
pub fn write(record: Record, slots: &[u32], bytes: &[u8]) -> (u32, usize, Vec<u8>) {
    let bed = match opened(record, slots) {
        Err(number) => return (number, 0, bytes.to_vec()),
        Ok(bed) => bed,
    };
    if !bed.seen.iter().all(|&seen| seen) {
        return (52, 0, bytes.to_vec());
    }
    let file = file::write(record.order, &bed.blocks());
    if bytes.len() < file.len() {
        return (26, 0, bytes.to_vec());
    }
    let mut after = bytes.to_vec();
    after[..file.len()].copy_from_slice(&file);
    (0, file.len(), after)
}

/// The number, the order, the tile count and the slots.
pub fn read(bytes: &[u8], slots: &[u32]) -> (u32, u32, usize, Vec<u32>) {
    match file::read(bytes, slots.len()) {
        Err(number) => (number, 0, 0, slots.to_vec()),
        Ok((order, tiles)) => (0, order, tiles.len(), left(slots.len(), &tiles)),
    }
}
