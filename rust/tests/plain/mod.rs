//! Another implementation of every call, from the scope paper's plain bed: for each pixel an account and whether it is
//! scanned, and lists made from it anew. No cleverness, and nothing shared with the library or its wrapper.

pub mod bed;
pub mod file;
pub mod list;
pub mod mils;
pub mod points;
pub mod table;
pub mod tally;

/// 4^n, wide enough for every size that a word can hold.
pub fn area(n: u32) -> u64 {
    4u64.pow(n)
}

/// The column and the row of a Morton number, bit by bit from the lowest.
pub fn pixel(mut morton: u64) -> (usize, usize) {
    let (mut column, mut row, mut weight) = (0, 0, 1);
    while morton > 0 {
        column += weight * (morton % 2) as usize;
        row += weight * (morton / 2 % 2) as usize;
        morton /= 4;
        weight *= 2;
    }
    (column, row)
}

/// The Morton number of a column and a row.
pub fn morton(mut column: usize, mut row: usize) -> u64 {
    let (mut morton, mut weight) = (0, 1);
    while column + row > 0 {
        morton += weight * (column % 2 + 2 * (row % 2)) as u64;
        column /= 2;
        row /= 2;
        weight *= 4;
    }
    morton
}

/// A tile: corner, size, account.
#[derive(Clone, Copy, Debug, PartialEq, Eq, Hash)]
pub struct Tile {
    pub corner: u64,
    pub size: u32,
    pub account: u8,
}

impl Tile {
    pub fn word(self) -> u32 {
        (self.corner * 1024 + u64::from(self.size) * 64 + u64::from(self.account)) as u32
    }

    /// Everything above bit 9 is the corner.
    pub fn of_word(word: u32) -> Tile {
        Tile { corner: u64::from(word / 1024), size: word / 64 % 16, account: (word % 64) as u8 }
    }

    pub fn end(self) -> u64 {
        self.corner + area(self.size)
    }
}

/// A scan record. Kind 0 is by rows, any other Morton order.
#[derive(Clone, Copy, Debug, PartialEq, Eq)]
pub struct Record {
    pub kind: u32,
    pub order: u32,
    pub pixels: u32,
    pub tiles: usize,
}

impl Record {
    /// The record of a map that was read: by rows, with every pixel scanned.
    pub fn whole(order: u32, tiles: usize) -> Record {
        Record { kind: 0, order, pixels: area(order.min(10)) as u32, tiles }
    }
}

/// The words of a list, then 0 up to m slots.
pub fn left(m: usize, tiles: &[Tile]) -> Vec<u32> {
    let mut slots: Vec<u32> = tiles.iter().map(|tile| tile.word()).collect();
    assert!(slots.len() <= m);
    slots.resize(m, 0);
    slots
}
