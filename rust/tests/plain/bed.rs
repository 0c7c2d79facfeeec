//! The plain bed: order, kind, pixels scanned, and for each pixel an account and whether it is scanned. It is never
//! handed a record or slots.

use super::tally::Tally;
use super::{area, file, pixel, Tile};

#[derive(Clone, Debug, PartialEq, Eq)]
pub struct Bed {
    pub order: u32,
    pub kind: u32,
    /// The places that the scan has been at.
    pub scanned: u64,
    /// Row after row, and so is `seen`: whether the scan has been at the pixel.
    pub accounts: Vec<u8>,
    pub seen: Vec<bool>,
}

impl Bed {
    /// A fresh bed; 1 refuses.
    pub fn fresh(kind: u32, order: u32) -> Result<Bed, u32> {
        if order > 10 {
            return Err(1);
        }
        Ok(Bed::upto(kind, order, 0, vec![0; area(order) as usize]))
    }

    /// A bed with its accounts, whose scan has been at so many places: it walks from the first of them on. Where it has
    /// been at all of them, every pixel is seen.
    pub fn upto(kind: u32, order: u32, scanned: u64, accounts: Vec<u8>) -> Bed {
        if scanned == area(order) {
            return Bed { order, kind, scanned, seen: vec![true; accounts.len()], accounts };
        }
        let seen = vec![false; accounts.len()];
        let mut bed = Bed { order, kind, scanned: 0, accounts, seen };
        (0..scanned).for_each(|_| bed.step());
        bed
    }

    /// A bed with its accounts, by rows and wholly scanned.
    pub fn whole(order: u32, accounts: Vec<u8>) -> Bed {
        Bed::upto(0, order, area(order), accounts)
    }

    /// The scan is at its next place.
    fn step(&mut self) {
        let at = self.index_of_place(self.scanned);
        self.seen[at] = true;
        self.scanned += 1;
    }

    /// Whether a pixel that is not scanned has an account.
    pub fn held_unseen(&self) -> bool {
        let mut pixels = self.accounts.iter().zip(&self.seen);
        self.scanned < area(self.order) && pixels.any(|(&account, &seen)| account != 0 && !seen)
    }

    pub fn side(&self) -> usize {
        2usize.pow(self.order)
    }

    /// Where in `accounts` the place of the scan lies.
    pub fn index_of_place(&self, place: u64) -> usize {
        if self.kind == 0 {
            return place as usize;
        }
        self.index_of_morton(place)
    }

    pub fn index_of_morton(&self, morton: u64) -> usize {
        let (column, row) = pixel(morton);
        row * self.side() + column
    }

    /// Where the pixels of a block lie.
    fn pixels_in(&self, corner: u64, size: u32) -> impl Iterator<Item = usize> {
        let (start, side, wide) = (self.index_of_morton(corner), self.side(), 2usize.pow(size));
        (0..wide).flat_map(move |row| (0..wide).map(move |column| start + row * side + column))
    }

    /// The largest uniform blocks of non-zero accounts, by rising corner.
    pub fn blocks(&self) -> Vec<Tile> {
        self.blocks_of(0, self.order)
    }

    /// The same of one block alone.
    pub fn blocks_of(&self, corner: u64, size: u32) -> Vec<Tile> {
        let mut found = Vec::new();
        self.blocks_in(corner, size, &mut found);
        found
    }

    fn blocks_in(&self, corner: u64, size: u32, found: &mut Vec<Tile>) {
        if let Some(account) = self.uniform(corner, size) {
            if account != 0 {
                found.push(Tile { corner, size, account });
            }
            return;
        }
        for quarter in 0..4 {
            self.blocks_in(corner + quarter * area(size - 1), size - 1, found);
        }
    }

    /// The account of a block, if all its pixels have the same.
    fn uniform(&self, corner: u64, size: u32) -> Option<u8> {
        let start = self.index_of_morton(corner);
        let account = self.accounts[start];
        for row in 0..2usize.pow(size) {
            let from = start + row * self.side();
            if self.accounts[from..from + 2usize.pow(size)].iter().any(|&other| other != account) {
                return None;
            }
        }
        Some(account)
    }

    /// Feeds accounts with m slots: the number that stopped it and the count taken.
    pub fn feed(&mut self, m: usize, accounts: &[u8]) -> (u32, usize) {
        assert!(!self.held_unseen(), "no call gives a pixel away that is not scanned");
        // No bed has more blocks than pixels. The others are counted anew at each pixel; on large beds the count is
        // kept instead.
        let roomy = m as u64 >= area(self.order);
        let mut tally = if !roomy && self.order > 6 { Some(Tally::of(self)) } else { None };
        for (taken, &account) in accounts.iter().enumerate() {
            if self.scanned == area(self.order) {
                return (23, taken);
            }
            if account > 63 {
                return (24, taken);
            }
            let at = self.index_of_place(self.scanned);
            let before = std::mem::replace(&mut self.accounts[at], account);
            let blocks = match &mut tally {
                Some(tally) => tally.set(at, account),
                None if roomy => 0,
                None => self.blocks().len(),
            };
            if blocks > m {
                self.accounts[at] = before;
                return (25, taken);
            }
            self.step();
        }
        (0, accounts.len())
    }

    /// Claims a block with m slots: the refusal number or 0.
    pub fn claim(&mut self, m: usize, corner: u32, size: u32, account: u8) -> u32 {
        if !block_in(self.order, corner, size) {
            return 32;
        }
        if !self.pixels_in(corner.into(), size).all(|at| self.seen[at]) {
            return 52;
        }
        if account > 63 {
            return 24;
        }
        let mut after = self.clone();
        for at in self.pixels_in(corner.into(), size) {
            after.accounts[at] = account;
        }
        if after.blocks().len() > m {
            return 25;
        }
        *self = after;
        0
    }

    /// The third bed of this one and a second with m slots, scanned as this one is. Choice 0 keeps this one's pixels
    /// where the second is somebody's, any other those where it is nobody's.
    pub fn combine(&self, m: usize, choice: u32, second: &Bed) -> Result<Bed, u32> {
        if self.order != second.order {
            return Err(51);
        }
        let mut third = self.clone();
        for (at, account) in third.accounts.iter_mut().enumerate() {
            let somebodys = second.accounts[at] != 0;
            let kept = if choice == 0 { somebodys } else { !somebodys };
            if !kept {
                *account = 0;
            }
        }
        if third.blocks().len() > m {
            return Err(25);
        }
        Ok(third)
    }

    /// Reads a file with m slots: the bed that it shows, by rows and wholly scanned.
    pub fn read(m: usize, bytes: &[u8]) -> Result<Bed, u32> {
        let (order, tiles) = file::read(bytes, m)?;
        Ok(Bed::whole(order, painted(order, &tiles)))
    }
}

/// Whether a corner and a size are a block of the bed.
pub fn block_in(order: u32, corner: u32, size: u32) -> bool {
    size <= order && u64::from(corner) < area(order) && u64::from(corner) % area(size) == 0
}

/// The accounts of a bed, row after row, with the tiles painted on nobody's ground.
pub fn painted(order: u32, tiles: &[Tile]) -> Vec<u8> {
    let side = 2usize.pow(order);
    let mut accounts = vec![0; side * side];
    for tile in tiles {
        let (column, row) = pixel(tile.corner);
        for y in row..row + 2usize.pow(tile.size) {
            for x in column..column + 2usize.pow(tile.size) {
                accounts[y * side + x] = tile.account;
            }
        }
    }
    accounts
}
