//! A small random generator (splitmix64), random beds, and scans of them.

use crate::plain::bed::Bed;
use crate::plain::{area, Record};

pub struct Random {
    state: u64,
}

impl Random {
    pub fn new(seed: u64) -> Random {
        Random { state: seed }
    }

    pub fn next(&mut self) -> u64 {
        self.state = self.state.wrapping_add(0x9e37_79b9_7f4a_7c15);
        let mut x = self.state;
        x = (x ^ (x >> 30)).wrapping_mul(0xbf58_476d_1ce4_e5b9);
        x = (x ^ (x >> 27)).wrapping_mul(0x94d0_49bb_1331_11eb);
        x ^ (x >> 31)
    }

    /// A number below a bound.
    pub fn below(&mut self, bound: usize) -> usize {
        (self.next() % bound as u64) as usize
    }

    pub fn between(&mut self, low: usize, high: usize) -> usize {
        low + self.below(high - low + 1)
    }

    /// True once in so many times.
    pub fn once_in(&mut self, times: usize) -> bool {
        self.below(times) == 0
    }

    pub fn pick<T: Copy>(&mut self, from: &[T]) -> T {
        from[self.below(from.len())]
    }
}

/// A bed built together with its list: no block is searched for. Words by rising corner, and accounts row after row.
pub struct Built {
    pub order: u32,
    pub words: Vec<u32>,
    pub raster: Vec<u8>,
}

impl Built {
    /// `splits` of 8 blocks are split where they can be.
    pub fn random(random: &mut Random, order: u32, palette: &[u8], splits: usize) -> Built {
        let side = 1 << order;
        let mut built = Built { order, words: Vec::new(), raster: vec![0; side * side] };
        built.block(random, palette, splits, (0, 0), 0, order, None);
        built
    }

    /// A scan of this bed that has been at so many pixels: its record, and the bed with nobody's ground from there on,
    /// whose list is the plain implementation's.
    pub fn upto(self, kind: u32, pixels: u32) -> (Record, Built) {
        let mut bed = Bed::upto(kind, self.order, pixels.into(), self.raster);
        bed.accounts.iter_mut().zip(&bed.seen).filter(|(_, &seen)| !seen).for_each(|(account, _)| *account = 0);
        let words: Vec<u32> = bed.blocks().iter().map(|tile| tile.word()).collect();
        let record = Record { kind, order: self.order, pixels, tiles: words.len() };
        (record, Built { order: self.order, words, raster: bed.accounts })
    }

    /// A scan of this bed by rows with every pixel, or by any kind and as far as it comes.
    pub fn scan(self, random: &mut Random) -> (Record, Built) {
        if random.once_in(3) {
            return (Record::whole(self.order, self.words.len()), self);
        }
        let (kind, pixels) = (random.pick(&[0, 1, 0, 1, 2, u32::MAX]), random.below(area(self.order) as usize + 1));
        self.upto(kind, pixels as u32)
    }

    /// Fills a block and gives its account, if it has just one. It does not become uniform with the account forbidden.
    #[allow(clippy::too_many_arguments)]
    fn block(
        &mut self,
        random: &mut Random,
        palette: &[u8],
        splits: usize,
        at: (usize, usize),
        corner: u32,
        size: u32,
        forbidden: Option<u8>,
    ) -> Option<u8> {
        if size == 0 || random.below(8) >= splits {
            let mut account = random.pick(palette);
            while Some(account) == forbidden {
                account = (account + 1) % 64;
            }
            let (column, row, length) = (at.0, at.1, 1 << size);
            for y in row..row + length {
                let from = (y << self.order) + column;
                self.raster[from..from + length].fill(account);
            }
            if account != 0 {
                self.words.push(corner << 10 | size << 6 | u32::from(account));
            }
            return Some(account);
        }
        let half = 1 << (size - 1);
        let mut quarters = [None; 4];
        for quarter in 0..4 {
            let at = (at.0 + half * (quarter % 2), at.1 + half * (quarter / 2));
            let corner = corner + ((quarter as u32) << (2 * (size - 1)));
            // The last quarter may not make the block uniform: it would have been one tile.
            let alike = quarter == 3 && quarters[0] == quarters[1] && quarters[0] == quarters[2];
            let forbidden = if alike { quarters[0] } else { None };
            quarters[quarter] = self.block(random, palette, splits, at, corner, size - 1, forbidden);
        }
        None
    }
}

/// Some accounts, nobody's among them more often than not.
pub fn palette(random: &mut Random) -> Vec<u8> {
    let mut accounts: Vec<u8> = (0..random.between(1, 4)).map(|_| random.between(1, 63) as u8).collect();
    if !random.once_in(3) {
        accounts.push(0);
    }
    accounts
}
