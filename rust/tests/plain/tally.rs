//! The number of blocks of a large bed, kept while single pixels change: for every quadrant its account, if it has just
//! one, and how many blocks it would show by itself.

use super::bed::Bed;
use super::{area, morton};

#[derive(Clone, Copy, Debug, PartialEq, Eq)]
struct Quadrant {
    account: Option<u8>,
    blocks: usize,
}

pub struct Tally {
    side: usize,
    /// One level for each size, from single pixels up to the whole bed; quadrants by rising corner.
    levels: Vec<Vec<Quadrant>>,
}

fn of_account(account: u8) -> Quadrant {
    Quadrant { account: Some(account), blocks: usize::from(account != 0) }
}

fn of_quarters(quarters: &[Quadrant]) -> Quadrant {
    if let Some(account) = quarters[0].account {
        if quarters.iter().all(|quarter| quarter.account == Some(account)) {
            return of_account(account);
        }
    }
    Quadrant { account: None, blocks: quarters.iter().map(|quarter| quarter.blocks).sum() }
}

impl Tally {
    pub fn of(bed: &Bed) -> Tally {
        let pixels = (0..area(bed.order)).map(|z| of_account(bed.accounts[bed.index_of_morton(z)])).collect();
        let mut levels: Vec<Vec<Quadrant>> = vec![pixels];
        for size in 0..bed.order as usize {
            let larger = levels[size].chunks(4).map(of_quarters).collect();
            levels.push(larger);
        }
        Tally { side: bed.side(), levels }
    }

    /// Changes the pixel at an index of the bed's accounts, and gives the number of blocks then.
    pub fn set(&mut self, index: usize, account: u8) -> usize {
        let mut at = morton(index % self.side, index / self.side) as usize;
        self.levels[0][at] = of_account(account);
        for size in 1..self.levels.len() {
            at /= 4;
            self.levels[size][at] = of_quarters(&self.levels[size - 1][4 * at..4 * at + 4]);
        }
        self.blocks()
    }

    pub fn blocks(&self) -> usize {
        self.levels.last().expect("a bed has at least one level")[0].blocks
    }
}
