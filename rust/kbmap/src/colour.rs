//! The colours of accounts: ten fills that stay apart for readers with full colour vision and for red-blind,
//! green-blind and blue-blind ones, and labels that can be read on them. The tests measure both.

use std::cmp::Reverse;
use std::fmt;

/// A colour by its parts in sRGB. It prints as #rrggbb.
#[derive(Clone, Copy, Debug, PartialEq, Eq)]
pub struct Colour {
    pub red: u8,
    pub green: u8,
    pub blue: u8,
}

impl Colour {
    pub const fn of(number: u32) -> Colour {
        let [_, red, green, blue] = number.to_be_bytes();
        Colour { red, green, blue }
    }

    /// How bright it is, from 0 for black to 1 for white.
    fn luminance(self) -> f64 {
        let [red, green, blue] = [self.red, self.green, self.blue].map(linear);
        0.2126 * red + 0.7152 * green + 0.0722 * blue
    }

    /// The contrast of two colours, from 1 to 21.
    pub fn contrast(self, other: Colour) -> f64 {
        let (one, two) = (self.luminance(), other.luminance());
        (one.max(two) + 0.05) / (one.min(two) + 0.05)
    }

    /// The colour of a label on this fill: dark or white, whichever stands out more.
    pub fn label(self) -> Colour {
        if self.contrast(DARK) >= self.contrast(WHITE) {
            DARK
        } else {
            WHITE
        }
    }
}

impl fmt::Display for Colour {
    fn fmt(&self, f: &mut fmt::Formatter) -> fmt::Result {
        write!(f, "#{:02x}{:02x}{:02x}", self.red, self.green, self.blue)
    }
}

/// A part of an sRGB colour as an amount of light, from 0 to 1.
fn linear(part: u8) -> f64 {
    let part = f64::from(part) / 255.0;
    if part <= 0.04045 {
        part / 12.92
    } else {
        ((part + 0.055) / 1.055).powf(2.4)
    }
}

/// The paper of pictures, quiet text on it, and frames.
pub const PAPER: Colour = Colour::of(0xf7f6f2);
pub const MUTED: Colour = Colour::of(0x585852);
pub const FRAME: Colour = Colour::of(0x85857e);

/// Labels on light fills.
pub const DARK: Colour = Colour::of(0x141414);
/// Labels on dark fills, and nobody's ground.
pub const WHITE: Colour = Colour::of(0xffffff);
/// The hatch on nobody's ground.
pub const HATCH: Colour = Colour::of(0xd0d0c9);
/// A cell of a terminal drawing whose pixels are not all of one account; no account has it.
pub const MIXED: Colour = Colour::of(0x1c1c1c);

/// The fills of accounts.
pub const PALETTE: [Colour; 10] = [
    Colour::of(0x8c7fe2), // violet
    Colour::of(0xffd75c), // yellow
    Colour::of(0x990b56), // crimson
    Colour::of(0xadcba4), // sage
    Colour::of(0xbe6f70), // rose
    Colour::of(0x6cdafe), // sky
    Colour::of(0x4a3ea3), // indigo
    Colour::of(0x909302), // lime
    Colour::of(0x0b7f8c), // teal
    Colour::of(0x5c520a), // olive
];

/// As many accounts as a byte can name.
const ACCOUNTS: usize = 256;

/// The fills of a bed's accounts. Each account has a fill of its own, by its number, and so the same one on most beds.
/// Of up to ten accounts no two have the same: if another has that fill already, an account takes the next one that
/// none has. More accounts share fills, but not those that touch, as far as that goes: those that touch most others
/// choose first, and each takes its own fill or the next one that none has that it touches; if there is none, the fill
/// of those that it touches least.
pub struct Fills {
    of: [usize; ACCOUNTS],
    /// Whether two accounts that touch have the same fill.
    pub touching: bool,
}

impl Fills {
    /// The fills for a raster with rows of `side` pixels.
    pub fn of_raster(side: usize, raster: &[u8]) -> Fills {
        let borders = Borders::of_raster(side, raster);
        let mut on_bed = [false; ACCOUNTS];
        raster.iter().for_each(|&account| on_bed[usize::from(account)] = true);
        let mut accounts: Vec<usize> = (1..ACCOUNTS).filter(|&account| on_bed[account]).collect();
        let few = accounts.len() <= PALETTE.len();
        if !few {
            accounts.sort_by_key(|&account| (Reverse(borders.touched(account)), account));
        }
        let mut of = std::array::from_fn(|account| account % PALETTE.len());
        let mut touching = false;
        for (at, &account) in accounts.iter().enumerate() {
            let against = |fill: usize| -> u32 {
                let others = accounts[..at].iter().filter(|&&other| of[other] == fill);
                others.map(|&other| if few { 1 } else { borders.between(account, other) }).sum()
            };
            let fills = (0..PALETTE.len()).map(|step| (account + step) % PALETTE.len());
            let (least, fill) =
                fills.map(|fill| (against(fill), fill)).min_by_key(|&(least, _)| least).unwrap_or((0, 0));
            touching |= least > 0;
            of[account] = fill;
        }
        Fills { of, touching }
    }

    pub fn fill(&self, account: u8) -> Colour {
        PALETTE[self.of[usize::from(account)]]
    }
}

/// How much each two accounts touch: pixels side by side, or corner to corner.
struct Borders {
    counts: Vec<u32>,
}

impl Borders {
    fn of_raster(side: usize, raster: &[u8]) -> Borders {
        let mut borders = Borders { counts: vec![0; ACCOUNTS * ACCOUNTS] };
        let rows: Vec<&[u8]> = raster.chunks(side).collect();
        for row in &rows {
            borders.add(row, &row[1..]);
        }
        for pair in rows.windows(2) {
            borders.add(pair[0], pair[1]);
            borders.add(pair[0], &pair[1][1..]);
            borders.add(&pair[0][1..], pair[1]);
        }
        borders
    }

    /// Counts the pixels of two rows that lie at the same step.
    fn add(&mut self, one: &[u8], two: &[u8]) {
        for (&one, &two) in one.iter().zip(two) {
            if one != two && one != 0 && two != 0 {
                self.counts[usize::from(one.max(two)) * ACCOUNTS + usize::from(one.min(two))] += 1;
            }
        }
    }

    fn between(&self, one: usize, two: usize) -> u32 {
        self.counts[one.max(two) * ACCOUNTS + one.min(two)]
    }

    /// How many others an account touches.
    fn touched(&self, account: usize) -> usize {
        (1..ACCOUNTS).filter(|&other| self.between(account, other) > 0).count()
    }
}

#[cfg(test)]
mod tests;
