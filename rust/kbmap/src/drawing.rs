//! What all drawings of a bed show: its tiles, and an entry of the legend for each account and for nobody's ground.

use crate::colour::{Colour, Fills, PALETTE};
use crate::failure::Failure;
use crate::map::{self, Holding, Map};
use crate::words::{count, span};
use kingletbed::{raw, Account, Pixel, Tile};

/// A bed to be drawn.
pub struct Drawing {
    pub map: Map,
    /// The account of each pixel, row after row.
    pub raster: Vec<u8>,
    /// The tiles by rising corner, and the accounts by rising number.
    pub squares: Vec<Square>,
    pub entries: Vec<Entry>,
    /// Nobody's pixels.
    pub free: u32,
    /// What is to be known of the colours.
    pub notes: Vec<String>,
}

/// An account of the legend.
pub struct Entry {
    pub holding: Holding,
    pub fill: Colour,
}

/// A tile by columns and rows, and which entry its account has.
#[derive(Clone, Copy)]
pub struct Square {
    pub tile: Tile,
    pub pixel: Pixel,
    pub side: u32,
    pub entry: usize,
}

impl Drawing {
    pub fn of(map: Map) -> Result<Drawing, Failure> {
        let raster = map.raster()?;
        let fills = Fills::of_raster(map.bed.side() as usize, &raster);
        let entry = |holding: Holding| Entry { fill: fills.fill(holding.account.0), holding };
        let entries: Vec<Entry> = map.holdings().into_iter().map(entry).collect();
        let free = map.bed.pixels() - map.held();
        let squares = squares(&map, &entries)?;
        let notes = notes(&entries, fills.touching);
        Ok(Drawing { map, raster, squares, entries, free, notes })
    }

    /// The name over the drawing.
    pub fn title(&self) -> String {
        self.map.source.title()
    }

    /// "order 6, 64 by 64 pixels, 111 tiles".
    pub fn summary(&self) -> String {
        map::summary(&self.map.bed)
    }

    pub fn side(&self) -> u32 {
        self.map.bed.side()
    }

    /// The fill of an account that is on the bed.
    pub fn fill(&self, account: Account) -> Option<Colour> {
        Some(self.entries[entry_at(&self.entries, account)?].fill)
    }

    /// The distance of numbered columns and rows: the side of the smallest blocks of which at most `most` lie in a row.
    pub fn step(&self, most: u32) -> u32 {
        let sides = (0..=self.map.bed.order()).map(|size| raw::extent(size).side);
        sides.into_iter().find(|side| self.side() / side <= most).unwrap_or(self.side())
    }
}

/// "11 accounts share 9 colours", and whether some of those touch.
fn notes(entries: &[Entry], touching: bool) -> Vec<String> {
    let used = PALETTE.iter().filter(|&&fill| entries.iter().any(|entry| entry.fill == fill)).count();
    let mut notes = Vec::new();
    if used < entries.len() {
        notes.push(format!("{} accounts share {}", entries.len(), count(used, "colour")));
    }
    if touching {
        notes.push("some accounts that touch share a colour".to_owned());
    }
    notes
}

/// Which entry is that of an account.
fn entry_at(entries: &[Entry], account: Account) -> Option<usize> {
    entries.binary_search_by_key(&account, |entry| entry.holding.account).ok()
}

/// All tiles by columns and rows. None is left out: without it held ground would look free, so that there would rather
/// be no drawing.
fn squares(map: &Map, entries: &[Entry]) -> Result<Vec<Square>, Failure> {
    let square = |tile: Tile| {
        let refused = |refusal| map.refused(refusal, format!("tile {tile:?}"));
        let (pixel, side) = (tile.pixel().map_err(refused)?, tile.side().map_err(refused)?);
        let unknown = || Failure::refused(map.source.name(), format!("{} is not in the roster", tile.account()));
        let entry = entry_at(entries, tile.account()).ok_or_else(unknown)?;
        Ok(Square { tile, pixel, side, entry })
    };
    map.bed.tiles().map(square).collect()
}

impl Square {
    /// "account 21, student; columns 40 to 47, rows 24 to 31; 64 pixels".
    pub fn described(self, class: &str) -> String {
        let pixels = count(raw::extent(self.tile.size()).pixels as usize, "pixel");
        let span = span(self.tile.block()).unwrap_or_default();
        format!("account {}, {class}; {span}; {pixels}", self.tile.account().0)
    }
}

/// Text for SVG and HTML.
pub fn escaped(text: &str) -> String {
    let mut escaped = String::with_capacity(text.len());
    for letter in text.chars() {
        match letter {
            '&' => escaped.push_str("&amp;"),
            '<' => escaped.push_str("&lt;"),
            '>' => escaped.push_str("&gt;"),
            '"' => escaped.push_str("&quot;"),
            // A letter that no picture may have stands in a file's name now and then: controls, and what is no letter.
            _ if letter.is_control() || matches!(u32::from(letter), 0xfdd0..=0xfdef) => escaped.push('\u{fffd}'),
            _ if u32::from(letter) & 0xfffe == 0xfffe => escaped.push('\u{fffd}'),
            _ => escaped.push(letter),
        }
    }
    escaped
}
