//! A map file that was read and accepted, and what its accounts have.

use crate::failure::Failure;
use crate::input::Source;
use crate::layout::Layout;
use crate::locate::locate;
use crate::words;
use kingletbed::{raw, Account, Bed, Refusal, HIGHEST_ORDER};

/// A file's bytes and its bed.
pub struct Map {
    pub source: Source,
    pub bytes: Vec<u8>,
    pub bed: Bed<Vec<u32>>,
}

/// What an account has on a bed.
#[derive(Clone, Debug, PartialEq, Eq)]
pub struct Holding {
    pub account: Account,
    pub class: &'static str,
    pub tiles: usize,
    pub pixels: u32,
}

/// Slots for the largest bed.
pub fn slots() -> Vec<u32> {
    vec![0; raw::extent(HIGHEST_ORDER).pixels as usize]
}

/// Reads a map from the bytes of a file.
pub fn read(bytes: &[u8]) -> Result<Bed<Vec<u32>>, Refusal> {
    Bed::read(bytes, slots())
}

/// "order 6, 64 by 64 pixels, 111 tiles".
pub fn summary(bed: &Bed<Vec<u32>>) -> String {
    let (square, tiles) = (words::square(bed.side()), words::count(bed.words().len(), "tile"));
    format!("order {}, {square}, {tiles}", bed.order())
}

/// The file of a bed; one that is not wholly scanned is refused.
pub fn file_of(bed: &Bed<Vec<u32>>) -> Result<Vec<u8>, Refusal> {
    let mut file = vec![0; bed.file_room()];
    let length = bed.write(&mut file)?;
    file.truncate(length);
    Ok(file)
}

impl Map {
    /// Reads a file; one that is no map is refused with what is wrong and where.
    pub fn open(source: Source) -> Result<Map, Failure> {
        let bytes = source.read()?;
        Map::of(source, bytes)
    }

    /// The map of a file's bytes.
    pub fn of(source: Source, bytes: Vec<u8>) -> Result<Map, Failure> {
        match read(&bytes) {
            Ok(bed) => Ok(Map { source, bytes, bed }),
            Err(refusal) => Err(Failure::refusal(source.name(), refusal, &locate(&bytes, refusal))),
        }
    }

    /// The refusal of something that was asked of the bed.
    pub fn refused(&self, refusal: Refusal, asked: String) -> Failure {
        Failure::refusal(self.source.name(), refusal, &[asked])
    }

    /// The accounts on the bed with their pixels, as the file's roster has them: by rising account.
    pub fn holdings(&self) -> Vec<Holding> {
        let mut tiles = vec![0; usize::from(u8::MAX) + 1];
        for tile in self.bed.tiles() {
            tiles[usize::from(tile.account().0)] += 1;
        }
        let roster = Layout { bytes: &self.bytes }.roster();
        let holding = |(account, pixels): (Account, u32)| {
            let tiles = tiles[usize::from(account.0)];
            Holding { account, class: words::class(account), tiles, pixels }
        };
        roster.into_iter().map(holding).collect()
    }

    /// The pixels that are somebody's.
    pub fn held(&self) -> u32 {
        Layout { bytes: &self.bytes }.held()
    }

    /// The account of each pixel, row after row.
    pub fn raster(&self) -> Result<Vec<u8>, Failure> {
        let mut raster = vec![0; self.bed.pixels() as usize];
        let decoded = self.bed.decode(&mut raster);
        decoded.map_err(|refusal| self.refused(refusal, "decoding".to_owned()))?;
        Ok(raster)
    }

    /// "bed.map: order 6, 64 by 64 pixels".
    pub fn measured(&self) -> String {
        format!("{}: order {}, {}", self.source.name(), self.bed.order(), self.extent())
    }

    /// "64 by 64 pixels".
    pub fn extent(&self) -> String {
        words::square(self.bed.side())
    }
}
