//! The raw calls, as `include/kingletbed.h` has them: numbers and slices in, numbers out. The header says what each
//! takes, refuses and leaves. They are for those who keep the numbers themselves; everyone else wants
//! [`Bed`](crate::Bed).
//!
//! `kind, order, pixels, tiles` are the record of a scan. A fresh scan and a feed answer it; of a map that was read it
//! is kind 0, the order and tile count answered, and 4^order pixels. A claim changes its tile count alone, and a third
//! map has the first one's with its own tile count.
//!
//! No call asks anything of its caller: the library answers every input, and the slices see to the memory. What nothing
//! here protects from is a record that belongs to other slots, or to the same slots at another time: earlier, or after
//! a claim that was only previewed. After a claim or a feed the tile count of before may still be that of a map, but of
//! another bed, on which somebody's pixel reads as nobody's. With more pixels than are scanned, one that the scan has
//! not reached does:
//!
//! ```
//! use kingletbed::raw;
//! let mut slots = [0; 4];
//! let fed = raw::feed(0, 1, 0, 0, &mut slots, &[0, 0, 0]);
//! assert_eq!((fed.number, fed.pixels, fed.tiles), (0, 3, 0));
//! let claimed = raw::claim(0, 1, 3, 0, &mut slots, 1, 0, 9);
//! assert_eq!((claimed.number, claimed.tiles), (0, 1));
//! assert_eq!(raw::lookup(0, 1, 3, claimed.tiles, &slots, 1, 0).account, 9);
//! assert_eq!(raw::lookup(0, 1, 3, 0, &slots, 1, 0).account, 0); // the count of before: account 9's reads as nobody's
//! assert_eq!(raw::lookup(0, 1, 3, 1, &slots, 1, 1).number, 52); // not scanned yet
//! assert_eq!(raw::lookup(0, 1, 4, 1, &slots, 1, 1).number, 0); // a pixel too many: it reads as nobody's
//! ```
//!
//! All unsafe code of this package is in this module.

mod answers;
mod numbers;

pub use answers::{Around, Claimed, Combined, Extent, Fed, Found, Fresh, Morton, Part, Point, Reading, Right, Written};
pub use answers::{MilsH, MilsPixel, MilsText};
pub use numbers::{block, extent, morton, point, tile_account, tile_corner, tile_size};
pub use numbers::{load, mils_h, mils_pixel, mils_text};

#[rustfmt::skip]
extern "C" {
    fn kb_check(order: u32, tiles: usize, slots: *const u32, slots_length: usize) -> u32;
    fn kb_fresh(kind: u32, order: u32, slots: *mut u32, slots_length: usize) -> Fresh;
    fn kb_feed(kind: u32, order: u32, pixels: u32, tiles: usize, slots: *mut u32, slots_length: usize,
               accounts: *const u8, accounts_length: usize) -> Fed;
    fn kb_decode(order: u32, tiles: usize, slots: *const u32, slots_length: usize,
                 raster: *mut u8, raster_length: usize) -> u32;
    fn kb_lookup(kind: u32, order: u32, pixels: u32, tiles: usize, slots: *const u32, slots_length: usize,
                 column: u32, row: u32) -> Found;
    fn kb_part(order: u32, tiles: usize, slots: *const u32, slots_length: usize, corner: u32, size: u32) -> Part;
    fn kb_rights(table: *const u8, table_length: usize,
                 kind: u32, order: u32, pixels: u32, tiles: usize, slots: *const u32, slots_length: usize,
                 column: u32, row: u32, account: u8) -> Right;
    fn kb_claim(kind: u32, order: u32, pixels: u32, tiles: usize, slots: *mut u32, slots_length: usize,
                corner: u32, size: u32, account: u8) -> Claimed;
    fn kb_preview(kind: u32, order: u32, pixels: u32, tiles: usize, slots: *const u32, slots_length: usize,
                  corner: u32, size: u32, account: u8) -> Claimed;
    fn kb_combine(choice: u32, order1: u32, tiles1: usize, slots1: *const u32, slots1_length: usize,
                  order2: u32, tiles2: usize, slots2: *const u32, slots2_length: usize,
                  out: *mut u32, out_length: usize) -> Combined;
    fn kb_write(kind: u32, order: u32, pixels: u32, tiles: usize, slots: *const u32, slots_length: usize,
                file: *mut u8, file_length: usize) -> Written;
    fn kb_read(file: *const u8, file_length: usize, slots: *mut u32, slots_length: usize) -> Reading;
}

// Why the calls are safe: the library is proved to answer every number and whatever the lent storage holds, and asks
// two things, that a pointer is good for the length behind it and that storage it writes overlaps nothing else.
// Pointers and lengths here are those of slices, which see to both. The archive linked must be of this version: one of
// another may have the same names and other arguments.

/// `kb_check`. List checking: the refusal number of a map, 0 if it is one.
///
/// ```
/// use kingletbed::raw;
/// assert_eq!(raw::check(1, 1, &[71]), 0);
/// assert_eq!(raw::check(0, 1, &[71]), 12); // the tile is larger than the bed
/// ```
#[must_use]
pub fn check(order: u32, tiles: usize, slots: &[u32]) -> u32 {
    unsafe { kb_check(order, tiles, slots.as_ptr(), slots.len()) }
}

/// `kb_fresh`. Begins a scan; kind 0 is by rows, any other in Morton order.
///
/// ```
/// use kingletbed::raw;
/// let mut slots = [7; 4];
/// assert_eq!(raw::fresh(0, 11, &mut slots).number, 1);
/// assert_eq!((raw::fresh(0, 1, &mut slots).number, slots), (0, [0; 4]));
/// ```
#[must_use]
pub fn fresh(kind: u32, order: u32, slots: &mut [u32]) -> Fresh {
    unsafe { kb_fresh(kind, order, slots.as_mut_ptr(), slots.len()) }
}

/// `kb_feed`. Hands over the accounts of the next pixels.
///
/// ```
/// use kingletbed::raw;
/// let mut slots = [0; 4];
/// let fed = raw::feed(0, 1, 0, 0, &mut slots, &[7, 64]);
/// assert_eq!((fed.number, fed.taken, fed.pixels, fed.tiles), (24, 1, 1, 1));
/// ```
#[must_use]
pub fn feed(kind: u32, order: u32, pixels: u32, tiles: usize, slots: &mut [u32], accounts: &[u8]) -> Fed {
    unsafe { kb_feed(kind, order, pixels, tiles, slots.as_mut_ptr(), slots.len(), accounts.as_ptr(), accounts.len()) }
}

/// `kb_decode`. Writes the account of each pixel; one that is not scanned has 0.
///
/// ```
/// use kingletbed::raw;
/// let mut raster = [0; 4];
/// assert_eq!((raw::decode(1, 1, &[7], &mut raster), raster), (0, [7, 0, 0, 0]));
/// ```
#[must_use]
pub fn decode(order: u32, tiles: usize, slots: &[u32], raster: &mut [u8]) -> u32 {
    unsafe { kb_decode(order, tiles, slots.as_ptr(), slots.len(), raster.as_mut_ptr(), raster.len()) }
}

/// `kb_lookup`. The account at a pixel and the block that has it: as [`Bed::lookup`](crate::Bed::lookup) gives them.
///
/// ```
/// use kingletbed::raw;
/// let held = raw::lookup(0, 2, 16, 1, &[71], 1, 0);
/// assert_eq!((held.account, held.corner, held.size), (7, 0, 1));
/// let free = raw::lookup(0, 2, 16, 1, &[71], 3, 0);
/// assert_eq!((free.account, free.corner, free.size), (0, 4, 1));
/// let free = raw::lookup(0, 2, 7, 1, &[71], 3, 0); // of the block NE three pixels are scanned
/// assert_eq!((free.account, free.corner, free.size), (0, 5, 0));
/// assert_eq!(raw::lookup(0, 2, 7, 1, &[71], 3, 1).number, 52);
/// ```
#[must_use]
pub fn lookup(kind: u32, order: u32, pixels: u32, tiles: usize, slots: &[u32], column: u32, row: u32) -> Found {
    unsafe { kb_lookup(kind, order, pixels, tiles, slots.as_ptr(), slots.len(), column, row) }
}

/// `kb_part`. The position and length of the tiles inside a block.
///
/// ```
/// use kingletbed::raw;
/// let part = raw::part(2, 2, &[71, 4103], 4, 1);
/// assert_eq!((part.position, part.length), (1, 1));
/// ```
#[must_use]
pub fn part(order: u32, tiles: usize, slots: &[u32], corner: u32, size: u32) -> Part {
    unsafe { kb_part(order, tiles, slots.as_ptr(), slots.len(), corner, size) }
}

/// `kb_rights`. Whether an account may place at a pixel by the table in force: 1 or 0. A table that no [`load`] would
/// accept, so none at all too, counts as the old one.
///
/// ```
/// use kingletbed::raw;
/// let table = [1, 1, 1, 1, 0, 1, 1, 0, 0, 0, 1, 1, 0, 0, 0];
/// assert_eq!(raw::rights(&table, 0, 1, 4, 1, &[7], 1, 0, 48).yes, 1); // a guest on nobody's pixel
/// assert_eq!(raw::rights(&table[..14], 0, 1, 4, 1, &[7], 1, 0, 48).yes, 0);
/// assert_eq!(raw::rights(&[], 0, 1, 4, 1, &[7], 1, 0, 48).yes, 0);
/// ```
#[must_use]
#[allow(clippy::too_many_arguments)]
pub fn rights(
    table: &[u8],
    kind: u32,
    order: u32,
    pixels: u32,
    tiles: usize,
    slots: &[u32],
    column: u32,
    row: u32,
    account: u8,
) -> Right {
    let (rows, length) = (table.as_ptr(), table.len());
    unsafe { kb_rights(rows, length, kind, order, pixels, tiles, slots.as_ptr(), slots.len(), column, row, account) }
}

/// `kb_claim`. Gives a block to an account.
///
/// ```
/// use kingletbed::raw;
/// let mut slots = [71, 0, 0];
/// let claimed = raw::claim(0, 1, 4, 1, &mut slots, 3, 0, 0);
/// assert_eq!((claimed.number, claimed.tiles, slots), (0, 3, [7, 1031, 2055]));
/// ```
#[must_use]
#[allow(clippy::too_many_arguments)]
pub fn claim(
    kind: u32,
    order: u32,
    pixels: u32,
    tiles: usize,
    slots: &mut [u32],
    corner: u32,
    size: u32,
    account: u8,
) -> Claimed {
    unsafe { kb_claim(kind, order, pixels, tiles, slots.as_mut_ptr(), slots.len(), corner, size, account) }
}

/// `kb_preview`. What [`claim`] would answer, done on a copy of the list with as many slots.
///
/// ```
/// use kingletbed::raw;
/// let mut slots = [71, 0, 0];
/// let preview = raw::preview(0, 1, 4, 1, &slots, 3, 0, 0);
/// assert_eq!((preview.number, preview.tiles, slots), (0, 3, [71, 0, 0]));
/// assert_eq!(raw::claim(0, 1, 4, 1, &mut slots, 3, 0, 0), preview);
/// assert_eq!(raw::preview(0, 1, 4, 1, &[71, 0], 3, 0, 0).number, 25); // two slots are too few for three tiles
/// ```
#[must_use]
#[allow(clippy::too_many_arguments)]
pub fn preview(
    kind: u32,
    order: u32,
    pixels: u32,
    tiles: usize,
    slots: &[u32],
    corner: u32,
    size: u32,
    account: u8,
) -> Claimed {
    unsafe { kb_preview(kind, order, pixels, tiles, slots.as_ptr(), slots.len(), corner, size, account) }
}

/// `kb_combine`. Makes a third map of two: by choice 0 the first map's pixels where the second is somebody's, by any
/// other those where it is nobody's.
///
/// ```
/// use kingletbed::raw;
/// let (mut inside, mut outside) = ([9; 4], [9; 4]);
/// let combined = raw::combine(0, 1, 1, &[71], 1, 1, &[3075], &mut inside);
/// assert_eq!((combined.number, combined.tiles, inside), (0, 1, [3079, 0, 0, 0]));
/// let combined = raw::combine(1, 1, 1, &[71], 1, 1, &[3075], &mut outside);
/// assert_eq!((combined.number, combined.tiles, outside), (0, 3, [7, 1031, 2055, 0]));
/// ```
#[must_use]
#[allow(clippy::too_many_arguments)]
pub fn combine(
    choice: u32,
    order1: u32,
    tiles1: usize,
    slots1: &[u32],
    order2: u32,
    tiles2: usize,
    slots2: &[u32],
    out: &mut [u32],
) -> Combined {
    let (one, two, third) = (slots1.as_ptr(), slots2.as_ptr(), out.as_mut_ptr());
    unsafe {
        kb_combine(choice, order1, tiles1, one, slots1.len(), order2, tiles2, two, slots2.len(), third, out.len())
    }
}

/// `kb_write`. Writes a map that is wholly scanned as a file.
///
/// ```
/// use kingletbed::raw;
/// let mut file = [0; 15];
/// let written = raw::write(0, 0, 1, 1, &[3], &mut file);
/// assert_eq!((written.length, file), (15, [0, 0, 0, 0, 1, 0, 0, 0, 3, 1, 3, 0, 0, 0, 1]));
/// assert_eq!(raw::write(0, 0, 0, 0, &[3], &mut file).number, 52);
/// ```
#[must_use]
pub fn write(kind: u32, order: u32, pixels: u32, tiles: usize, slots: &[u32], file: &mut [u8]) -> Written {
    unsafe { kb_write(kind, order, pixels, tiles, slots.as_ptr(), slots.len(), file.as_mut_ptr(), file.len()) }
}

/// `kb_read`. Reads a file to a map.
///
/// ```
/// use kingletbed::raw;
/// let mut slots = [7; 2];
/// let reading = raw::read(&[0, 0, 0, 0, 1, 0, 0, 0, 3, 1, 3, 0, 0, 0, 1], &mut slots);
/// assert_eq!((reading.order, reading.tiles, slots), (0, 1, [3, 0]));
/// // The entry of account 3 a second time: its account is not above the one ahead of it.
/// let twice = [0, 0, 0, 0, 1, 0, 0, 0, 3, 2, 3, 0, 0, 0, 1, 3, 0, 0, 0, 1];
/// assert_eq!(raw::read(&twice, &mut slots).number, 54);
/// ```
#[must_use]
pub fn read(file: &[u8], slots: &mut [u32]) -> Reading {
    unsafe { kb_read(file.as_ptr(), file.len(), slots.as_mut_ptr(), slots.len()) }
}

#[cfg(test)]
mod tests {
    use super::*;
    use core::ptr::null_mut;

    /// An empty slice may come with any pointer, so with none.
    #[test]
    fn null_pointers_of_length_zero() {
        unsafe {
            assert_eq!(kb_check(10, 0, null_mut(), 0), 0);
            assert_eq!(kb_check(10, 1, null_mut(), 0), 2);
            assert_eq!(kb_fresh(0, 3, null_mut(), 0), Fresh { number: 0, kind: 0, order: 3, pixels: 0, tiles: 0 });
            let fed = |number, taken, pixels| Fed { number, taken, kind: 1, order: 1, pixels, tiles: 0 };
            assert_eq!(kb_feed(1, 1, 2, 0, null_mut(), 0, null_mut(), 0), fed(0, 0, 2));
            assert_eq!(kb_feed(1, 1, 2, 0, null_mut(), 0, [0, 5].as_ptr(), 2), fed(25, 1, 3));
            assert_eq!(kb_decode(0, 0, null_mut(), 0, null_mut(), 0), 33);
            let found = |number, size| Found { number, account: 0, corner: 0, size };
            assert_eq!(kb_lookup(0, 10, 1 << 20, 0, null_mut(), 0, 1023, 1023), found(0, 10));
            assert_eq!(kb_lookup(0, 10, (1 << 20) - 1, 0, null_mut(), 0, 1023, 1023), found(52, 0));
            assert_eq!(kb_part(10, 0, null_mut(), 0, 4, 1), Part { number: 0, position: 0, length: 0 });
            let right = |yes| Right { number: 0, yes };
            assert_eq!(kb_rights(null_mut(), 0, 0, 0, 1, 0, null_mut(), 0, 0, 0, 8), right(1));
            assert_eq!(kb_rights(null_mut(), 0, 0, 0, 1, 0, null_mut(), 0, 0, 0, 48), right(0));
            let claimed = |number| Claimed { number, tiles: 0 };
            assert_eq!(kb_claim(0, 0, 1, 0, null_mut(), 0, 0, 0, 8), claimed(25));
            assert_eq!(kb_claim(0, 0, 1, 0, null_mut(), 0, 0, 0, 0), claimed(0));
            assert_eq!(kb_preview(0, 0, 1, 0, null_mut(), 0, 0, 0, 8), claimed(25));
            assert_eq!(kb_preview(0, 0, 1, 0, null_mut(), 0, 0, 0, 0), claimed(0));
            let combined = |number| Combined { number, tiles: 0 };
            assert_eq!(kb_combine(0, 10, 0, null_mut(), 0, 10, 0, null_mut(), 0, null_mut(), 0), combined(0));
            assert_eq!(kb_combine(0, 10, 0, null_mut(), 0, 10, 1, null_mut(), 0, null_mut(), 0), combined(2));
            assert_eq!(kb_combine(1, 0, 1, [7].as_ptr(), 1, 0, 0, null_mut(), 0, null_mut(), 0), combined(25));
            assert_eq!(kb_write(0, 0, 1, 0, null_mut(), 0, null_mut(), 0), Written { number: 26, length: 0 });
            assert_eq!(kb_read(null_mut(), 0, null_mut(), 0), Reading { number: 41, order: 0, tiles: 0 });
            assert_eq!(
                kb_read([4, 0, 0, 0, 0, 0].as_ptr(), 6, null_mut(), 0),
                Reading { number: 0, order: 4, tiles: 0 }
            );
        }
    }
}
