//! The raw calls that are handed no map: extents, Morton numbers, blocks, points, the fields of a word, positions in
//! mils, and the load of a table of rights. Why they are safe stands with the others.

use super::{Around, Extent, MilsH, MilsPixel, MilsText, Morton, Point};

#[rustfmt::skip]
extern "C" {
    fn kb_extent(order: u32) -> Extent;
    fn kb_morton(order: u32, column: u32, row: u32) -> Morton;
    fn kb_block(order: u32, column: u32, row: u32, size: u32) -> Around;
    fn kb_point(order: u32, morton: u32) -> Point;
    fn kb_tile_corner(word: u32) -> u32;
    fn kb_tile_size(word: u32) -> u32;
    fn kb_tile_account(word: u32) -> u8;
    fn kb_mils_pixel(order: u32, text: *const u8, text_length: usize) -> MilsPixel;
    fn kb_mils_h(order: u32, pixel: u32) -> MilsH;
    fn kb_mils_text(order: u32, pixel: u32, text: *mut u8, text_length: usize) -> MilsText;
    fn kb_load(file: *const u8, file_length: usize, table: *mut u8, table_length: usize) -> u32;
}

/// `kb_extent`. 2^order and 4^order: the columns and the pixels of a bed of an order, or of a block of a size.
///
/// ```
/// use kingletbed::raw;
/// let extent = raw::extent(3);
/// assert_eq!((extent.side, extent.pixels), (8, 64));
/// assert_eq!(raw::extent(11).number, 1);
/// ```
#[must_use]
pub fn extent(order: u32) -> Extent {
    unsafe { kb_extent(order) }
}

/// `kb_morton`. The Morton number of a point.
///
/// ```
/// use kingletbed::raw;
/// assert_eq!(raw::morton(2, 2, 1).morton, 6);
/// assert_eq!(raw::morton(2, 4, 1).number, 31);
/// ```
#[must_use]
pub fn morton(order: u32, column: u32, row: u32) -> Morton {
    unsafe { kb_morton(order, column, row) }
}

/// `kb_block`. The block of a size that has a point in it.
///
/// ```
/// use kingletbed::raw;
/// let block = raw::block(2, 3, 1, 1);
/// assert_eq!((block.corner, block.size), (4, 1));
/// assert_eq!(raw::block(2, 3, 1, 3).number, 32);
/// ```
#[must_use]
pub fn block(order: u32, column: u32, row: u32, size: u32) -> Around {
    unsafe { kb_block(order, column, row, size) }
}

/// `kb_point`. The point of a Morton number.
///
/// ```
/// use kingletbed::raw;
/// let point = raw::point(2, 6);
/// assert_eq!((point.column, point.row), (2, 1));
/// assert_eq!(raw::point(2, 16).number, 32);
/// ```
#[must_use]
pub fn point(order: u32, morton: u32) -> Point {
    unsafe { kb_point(order, morton) }
}

/// `kb_tile_corner`. The corner that a word says, for every word.
///
/// ```
/// use kingletbed::raw;
/// assert_eq!(raw::tile_corner(12361), 12);
/// ```
#[must_use]
pub fn tile_corner(word: u32) -> u32 {
    unsafe { kb_tile_corner(word) }
}

/// `kb_tile_size`. The size that a word says, for every word.
///
/// ```
/// use kingletbed::raw;
/// assert_eq!(raw::tile_size(12361), 1);
/// ```
#[must_use]
pub fn tile_size(word: u32) -> u32 {
    unsafe { kb_tile_size(word) }
}

/// `kb_tile_account`. The account that a word says, for every word.
///
/// ```
/// use kingletbed::raw;
/// assert_eq!(raw::tile_account(12361), 9);
/// ```
#[must_use]
pub fn tile_account(word: u32) -> u8 {
    unsafe { kb_tile_account(word) }
}

/// `kb_mils_pixel`. The column or row of a position in mils; the text is all bytes of the slice.
///
/// ```
/// use kingletbed::raw;
/// assert_eq!(raw::mils_pixel(10, b"16125.98").pixel, 1023);
/// assert_eq!(raw::mils_pixel(10, b"16125.99").number, 53); // off the bed
/// assert_eq!(raw::mils_pixel(10, b"1.00\n").number, 53); // another form
/// ```
#[must_use]
pub fn mils_pixel(order: u32, text: &[u8]) -> MilsPixel {
    unsafe { kb_mils_pixel(order, text.as_ptr(), text.len()) }
}

/// `kb_mils_h`. The smallest position of a column or row, in hundredths of a mil.
///
/// ```
/// use kingletbed::raw;
/// assert_eq!(raw::mils_h(10, 1023).h, 1_611_024);
/// assert_eq!(raw::mils_h(9, 1023).number, 31);
/// ```
#[must_use]
pub fn mils_h(order: u32, pixel: u32) -> MilsH {
    unsafe { kb_mils_h(order, pixel) }
}

/// `kb_mils_text`. Puts the text of the smallest position of a column or row, 4 to 8 bytes, at the front of those lent,
/// and leaves the others.
///
/// ```
/// use kingletbed::raw;
/// let mut text = *b"---------";
/// let put = raw::mils_text(10, 1023, &mut text);
/// assert_eq!((put.length, &text), (8, b"16110.24-"));
/// assert_eq!(raw::mils_text(10, 1023, &mut text[..7]).number, 26);
/// ```
#[must_use]
pub fn mils_text(order: u32, pixel: u32, text: &mut [u8]) -> MilsText {
    unsafe { kb_mils_text(order, pixel, text.as_mut_ptr(), text.len()) }
}

/// `kb_load`. Loads a table of rights from a file, a count of 15 and 15 bytes, to the table in force, 15 bytes.
/// Refused, that stays as it was, whatever it held.
///
/// ```
/// use kingletbed::raw;
/// let mut table = [0; 15];
/// assert_eq!(raw::load(&[15, 1, 1, 1, 1, 0, 1, 1, 0, 0, 0, 1, 1, 0, 0, 0], &mut table), 0);
/// assert_eq!(table, [1, 1, 1, 1, 0, 1, 1, 0, 0, 0, 1, 1, 0, 0, 0]);
/// assert_eq!(raw::load(&[14; 15], &mut table), 55);
/// assert_eq!(raw::load(&[15, 1, 1, 1, 1, 0, 1, 0, 0, 0, 0, 1, 1, 0, 0, 0], &mut table), 56);
/// assert_eq!(table, [1, 1, 1, 1, 0, 1, 1, 0, 0, 0, 1, 1, 0, 0, 0]);
/// ```
#[must_use]
pub fn load(file: &[u8], table: &mut [u8]) -> u32 {
    unsafe { kb_load(file.as_ptr(), file.len(), table.as_mut_ptr(), table.len()) }
}

#[cfg(test)]
mod tests {
    use super::*;
    use core::ptr::null_mut;

    /// An empty slice may come with any pointer, so with none.
    #[test]
    fn null_pointers_of_length_zero() {
        unsafe {
            assert_eq!(kb_mils_pixel(10, null_mut(), 0), MilsPixel { number: 53, pixel: 0 });
            let put = |number| MilsText { number, length: 0 };
            assert_eq!(kb_mils_text(10, 1023, null_mut(), 0), put(26));
            assert_eq!(kb_mils_text(10, 1024, null_mut(), 0), put(31));
            assert_eq!(kb_load(null_mut(), 0, null_mut(), 0), 55);
            assert_eq!(kb_load(null_mut(), 0, [0; 15].as_mut_ptr(), 15), 55);
            assert_eq!(kb_load([1; 16].as_ptr(), 16, null_mut(), 0), 55);
        }
    }
}
