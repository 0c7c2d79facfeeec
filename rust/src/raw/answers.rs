//! The answers of the raw calls, field by field as the C header has them. `kb_check`, `kb_decode` and `kb_load` answer
//! the number alone, the fields of a word come alone too.

/// `kb_fresh_answer`.
#[repr(C)]
#[derive(Clone, Copy, Debug, PartialEq, Eq)]
pub struct Fresh {
    /// 0, or the number of the first check broken.
    pub number: u32,
    /// 0 by rows, 1 in Morton order.
    pub kind: u32,
    /// The order.
    pub order: u32,
    /// The pixels scanned.
    pub pixels: u32,
    /// The tile count.
    pub tiles: usize,
}

/// `kb_feed_answer`.
#[repr(C)]
#[derive(Clone, Copy, Debug, PartialEq, Eq)]
pub struct Fed {
    /// 0, or the number of the first check broken.
    pub number: u32,
    /// The accounts taken.
    pub taken: usize,
    /// 0 by rows, 1 in Morton order.
    pub kind: u32,
    /// The order.
    pub order: u32,
    /// The pixels scanned.
    pub pixels: u32,
    /// The tile count.
    pub tiles: usize,
}

/// `kb_lookup_answer`: in numbers what [`Found`](crate::Found) says.
#[repr(C)]
#[derive(Clone, Copy, Debug, PartialEq, Eq)]
pub struct Found {
    /// 0, or the number of the first check broken.
    pub number: u32,
    /// The account, 0 for nobody.
    pub account: u8,
    /// The corner of the block found.
    pub corner: u32,
    /// Its size.
    pub size: u32,
}

/// `kb_part_answer`.
#[repr(C)]
#[derive(Clone, Copy, Debug, PartialEq, Eq)]
pub struct Part {
    /// 0, or the number of the first check broken.
    pub number: u32,
    /// The first tile of the part.
    pub position: usize,
    /// The length.
    pub length: usize,
}

/// `kb_rights_answer`.
#[repr(C)]
#[derive(Clone, Copy, Debug, PartialEq, Eq)]
pub struct Right {
    /// 0, or the number of the first check broken.
    pub number: u32,
    /// 1 for yes, 0 for no.
    pub yes: u8,
}

/// `kb_claim_answer`, and `kb_preview_answer`, which has the same fields.
#[repr(C)]
#[derive(Clone, Copy, Debug, PartialEq, Eq)]
pub struct Claimed {
    /// 0, or the number of the first check broken.
    pub number: u32,
    /// The tile count.
    pub tiles: usize,
}

/// `kb_combine_answer`.
#[repr(C)]
#[derive(Clone, Copy, Debug, PartialEq, Eq)]
pub struct Combined {
    /// 0, or the number of the first check broken.
    pub number: u32,
    /// The third map's tile count.
    pub tiles: usize,
}

/// `kb_write_answer`.
#[repr(C)]
#[derive(Clone, Copy, Debug, PartialEq, Eq)]
pub struct Written {
    /// 0, or the number of the first check broken.
    pub number: u32,
    /// The length.
    pub length: usize,
}

/// `kb_read_answer`.
#[repr(C)]
#[derive(Clone, Copy, Debug, PartialEq, Eq)]
pub struct Reading {
    /// 0, or the number of the first check broken.
    pub number: u32,
    /// The order.
    pub order: u32,
    /// The tile count.
    pub tiles: usize,
}

/// `kb_extent_answer`.
#[repr(C)]
#[derive(Clone, Copy, Debug, PartialEq, Eq)]
pub struct Extent {
    /// 0, or the number of the first check broken.
    pub number: u32,
    /// 2^order.
    pub side: u32,
    /// 4^order.
    pub pixels: u32,
}

/// `kb_morton_answer`.
#[repr(C)]
#[derive(Clone, Copy, Debug, PartialEq, Eq)]
pub struct Morton {
    /// 0, or the number of the first check broken.
    pub number: u32,
    /// The Morton number.
    pub morton: u32,
}

/// `kb_block_answer`.
#[repr(C)]
#[derive(Clone, Copy, Debug, PartialEq, Eq)]
pub struct Around {
    /// 0, or the number of the first check broken.
    pub number: u32,
    /// The corner.
    pub corner: u32,
    /// The size.
    pub size: u32,
}

/// `kb_point_answer`.
#[repr(C)]
#[derive(Clone, Copy, Debug, PartialEq, Eq)]
pub struct Point {
    /// 0, or the number of the first check broken.
    pub number: u32,
    /// The column.
    pub column: u32,
    /// The row.
    pub row: u32,
}

/// `kb_mils_pixel_answer`.
#[repr(C)]
#[derive(Clone, Copy, Debug, PartialEq, Eq)]
pub struct MilsPixel {
    /// 0, or the number of the first check broken.
    pub number: u32,
    /// The column or the row.
    pub pixel: u32,
}

/// `kb_mils_h_answer`.
#[repr(C)]
#[derive(Clone, Copy, Debug, PartialEq, Eq)]
pub struct MilsH {
    /// 0, or the number of the first check broken.
    pub number: u32,
    /// The hundredths of a mil.
    pub h: u32,
}

/// `kb_mils_text_answer`.
#[repr(C)]
#[derive(Clone, Copy, Debug, PartialEq, Eq)]
pub struct MilsText {
    /// 0, or the number of the first check broken.
    pub number: u32,
    /// The length.
    pub length: usize,
}
