//! Pixels and blocks, and what a lookup finds. Their numbers come from the library.

use crate::{mils, raw, Account, Refusal, HIGHEST_ORDER};

/// A pixel of a bed; column and row count from 0 at the north-west.
///
/// ```
/// use kingletbed::Pixel;
/// let pixel = Pixel { column: 2, row: 1 };
/// assert_eq!(Pixel::of_morton(2, pixel.morton(2)?)?, pixel);
/// # Ok::<(), kingletbed::Refusal>(())
/// ```
#[derive(Clone, Copy, Debug, PartialEq, Eq, Hash)]
pub struct Pixel {
    /// Eastward.
    pub column: u32,
    /// Southward.
    pub row: u32,
}

impl Pixel {
    /// The pixel's Morton number on a bed of an order: the bits of row and column taken in turn.
    ///
    /// ```
    /// use kingletbed::{Pixel, Refusal};
    /// assert_eq!(Pixel { column: 2, row: 1 }.morton(2), Ok(6));
    /// assert_eq!(Pixel { column: 5, row: 0 }.morton(3), Ok(17));
    /// assert_eq!(Pixel { column: 5, row: 0 }.morton(2), Err(Refusal::PointOutside));
    /// ```
    pub fn morton(self, order: u32) -> Result<u32, Refusal> {
        let answer = raw::morton(order, self.column, self.row);
        Refusal::outcome(answer.number)?;
        Ok(answer.morton)
    }

    /// The pixel with a Morton number on a bed of an order.
    ///
    /// ```
    /// use kingletbed::{Pixel, Refusal};
    /// assert_eq!(Pixel::of_morton(2, 6), Ok(Pixel { column: 2, row: 1 }));
    /// assert_eq!(Pixel::of_morton(2, 16), Err(Refusal::BlockInvalid));
    /// ```
    pub fn of_morton(order: u32, morton: u32) -> Result<Pixel, Refusal> {
        let answer = raw::point(order, morton);
        Refusal::outcome(answer.number)?;
        Ok(Pixel { column: answer.column, row: answer.row })
    }

    /// The pixel at a position in [mils](crate::mils), its column and its row each as text, on a bed of an order.
    ///
    /// ```
    /// use kingletbed::{Pixel, Refusal};
    /// assert_eq!(Pixel::at_mils(3, b"123.45", b"67.80"), Ok(Pixel { column: 7, row: 4 }));
    /// assert_eq!(Pixel::at_mils(2, b"123.45", b"67.80"), Err(Refusal::PositionInvalid));
    /// ```
    pub fn at_mils(order: u32, column: &[u8], row: &[u8]) -> Result<Pixel, Refusal> {
        Ok(Pixel { column: mils::pixel(order, column)?, row: mils::pixel(order, row)? })
    }
}

/// A square of 2^size by 2^size pixels; its corner is the Morton number of its north-west pixel, a multiple of 4^size.
/// Any two numbers may stand here: a call that is handed a block checks it.
///
/// ```
/// use kingletbed::{Bed, Block, Kind, Refusal};
/// let bed = Bed::fresh(Kind::Rows, 2, [0; 16])?;
/// assert!(bed.part(Block { corner: 4, size: 1 }).is_ok());
/// assert_eq!(bed.part(Block { corner: 5, size: 1 }), Err(Refusal::BlockInvalid));
/// # Ok::<(), kingletbed::Refusal>(())
/// ```
#[derive(Clone, Copy, Debug, PartialEq, Eq, Hash)]
pub struct Block {
    /// The Morton number of the north-west pixel.
    pub corner: u32,
    /// The power of two that is its width and height.
    pub size: u32,
}

impl Block {
    /// The block of a size that has the pixel in it, on a bed of an order.
    ///
    /// ```
    /// use kingletbed::{Block, Pixel, Refusal};
    /// let pixel = Pixel { column: 3, row: 1 };
    /// assert_eq!(Block::around(2, pixel, 1), Ok(Block { corner: 4, size: 1 }));
    /// assert_eq!(Block::around(1, pixel, 1), Err(Refusal::PointOutside));
    /// assert_eq!(Block::around(2, pixel, 3), Err(Refusal::BlockInvalid));
    /// ```
    pub fn around(order: u32, pixel: Pixel, size: u32) -> Result<Block, Refusal> {
        let answer = raw::block(order, pixel.column, pixel.row, size);
        Refusal::outcome(answer.number)?;
        Ok(Block { corner: answer.corner, size: answer.size })
    }

    /// The block that is the whole bed of an order.
    ///
    /// ```
    /// use kingletbed::Block;
    /// assert_eq!(Block::whole(3), Block { corner: 0, size: 3 });
    /// ```
    #[must_use]
    pub const fn whole(order: u32) -> Block {
        Block { corner: 0, size: order }
    }

    /// Whether a pixel lies in the block. None lies in what is no block, or off the largest bed.
    ///
    /// ```
    /// use kingletbed::{Block, Pixel};
    /// let block = Block { corner: 12, size: 1 }; // columns 2 and 3 of rows 2 and 3
    /// assert!(block.has(Pixel { column: 3, row: 2 }));
    /// assert!(!block.has(Pixel { column: 4, row: 2 }));
    /// assert!(!Block { corner: 13, size: 1 }.has(Pixel { column: 3, row: 2 }));
    /// ```
    #[must_use]
    #[doc(alias = "contains")]
    pub fn has(self, pixel: Pixel) -> bool {
        Block::around(HIGHEST_ORDER, pixel, self.size) == Ok(self)
    }

    /// The block's north-west pixel.
    ///
    /// ```
    /// use kingletbed::{Block, Pixel};
    /// assert_eq!(Block { corner: 12, size: 1 }.pixel(), Ok(Pixel { column: 2, row: 2 }));
    /// ```
    pub fn pixel(self) -> Result<Pixel, Refusal> {
        Pixel::of_morton(HIGHEST_ORDER, self.corner)
    }

    /// The block's width and height in pixels.
    ///
    /// ```
    /// use kingletbed::{Block, Refusal};
    /// assert_eq!(Block { corner: 12, size: 1 }.side(), Ok(2));
    /// assert_eq!(Block { corner: 0, size: 11 }.side(), Err(Refusal::OrderTooLarge));
    /// ```
    pub fn side(self) -> Result<u32, Refusal> {
        let answer = raw::extent(self.size);
        Refusal::outcome(answer.number)?;
        Ok(answer.side)
    }
}

/// What a lookup finds at a pixel, from [`Bed::lookup`](crate::Bed::lookup).
///
/// ```
/// use kingletbed::{Account, Bed, Block, Found, Pixel};
/// let bed = Bed::from_slots(2, 1, [71])?;
/// let found: Found = bed.lookup(Pixel { column: 1, row: 0 })?;
/// assert_eq!(found, Found { account: Account(7), block: Block { corner: 0, size: 1 } });
/// # Ok::<(), kingletbed::Refusal>(())
/// ```
#[derive(Clone, Copy, Debug, PartialEq, Eq, Hash)]
pub struct Found {
    /// Whose the pixel is.
    pub account: Account,
    /// The largest block with the pixel in it that is all of this account and wholly scanned: the pixel's tile, or for
    /// nobody's pixel the largest block that is wholly nobody's and wholly scanned, the free block around it.
    pub block: Block,
}
