//! Tiles, and the iterators that yield them.

use crate::bed::pixels_of;
use crate::{raw, Account, Block, Kind, Pixel, Refusal};
use core::fmt;
use core::iter::FusedIterator;
use core::slice;

/// A block of one account, as a word of a list says it.
///
/// ```
/// use kingletbed::{Account, Bed, Kind};
/// let mut bed = Bed::fresh(Kind::Rows, 0, [0; 1])?;
/// bed.feed(&[9])?;
/// let tile = bed.tiles().next().expect("one tile");
/// assert_eq!((tile.corner(), tile.size(), tile.account()), (0, 0, Account(9)));
/// # Ok::<(), kingletbed::Refusal>(())
/// ```
#[derive(Clone, Copy, PartialEq, Eq, Hash)]
pub struct Tile {
    word: u32,
}

impl Tile {
    /// What a word says, for every word. Only a bed's own words are known to be tiles of a bed.
    ///
    /// ```
    /// use kingletbed::{Account, Block, Tile};
    /// let tile = Tile::of_word(12361);
    /// assert_eq!((tile.block(), tile.account()), (Block { corner: 12, size: 1 }, Account(9)));
    /// ```
    #[must_use]
    pub const fn of_word(word: u32) -> Tile {
        Tile { word }
    }

    /// The tile that has all of a block, with an account from 1 on: what a claim of it leaves on a bed that is wholly
    /// scanned and where there is nothing else.
    pub(crate) fn over(order: u32, block: Block, account: Account) -> Result<Tile, Refusal> {
        let (mut slot, kind) = ([0], Kind::Rows.number());
        let answer = raw::claim(kind, order, pixels_of(order), 0, &mut slot, block.corner, block.size, account.0);
        Refusal::outcome(answer.number)?;
        let [word] = slot;
        Ok(Tile { word })
    }

    /// The word itself: corner in bits 29 to 10, size in bits 9 to 6, account in bits 5 to 0.
    ///
    /// ```
    /// assert_eq!(kingletbed::Tile::of_word(12361).word(), 12361);
    /// ```
    #[must_use]
    pub const fn word(self) -> u32 {
        self.word
    }

    /// The Morton number of the tile's north-west pixel.
    ///
    /// ```
    /// assert_eq!(kingletbed::Tile::of_word(12361).corner(), 12);
    /// ```
    #[must_use]
    pub fn corner(self) -> u32 {
        raw::tile_corner(self.word)
    }

    /// The power of two that is the tile's width and height.
    ///
    /// ```
    /// assert_eq!(kingletbed::Tile::of_word(12361).size(), 1);
    /// ```
    #[must_use]
    pub fn size(self) -> u32 {
        raw::tile_size(self.word)
    }

    /// Whose the tile is.
    ///
    /// ```
    /// use kingletbed::{Account, Tile};
    /// assert_eq!(Tile::of_word(12361).account(), Account(9));
    /// ```
    #[must_use]
    pub fn account(self) -> Account {
        Account(raw::tile_account(self.word))
    }

    /// The tile's block.
    ///
    /// ```
    /// use kingletbed::{Block, Tile};
    /// assert_eq!(Tile::of_word(12361).block(), Block { corner: 12, size: 1 });
    /// ```
    #[must_use]
    pub fn block(self) -> Block {
        Block { corner: self.corner(), size: self.size() }
    }

    /// The tile's north-west pixel. No tile of a bed is refused.
    ///
    /// ```
    /// use kingletbed::{Pixel, Tile};
    /// assert_eq!(Tile::of_word(12361).pixel(), Ok(Pixel { column: 2, row: 2 }));
    /// ```
    pub fn pixel(self) -> Result<Pixel, Refusal> {
        self.block().pixel()
    }

    /// The tile's width and height in pixels. No tile of a bed is refused.
    ///
    /// ```
    /// assert_eq!(kingletbed::Tile::of_word(12361).side(), Ok(2));
    /// ```
    pub fn side(self) -> Result<u32, Refusal> {
        self.block().side()
    }
}

impl fmt::Debug for Tile {
    fn fmt(&self, f: &mut fmt::Formatter) -> fmt::Result {
        f.debug_struct("Tile")
            .field("corner", &self.corner())
            .field("size", &self.size())
            .field("account", &self.account().0)
            .finish()
    }
}

/// The tiles of a bed by rising corner, from [`Bed::tiles`](crate::Bed::tiles).
///
/// ```
/// use kingletbed::{Bed, Tiles};
/// let bed = Bed::from_slots(2, 4, [69, 7177, 8201, 12361])?;
/// let mut tiles: Tiles = bed.tiles();
/// assert_eq!(tiles.len(), 4);
/// assert_eq!(tiles.next_back().map(|tile| tile.corner()), Some(12));
/// # Ok::<(), kingletbed::Refusal>(())
/// ```
#[derive(Clone)]
#[must_use = "an iterator does nothing until it is asked"]
pub struct Tiles<'a> {
    words: slice::Iter<'a, u32>,
}

impl<'a> Tiles<'a> {
    pub(crate) fn of_words(words: &'a [u32]) -> Tiles<'a> {
        Tiles { words: words.iter() }
    }
}

impl Iterator for Tiles<'_> {
    type Item = Tile;

    fn next(&mut self) -> Option<Tile> {
        self.words.next().copied().map(Tile::of_word)
    }

    fn size_hint(&self) -> (usize, Option<usize>) {
        self.words.size_hint()
    }

    fn nth(&mut self, skipped: usize) -> Option<Tile> {
        self.words.nth(skipped).copied().map(Tile::of_word)
    }
}

impl DoubleEndedIterator for Tiles<'_> {
    fn next_back(&mut self) -> Option<Tile> {
        self.words.next_back().copied().map(Tile::of_word)
    }
}

impl fmt::Debug for Tiles<'_> {
    fn fmt(&self, f: &mut fmt::Formatter) -> fmt::Result {
        f.debug_list().entries(self.clone()).finish()
    }
}

impl ExactSizeIterator for Tiles<'_> {}
impl FusedIterator for Tiles<'_> {}

/// What a block shows, by rising corner, from [`Bed::shown`](crate::Bed::shown): the tiles inside it, or the one over
/// all of it, cut to it. The rest of the block is nobody's, or not scanned yet.
///
/// ```
/// use kingletbed::{Bed, Block, Shown};
/// let bed = Bed::from_slots(2, 4, [69, 7177, 8201, 12361])?;
/// let shown: Shown = bed.shown(Block { corner: 13, size: 0 })?;
/// assert_eq!(shown.map(|tile| tile.block()).collect::<Vec<_>>(), [Block { corner: 13, size: 0 }]);
/// # Ok::<(), kingletbed::Refusal>(())
/// ```
#[derive(Clone, Debug)]
#[must_use = "an iterator does nothing until it is asked"]
pub struct Shown<'a> {
    /// The tiles inside the block; none when `over` is one.
    inside: Tiles<'a>,
    /// The tile over all of the block, cut to it.
    over: Option<Tile>,
}

impl<'a> Shown<'a> {
    pub(crate) fn new(inside: Tiles<'a>, over: Option<Tile>) -> Shown<'a> {
        Shown { inside, over }
    }
}

impl Iterator for Shown<'_> {
    type Item = Tile;

    fn next(&mut self) -> Option<Tile> {
        self.inside.next().or_else(|| self.over.take())
    }

    fn size_hint(&self) -> (usize, Option<usize>) {
        let length = self.inside.len().saturating_add(usize::from(self.over.is_some()));
        (length, Some(length))
    }
}

impl DoubleEndedIterator for Shown<'_> {
    fn next_back(&mut self) -> Option<Tile> {
        self.over.take().or_else(|| self.inside.next_back())
    }
}

impl ExactSizeIterator for Shown<'_> {}
impl FusedIterator for Shown<'_> {}
