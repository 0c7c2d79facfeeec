//! The bed: what it holds, how it is made and how it is changed.

use crate::{raw, Account, Block, Choice, Kind, Refusal, Stopped, Tile, Tiles};
use core::fmt;

/// A bed map together with the slots that it is kept in, by value or by borrow. It cannot go stale: while a bed lives
/// nothing else writes its slots, and every change goes through it.
///
/// Slots are anything that gives words: `[u32; N]`, `Vec<u32>`, `Box<[u32]>`, `&mut [u32]`; a bed that is only asked
/// may have them by `&[u32]`. A bed of t tiles needs t slots, a scan as many as it has on the way, and 4^order always
/// suffice. Slots of a make of your own must give the same words until the bed writes them. If they do not, a call
/// answers for the words that it was given, or refuses them; none panics.
///
/// Where the making of a bed is refused, slots handed over by value are gone; lent by `&mut` they are as they were.
///
/// A bed is made by [`fresh`](Bed::fresh) and filled by [`feed`](Bed::feed), [`read`](Bed::read) from a file, made of
/// two others by [`combine`](Bed::combine), or made of slots that have its list already, by
/// [`from_slots`](Bed::from_slots) if it is wholly scanned and else by [`from_scan`](Bed::from_scan). A scan that has
/// come to its end and a map read from a file are the same thing, a bed that [`is_scanned`](Bed::is_scanned).
///
/// Ground that the scan has not reached is not free. A pixel that is not scanned yet, and a block that has one, are
/// refused as [`Refusal::Unscanned`] by [`lookup`](Bed::lookup), [`rights`](Bed::rights), [`claim`](Bed::claim),
/// [`release`](Bed::release) and [`preview`](Bed::preview), and a bed that has one by [`write`](Bed::write):
///
/// ```
/// use kingletbed::{Account, Bed, Block, Kind, Pixel, Refusal};
/// let mut bed = Bed::fresh(Kind::Rows, 1, [0; 4])?;
/// bed.feed(&[0, 0, 0])?;
/// assert_eq!(bed.lookup(Pixel { column: 0, row: 1 })?.account, Account::NOBODY);
/// assert_eq!(bed.lookup(Pixel { column: 1, row: 1 }), Err(Refusal::Unscanned));
/// assert_eq!(bed.claim(Block::whole(1), Account(9)), Err(Refusal::Unscanned));
/// assert_eq!(bed.write(&mut [0; 40]), Err(Refusal::Unscanned));
/// bed.feed(&[9])?;
/// assert_eq!(bed.lookup(Pixel { column: 1, row: 1 })?.account, Account(9));
/// bed.claim(Block::whole(1), Account(9))?;
/// assert_eq!(bed.write(&mut [0; 40]), Ok(15));
/// # Ok::<(), kingletbed::Refusal>(())
/// ```
///
/// The other examples use this bed of order 2, with these tiles:
///
/// ```text
/// 5 5 0 0        corner  0  size 1  account 5    word    69
/// 5 5 0 9        corner  7  size 0  account 9    word  7177
/// 9 0 9 9        corner  8  size 0  account 9    word  8201
/// 0 0 9 9        corner 12  size 1  account 9    word 12361
/// ```
///
/// A bed cannot be changed while its words are borrowed. This compiles without its last line:
///
/// ```compile_fail,E0502
/// # use kingletbed::{Account, Bed, Block};
/// let mut bed = Bed::from_slots(2, 4, vec![69, 7177, 8201, 12361]).unwrap();
/// let words = bed.words();
/// bed.claim(Block::whole(2), Account(8)).unwrap();
/// println!("{words:?}");
/// ```
///
/// Nor can slots that it borrows be written behind its back:
///
/// ```compile_fail,E0506
/// # use kingletbed::{Bed, Kind};
/// let mut slots = [0; 16];
/// let mut bed = Bed::fresh(Kind::Rows, 2, &mut slots).unwrap();
/// slots[0] = 69;
/// bed.feed(&[5]).unwrap();
/// ```
///
/// Two beds are equal that have one order and the same tiles, so that show the same accounts; neither the slots behind
/// the list count, nor how a bed was scanned and how far: what is not scanned compares as nobody's.
///
/// ```
/// use kingletbed::{Bed, Kind};
/// let mut fives = Bed::fresh(Kind::Rows, 1, [0; 4])?;
/// let mut nines = Bed::fresh(Kind::Rows, 1, [0; 4])?;
/// assert_eq!(fives, nines);
/// fives.feed(&[5, 5, 5, 5])?;
/// nines.feed(&[9, 9, 9, 9])?;
/// assert_ne!(fives, nines);
/// assert_eq!(fives, Bed::from_slots(1, 1, &[69][..])?);
/// # Ok::<(), kingletbed::Refusal>(())
/// ```
#[derive(Clone)]
#[must_use = "the bed is what its slots mean"]
pub struct Bed<S> {
    pub(crate) kind: Kind,
    pub(crate) order: u32,
    /// The pixels scanned, at most 4^order; every tile lies on them.
    pub(crate) scanned: u32,
    /// The tile count. That of a list which the library made or checked, so at most 4^order.
    pub(crate) tiles: usize,
    pub(crate) slots: S,
}

/// 4^order, of an order or a size; 0 of one that is above 10.
pub(crate) fn pixels_of(order: u32) -> u32 {
    raw::extent(order).pixels
}

impl<S: AsRef<[u32]> + AsMut<[u32]>> Bed<S> {
    /// Begins a scan: no pixel, no tile, all slots 0. An order above 10 is refused.
    ///
    /// ```
    /// use kingletbed::{Bed, Kind};
    /// let bed = Bed::fresh(Kind::Morton, 1, [7; 4])?;
    /// assert_eq!((bed.kind(), bed.order(), bed.scanned()), (Kind::Morton, 1, 0));
    /// assert_eq!(bed.into_slots(), [0; 4]);
    /// # Ok::<(), kingletbed::Refusal>(())
    /// ```
    pub fn fresh(kind: Kind, order: u32, mut slots: S) -> Result<Bed<S>, Refusal> {
        let answer = raw::fresh(kind.number(), order, slots.as_mut());
        Refusal::outcome(answer.number)?;
        Ok(Bed { kind, order: answer.order, scanned: answer.pixels, tiles: answer.tiles, slots })
    }

    /// Reads a file's list to the slots, and sets those behind it to 0. The bed is by rows, with every pixel scanned.
    /// The file's roster must list the accounts on the bed and no others, each with the number of its pixels, by rising
    /// account, as [`write`](Bed::write) does. Two files that are read have the same bytes exactly if their beds are
    /// equal, and a bed that was read is written as its file was.
    ///
    /// ```
    /// use kingletbed::{Bed, Refusal};
    /// // order 0, one tile of account 3 on its pixel, a roster of one entry
    /// let file = [0, 0, 0, 0, 1, 0, 0, 0, 3, 1, 3, 0, 0, 0, 1];
    /// let mut slots = [7; 2];
    /// assert_eq!(Bed::read(&file[..14], &mut slots), Err(Refusal::FileCutShort));
    /// assert_eq!(slots, [7, 7]);
    /// let bed = Bed::read(&file, &mut slots)?;
    /// assert!(bed.is_scanned());
    /// assert_eq!(bed.slots(), [3, 0]);
    ///
    /// // order 1, two tiles of accounts 3 and 7, and entries for 7 and 3: they do not rise
    /// let file = [1, 0, 0, 0, 2, 0, 0, 0, 3, 0, 0, 4, 7, 2, 7, 0, 0, 0, 1, 3, 0, 0, 0, 1];
    /// assert_eq!(Bed::read(&file, [0; 4]), Err(Refusal::RosterUnsorted));
    /// # Ok::<(), kingletbed::Refusal>(())
    /// ```
    pub fn read(file: &[u8], mut slots: S) -> Result<Bed<S>, Refusal> {
        let answer = raw::read(file, slots.as_mut());
        Refusal::outcome(answer.number)?;
        Ok(Bed { kind: Kind::Rows, order: answer.order, scanned: pixels_of(answer.order), tiles: answer.tiles, slots })
    }

    /// Makes a third bed of two of one order: the first's pixels where the second is somebody's, or where it is
    /// nobody's; one that the second has not scanned counts as nobody's there. The slots then hold the third bed's
    /// list, and 0 behind it. Its scan is the first's, of that kind and as far: all that it holds is held there, and
    /// what the first has not scanned is not scanned on the third either. Orders that differ are refused, and too few
    /// slots.
    ///
    /// ```
    /// use kingletbed::{Bed, Choice, Kind, Refusal};
    /// let bed = Bed::from_slots(2, 4, [69, 7177, 8201, 12361])?;
    /// let zones = Bed::from_slots(2, 2, [67, 12355])?; // the blocks NW and SE
    /// let inside = Bed::combine(Choice::Inside, &bed, &zones, [0; 16])?;
    /// assert_eq!(inside.words(), [69, 12361]);
    /// assert!(inside.is_scanned());
    /// let outside = Bed::combine(Choice::Outside, &bed, &zones, [0; 16])?;
    /// assert_eq!(outside.words(), [7177, 8201]);
    ///
    /// let scan = Bed::from_scan(Kind::Rows, 2, 7, 1, [69])?; // seven pixels, and on them the tile NW
    /// let mut outside = Bed::combine(Choice::Outside, &scan, &zones, [0; 16])?;
    /// assert_eq!((outside.scanned(), outside.words().len()), (7, 0));
    /// outside.feed(&[9])?;
    /// assert_eq!(outside.words(), [7177]);
    ///
    /// let larger = Bed::from_slots(3, 2, [67, 12355])?;
    /// assert_eq!(Bed::combine(Choice::Inside, &bed, &larger, [0; 16]), Err(Refusal::OrdersDiffer));
    /// # Ok::<(), kingletbed::Refusal>(())
    /// ```
    pub fn combine<A: AsRef<[u32]>, B: AsRef<[u32]>>(
        choice: Choice,
        first: &Bed<A>,
        second: &Bed<B>,
        mut slots: S,
    ) -> Result<Bed<S>, Refusal> {
        let Bed { kind, order, scanned, tiles, .. } = *first;
        let (words1, words2) = (first.slots(), second.slots());
        let (choice, out) = (choice.number(), slots.as_mut());
        let answer = raw::combine(choice, order, tiles, words1, second.order, second.tiles, words2, out);
        Refusal::outcome(answer.number)?;
        Ok(Bed { kind, order, scanned, tiles: answer.tiles, slots })
    }

    /// Hands over the accounts of the next pixels, any number of them. The slots then hold the list of all pixels so
    /// far, and 0 behind it. A refused pixel stops the feed: those ahead of it stand, and the bed goes on behind them.
    ///
    /// ```
    /// use kingletbed::{Bed, Kind, Refusal, Stopped};
    /// let mut bed = Bed::fresh(Kind::Rows, 1, [0; 2])?;
    /// assert_eq!(bed.feed(&[7, 7, 7, 7]), Err(Stopped { refusal: Refusal::SlotsExceeded, taken: 2 }));
    /// assert_eq!((bed.scanned(), bed.tiles().len()), (2, 2));
    /// bed.feed(&[0, 0])?;
    /// assert!(bed.is_scanned());
    /// # Ok::<(), kingletbed::Refusal>(())
    /// ```
    pub fn feed(&mut self, accounts: &[u8]) -> Result<(), Stopped> {
        let answer = raw::feed(self.kind.number(), self.order, self.scanned, self.tiles, self.slots.as_mut(), accounts);
        // The record to go on with, whatever stopped the feed: that of the pixels taken.
        self.scanned = answer.pixels;
        self.tiles = answer.tiles;
        Refusal::outcome(answer.number).map_err(|refusal| Stopped { refusal, taken: answer.taken })
    }

    /// Gives every pixel of a block to an account; [`Account::NOBODY`] releases them. The slots then hold the new list,
    /// and 0 behind it. A block with a pixel that is not scanned yet is refused; after a claim among the pixels scanned
    /// the scan goes on where it was, in the slots that are left. [`preview`](Bed::preview) tells beforehand how many
    /// tiles a claim leaves.
    ///
    /// ```
    /// use kingletbed::{Account, Bed, Block, Pixel};
    /// let mut bed = Bed::from_slots(2, 4, [69, 7177, 8201, 12361, 0, 0])?;
    /// bed.claim(Block { corner: 4, size: 1 }, Account(9))?;
    /// assert_eq!(bed.lookup(Pixel { column: 2, row: 0 })?.account, Account(9));
    /// assert_eq!(bed.words(), [69, 4169, 8201, 12361]);
    /// # Ok::<(), kingletbed::Refusal>(())
    /// ```
    pub fn claim(&mut self, block: Block, account: Account) -> Result<(), Refusal> {
        let (kind, slots) = (self.kind.number(), self.slots.as_mut());
        let (order, scanned, tiles) = (self.order, self.scanned, self.tiles);
        let answer = raw::claim(kind, order, scanned, tiles, slots, block.corner, block.size, account.0);
        Refusal::outcome(answer.number)?;
        self.tiles = answer.tiles;
        Ok(())
    }

    /// Releases every pixel of a block: a claim for nobody.
    ///
    /// ```
    /// use kingletbed::{Bed, Block, Refusal};
    /// let mut bed = Bed::from_slots(2, 4, [69, 7177, 8201, 12361, 0, 0])?;
    /// bed.release(Block { corner: 3, size: 0 })?;
    /// assert_eq!(bed.tiles().len(), 6); // three quarters of the tile are left as tiles of their own
    /// assert_eq!(bed.release(Block { corner: 15, size: 0 }), Err(Refusal::SlotsExceeded));
    /// # Ok::<(), kingletbed::Refusal>(())
    /// ```
    pub fn release(&mut self, block: Block) -> Result<(), Refusal> {
        self.claim(block, Account::NOBODY)
    }
}

impl<S: AsRef<[u32]>> Bed<S> {
    /// The bed whose list is the first `tiles` words of the slots, if they are a list. It is by rows, with every pixel
    /// scanned, so that this is for the list of a bed that is wholly scanned. A list alone does not tell how far its
    /// scan is: of one that may be unfinished make the bed by [`from_scan`](Bed::from_scan), or ground that the camera
    /// has not reached reads as free. The count must be that of the list: fewer of its words are a list too, of a bed
    /// with less on it.
    ///
    /// ```
    /// use kingletbed::{Bed, Refusal};
    /// let slots = [69, 7177, 8201, 12361, 0, 0];
    /// assert!(Bed::from_slots(2, 4, &slots).is_ok());
    /// assert_eq!(Bed::from_slots(2, 5, &slots), Err(Refusal::AccountZero));
    /// assert_eq!(Bed::from_slots(1, 4, &slots), Err(Refusal::CornerInvalid));
    /// # Ok::<(), kingletbed::Refusal>(())
    /// ```
    pub fn from_slots(order: u32, tiles: usize, slots: S) -> Result<Bed<S>, Refusal> {
        Refusal::outcome(raw::check(order, tiles, slots.as_ref()))?;
        Ok(Bed { kind: Kind::Rows, order, scanned: pixels_of(order), tiles, slots })
    }

    /// The bed of a scan, finished or not, made again of its kind, its order, the number of pixels scanned, and the
    /// slots whose first `tiles` words are its list. What opens no feed is refused: an order or a list as by
    /// [`from_slots`](Bed::from_slots), more pixels than the bed has, and a tile on a pixel that is not scanned.
    ///
    /// ```
    /// use kingletbed::{Bed, Kind, Pixel, Refusal};
    /// let slots = [69, 0, 0, 0]; // the tile NW: by rows its last pixel is the sixth
    /// assert_eq!(Bed::from_scan(Kind::Rows, 2, 5, 1, slots), Err(Refusal::TileUnscanned));
    /// assert_eq!(Bed::from_scan(Kind::Rows, 2, 17, 1, slots), Err(Refusal::ScannedTooLarge));
    /// let mut bed = Bed::from_scan(Kind::Rows, 2, 7, 1, slots)?;
    /// assert_eq!(bed.lookup(Pixel { column: 3, row: 1 }), Err(Refusal::Unscanned));
    /// bed.feed(&[9])?;
    /// assert_eq!((bed.scanned(), bed.words()), (8, &[69, 7177][..]));
    /// # Ok::<(), kingletbed::Refusal>(())
    /// ```
    pub fn from_scan(kind: Kind, order: u32, scanned: u32, tiles: usize, slots: S) -> Result<Bed<S>, Refusal> {
        // A lookup off every bed: the checks of a scan, and where they pass the refusal of the point.
        let answer = raw::lookup(kind.number(), order, scanned, tiles, slots.as_ref(), u32::MAX, u32::MAX);
        if answer.number != Refusal::PointOutside.number() {
            Refusal::outcome(answer.number)?;
        }
        Ok(Bed { kind, order, scanned, tiles, slots })
    }

    /// The same bed with its slots by borrow, only to be asked: for code that takes beds whatever they are kept in.
    ///
    /// ```
    /// use kingletbed::{Bed, Kind};
    /// fn empty(bed: Bed<&[u32]>) -> bool {
    ///     bed.words().is_empty()
    /// }
    /// let bed = Bed::fresh(Kind::Rows, 2, vec![0; 16])?;
    /// assert!(empty(bed.view()));
    /// # Ok::<(), kingletbed::Refusal>(())
    /// ```
    pub fn view(&self) -> Bed<&[u32]> {
        Bed { kind: self.kind, order: self.order, scanned: self.scanned, tiles: self.tiles, slots: self.slots.as_ref() }
    }
}

impl<S> Bed<S> {
    /// The slots, given back. With them the bed's kind, order, pixels scanned and tile count make it again by
    /// [`from_scan`](Bed::from_scan), and its scan goes on.
    ///
    /// ```
    /// use kingletbed::{Bed, Kind};
    /// let mut bed = Bed::fresh(Kind::Rows, 1, vec![0; 3])?;
    /// bed.feed(&[7, 7])?;
    /// let (kind, order, scanned, tiles) = (bed.kind(), bed.order(), bed.scanned(), bed.tiles().len());
    /// let slots = bed.into_slots();
    /// assert_eq!(slots, [7, 1031, 0]);
    /// let mut again = Bed::from_scan(kind, order, scanned, tiles, slots)?;
    /// again.feed(&[7, 7])?;
    /// assert_eq!(again.into_slots(), [71, 0, 0]);
    /// # Ok::<(), kingletbed::Refusal>(())
    /// ```
    #[must_use]
    pub fn into_slots(self) -> S {
        self.slots
    }
}

impl<S: AsRef<[u32]>, T: AsRef<[u32]>> PartialEq<Bed<T>> for Bed<S> {
    fn eq(&self, other: &Bed<T>) -> bool {
        self.order == other.order && self.words() == other.words()
    }
}

impl<S: AsRef<[u32]>> Eq for Bed<S> {}

/// The tiles, as [`Bed::tiles`] gives them.
///
/// ```
/// let bed = kingletbed::Bed::from_slots(2, 4, [69, 7177, 8201, 12361])?;
/// let mut sizes = 0;
/// for tile in &bed {
///     sizes += tile.size();
/// }
/// assert_eq!(sizes, 2);
/// # Ok::<(), kingletbed::Refusal>(())
/// ```
impl<'a, S: AsRef<[u32]>> IntoIterator for &'a Bed<S> {
    type Item = Tile;
    type IntoIter = Tiles<'a>;

    fn into_iter(self) -> Tiles<'a> {
        self.tiles()
    }
}

impl<S: AsRef<[u32]>> fmt::Debug for Bed<S> {
    fn fmt(&self, f: &mut fmt::Formatter) -> fmt::Result {
        f.debug_struct("Bed")
            .field("kind", &self.kind)
            .field("order", &self.order)
            .field("scanned", &self.scanned)
            .field("tiles", &self.tiles())
            .finish()
    }
}
