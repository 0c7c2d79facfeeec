//! What may be asked of a bed.

use crate::bed::pixels_of;
use crate::{raw, Account, Bed, Block, Found, Kind, Pixel, Refusal, Shown, Table, Tile, Tiles};

// No call here can panic, whatever the slots give: the part of them that an answer names is taken by `get`.
impl<S: AsRef<[u32]>> Bed<S> {
    /// How the bed is scanned.
    ///
    /// ```
    /// use kingletbed::{Bed, Kind};
    /// assert_eq!(Bed::from_slots(2, 0, [])?.kind(), Kind::Rows);
    /// # Ok::<(), kingletbed::Refusal>(())
    /// ```
    #[must_use]
    pub fn kind(&self) -> Kind {
        self.kind
    }

    /// The order: the bed has 2^order columns and rows.
    ///
    /// ```
    /// assert_eq!(kingletbed::Bed::from_slots(2, 0, [])?.order(), 2);
    /// # Ok::<(), kingletbed::Refusal>(())
    /// ```
    #[must_use]
    pub fn order(&self) -> u32 {
        self.order
    }

    /// The number of columns, and of rows.
    ///
    /// ```
    /// assert_eq!(kingletbed::Bed::from_slots(2, 0, [])?.side(), 4);
    /// # Ok::<(), kingletbed::Refusal>(())
    /// ```
    #[must_use]
    pub fn side(&self) -> u32 {
        raw::extent(self.order).side
    }

    /// The number of pixels.
    ///
    /// ```
    /// assert_eq!(kingletbed::Bed::from_slots(2, 0, [])?.pixels(), 16);
    /// # Ok::<(), kingletbed::Refusal>(())
    /// ```
    #[must_use]
    pub fn pixels(&self) -> u32 {
        pixels_of(self.order)
    }

    /// How many pixels are scanned: the first so many in the order of the bed's [`kind`](Bed::kind). No tile has one of
    /// the others. Of a bed that was read it is all of them.
    ///
    /// ```
    /// use kingletbed::{Bed, Kind};
    /// let mut bed = Bed::fresh(Kind::Rows, 1, [0; 4])?;
    /// bed.feed(&[7, 7])?;
    /// assert_eq!(bed.scanned(), 2);
    /// # Ok::<(), kingletbed::Refusal>(())
    /// ```
    #[must_use]
    pub fn scanned(&self) -> u32 {
        self.scanned
    }

    /// Whether every pixel is scanned.
    ///
    /// ```
    /// use kingletbed::{Bed, Kind};
    /// let mut bed = Bed::fresh(Kind::Rows, 1, [0; 4])?;
    /// bed.feed(&[7, 7])?;
    /// assert!(!bed.is_scanned());
    /// bed.feed(&[0, 0])?;
    /// assert!(bed.is_scanned());
    /// # Ok::<(), kingletbed::Refusal>(())
    /// ```
    #[must_use]
    pub fn is_scanned(&self) -> bool {
        self.scanned == self.pixels()
    }

    /// All the slots: the list, and what stands behind it.
    ///
    /// ```
    /// use kingletbed::{Bed, Kind};
    /// let mut bed = Bed::fresh(Kind::Rows, 1, [0; 4])?;
    /// bed.feed(&[7, 7, 7, 7])?;
    /// assert_eq!(bed.slots(), [71, 0, 0, 0]);
    /// # Ok::<(), kingletbed::Refusal>(())
    /// ```
    #[must_use]
    pub fn slots(&self) -> &[u32] {
        self.slots.as_ref()
    }

    /// The list itself: a word for each tile, by rising corner.
    ///
    /// ```
    /// use kingletbed::{Bed, Kind};
    /// let mut bed = Bed::fresh(Kind::Rows, 1, [0; 4])?;
    /// bed.feed(&[7, 7, 7, 7])?;
    /// assert_eq!(bed.words(), [71]);
    /// # Ok::<(), kingletbed::Refusal>(())
    /// ```
    #[must_use]
    pub fn words(&self) -> &[u32] {
        self.slots().get(..self.tiles).unwrap_or_default()
    }

    /// The tiles, by rising corner: every pixel that is somebody's is in one of them. The others are nobody's, or not
    /// scanned yet.
    ///
    /// ```
    /// use kingletbed::{Account, Bed};
    /// let bed = Bed::from_slots(2, 4, [69, 7177, 8201, 12361])?;
    /// let nines = bed.tiles().filter(|tile| tile.account() == Account(9));
    /// assert_eq!(nines.map(|tile| tile.corner()).collect::<Vec<_>>(), [7, 8, 12]);
    /// # Ok::<(), kingletbed::Refusal>(())
    /// ```
    pub fn tiles(&self) -> Tiles<'_> {
        Tiles::of_words(self.words())
    }

    /// Whose a pixel is, and the largest block with the pixel in it that is all of this account and wholly scanned: see
    /// [`Found`]. Every pixel of that block gives this answer, and no other pixel does; [`rights`](Bed::rights) answers
    /// alike on all of it by one table. So a head that stays inside need not ask again while bed and table stay as they
    /// are. A pixel that is not scanned yet is refused.
    ///
    /// ```
    /// use kingletbed::{Account, Bed, Block, Found, Kind, Pixel, Refusal};
    /// let bed = Bed::from_slots(2, 3, [69, 8201, 12361])?; // the block NE is free
    /// let found = bed.lookup(Pixel { column: 2, row: 0 })?;
    /// assert_eq!(found, Found { account: Account::NOBODY, block: Block { corner: 4, size: 1 } });
    /// assert!(found.block.has(Pixel { column: 3, row: 1 }));
    /// assert_eq!(bed.lookup(Pixel { column: 3, row: 1 })?, found);
    /// assert_eq!(bed.lookup(Pixel { column: 0, row: 2 })?.account, Account(9));
    /// assert_eq!(bed.lookup(Pixel { column: 4, row: 0 }), Err(Refusal::PointOutside));
    ///
    /// let scan = Bed::from_scan(Kind::Rows, 2, 7, 1, [69])?; // three pixels of the block NE are scanned
    /// let free = Found { account: Account::NOBODY, block: Block { corner: 4, size: 0 } };
    /// assert_eq!(scan.lookup(Pixel { column: 2, row: 0 }), Ok(free));
    /// assert_eq!(scan.lookup(Pixel { column: 3, row: 1 }), Err(Refusal::Unscanned));
    /// # Ok::<(), kingletbed::Refusal>(())
    /// ```
    pub fn lookup(&self, at: Pixel) -> Result<Found, Refusal> {
        let (kind, slots) = (self.kind.number(), self.slots());
        let answer = raw::lookup(kind, self.order, self.scanned, self.tiles, slots, at.column, at.row);
        Refusal::outcome(answer.number)?;
        let block = Block { corner: answer.corner, size: answer.size };
        Ok(Found { account: Account(answer.account), block })
    }

    /// Whether an account may place at a pixel, by the table in force. By [`Table::OLD`] it may on its own always, on
    /// nobody's unless it is a guest, on another's only as staff and not on another staff member's. By every table it
    /// may on its own; and where a guest may on a pixel that is not its own, every student may, and where a student
    /// may, all staff. Where the pixel is not scanned yet nobody may: that is refused.
    ///
    /// ```
    /// use kingletbed::{Account, Bed, Pixel, Table};
    /// let bed = Bed::from_slots(2, 4, [69, 7177, 8201, 12361])?;
    /// let pixel = Pixel { column: 3, row: 1 }; // account 9's
    /// assert!(bed.rights(&Table::OLD, pixel, Account(9))?);
    /// assert!(bed.rights(&Table::OLD, pixel, Account(5))?);
    /// assert!(!bed.rights(&Table::OLD, pixel, Account(48))?);
    ///
    /// let workshop = Table::from_file(&[15, 1, 1, 1, 1, 0, 1, 1, 0, 0, 0, 1, 1, 0, 0, 0])?;
    /// let pixel = Pixel { column: 2, row: 0 }; // nobody's
    /// assert!(!bed.rights(&Table::OLD, pixel, Account(48))?);
    /// assert!(bed.rights(&workshop, pixel, Account(48))?);
    /// # Ok::<(), kingletbed::Refusal>(())
    /// ```
    pub fn rights(&self, table: &Table, at: Pixel, asking: Account) -> Result<bool, Refusal> {
        let (rows, kind, slots) = (table.bytes(), self.kind.number(), self.slots());
        let (order, scanned, tiles) = (self.order, self.scanned, self.tiles);
        let answer = raw::rights(rows, kind, order, scanned, tiles, slots, at.column, at.row, asking.0);
        Refusal::outcome(answer.number)?;
        Ok(answer.yes != 0)
    }

    /// What a claim would come to, with nothing changed: the refusal that [`claim`](Bed::claim) would give on a copy of
    /// the bed with as many slots, or the number of tiles that the copy would then have. For a
    /// [`release`](Bed::release) preview a claim for [`Account::NOBODY`].
    ///
    /// ```
    /// use kingletbed::{Account, Bed, Block, Refusal};
    /// let mut bed = Bed::from_slots(2, 4, [69, 7177, 8201, 12361, 0, 0])?;
    /// let pixel = Block { corner: 3, size: 0 };
    /// assert_eq!(bed.preview(pixel, Account(9)), Err(Refusal::SlotsExceeded)); // it would have 7 tiles
    /// assert_eq!(bed.preview(pixel, Account::NOBODY), Ok(6));
    /// assert_eq!(bed.tiles().len(), 4);
    /// bed.release(pixel)?;
    /// assert_eq!(bed.tiles().len(), 6);
    /// # Ok::<(), kingletbed::Refusal>(())
    /// ```
    pub fn preview(&self, block: Block, account: Account) -> Result<usize, Refusal> {
        let (kind, slots, Block { corner, size }) = (self.kind.number(), self.slots(), block);
        let answer = raw::preview(kind, self.order, self.scanned, self.tiles, slots, corner, size, account.0);
        Refusal::outcome(answer.number)?;
        Ok(answer.tiles)
    }

    /// The part of the list whose tiles lie wholly inside a block: of the slots themselves, not a copy.
    ///
    /// To draw a block take [`shown`](Bed::shown): the part of a block that lies under a larger tile is empty, though
    /// every pixel of it is somebody's, and so is that of a block which the scan has not reached.
    ///
    /// ```
    /// use kingletbed::{Account, Bed, Block, Pixel};
    /// let bed = Bed::from_slots(2, 4, [69, 7177, 8201, 12361])?;
    /// assert_eq!(bed.part(Block { corner: 4, size: 1 })?, [7177]);
    /// assert_eq!(bed.part(Block { corner: 12, size: 0 })?, []);
    /// let found = bed.lookup(Pixel { column: 2, row: 2 })?; // corner 12
    /// assert_eq!((found.account, found.block.size), (Account(9), 1));
    /// # Ok::<(), kingletbed::Refusal>(())
    /// ```
    pub fn part(&self, block: Block) -> Result<&[u32], Refusal> {
        let slots = self.slots();
        let answer = raw::part(self.order, self.tiles, slots, block.corner, block.size);
        Refusal::outcome(answer.number)?;
        Ok(slots.get(answer.position..).and_then(|rest| rest.get(..answer.length)).unwrap_or_default())
    }

    /// The account that has all of a block, nobody's too; nothing if it has not one account. A block with a pixel that
    /// is not scanned yet is refused. It takes one lookup.
    ///
    /// ```
    /// use kingletbed::{Account, Bed, Block, Kind, Refusal};
    /// let bed = Bed::from_slots(2, 4, [69, 7177, 8201, 12361])?;
    /// assert_eq!(bed.account_of(Block { corner: 13, size: 0 }), Ok(Some(Account(9)))); // under the tile SE
    /// assert_eq!(bed.account_of(Block { corner: 9, size: 0 }), Ok(Some(Account::NOBODY)));
    /// assert_eq!(bed.account_of(Block { corner: 4, size: 1 }), Ok(None));
    /// assert_eq!(bed.account_of(Block { corner: 5, size: 1 }), Err(Refusal::BlockInvalid));
    ///
    /// let scan = Bed::from_scan(Kind::Rows, 2, 7, 1, [69])?; // three pixels of the block NE are scanned
    /// assert_eq!(scan.account_of(Block { corner: 0, size: 1 }), Ok(Some(Account(5))));
    /// assert_eq!(scan.account_of(Block { corner: 4, size: 1 }), Err(Refusal::Unscanned));
    /// # Ok::<(), kingletbed::Refusal>(())
    /// ```
    pub fn account_of(&self, block: Block) -> Result<Option<Account>, Refusal> {
        let found = self.lookup(self.last_of(block)?)?;
        Ok((found.block.size >= block.size).then_some(found.account))
    }

    /// Whether every pixel of a block is scanned. It takes one lookup.
    ///
    /// ```
    /// use kingletbed::{Bed, Block, Kind};
    /// let scan = Bed::from_scan(Kind::Rows, 2, 7, 1, [69])?; // three pixels of the block NE are scanned
    /// assert_eq!(scan.is_block_scanned(Block { corner: 0, size: 1 }), Ok(true));
    /// assert_eq!(scan.is_block_scanned(Block { corner: 6, size: 0 }), Ok(true));
    /// assert_eq!(scan.is_block_scanned(Block { corner: 4, size: 1 }), Ok(false));
    /// # Ok::<(), kingletbed::Refusal>(())
    /// ```
    pub fn is_block_scanned(&self, block: Block) -> Result<bool, Refusal> {
        match self.lookup(self.last_of(block)?) {
            Ok(_) => Ok(true),
            Err(Refusal::Unscanned) => Ok(false),
            Err(refusal) => Err(refusal),
        }
    }

    /// The pixel of a block that either kind of scan comes to last, the south-eastern one. Numbers that wrap are those
    /// of no block, which is refused.
    fn last_of(&self, block: Block) -> Result<Pixel, Refusal> {
        let last = block.corner.wrapping_add(pixels_of(block.size)).wrapping_sub(1);
        let at = Pixel::of_morton(self.order, last)?;
        if Block::around(self.order, at, block.size)? != block {
            return Err(Refusal::BlockInvalid);
        }
        Ok(at)
    }

    /// What a block shows, by rising corner: the tiles inside it, or where one tile covers it that tile, cut to the
    /// block. Every pixel of the block that is somebody's is in one of them, and they are what a bed of the block alone
    /// would have for tiles. What is in none of them is nobody's, or not scanned yet: see
    /// [`is_block_scanned`](Bed::is_block_scanned).
    ///
    /// ```
    /// use kingletbed::{Account, Bed, Block};
    /// let bed = Bed::from_slots(2, 4, [69, 7177, 8201, 12361])?;
    /// // Of the block NE its one tile, of a pixel under the tile SE that pixel, of nobody's pixel nothing.
    /// for (corner, size, tiles) in [(4, 1, &[(7, 0)][..]), (13, 0, &[(13, 0)]), (9, 0, &[])] {
    ///     let shown = bed.shown(Block { corner, size })?.inspect(|tile| assert_eq!(tile.account(), Account(9)));
    ///     assert_eq!(shown.map(|tile| (tile.corner(), tile.size())).collect::<Vec<_>>(), tiles);
    /// }
    /// # Ok::<(), kingletbed::Refusal>(())
    /// ```
    pub fn shown(&self, block: Block) -> Result<Shown<'_>, Refusal> {
        let over = match self.account_of(block) {
            // No tile covers a block that has a pixel which is not scanned.
            Ok(None) | Err(Refusal::Unscanned) => {
                return Ok(Shown::new(Tiles::of_words(self.part(block)?), None));
            }
            Ok(Some(Account::NOBODY)) => None,
            Ok(Some(account)) => Some(Tile::over(self.order, block, account)?),
            Err(refusal) => return Err(refusal),
        };
        Ok(Shown::new(Tiles::of_words(&[]), over))
    }

    /// Writes the account of each pixel, row after row. The raster has [`pixels`](Bed::pixels) bytes. It does not tell
    /// nobody's pixel from one that is not scanned yet: both are 0.
    ///
    /// ```
    /// use kingletbed::Bed;
    /// let bed = Bed::from_slots(2, 4, [69, 7177, 8201, 12361])?;
    /// let mut raster = [0; 16];
    /// bed.decode(&mut raster)?;
    /// assert_eq!(raster, [5, 5, 0, 0, 5, 5, 0, 9, 9, 0, 9, 9, 0, 0, 9, 9]);
    /// # Ok::<(), kingletbed::Refusal>(())
    /// ```
    pub fn decode(&self, raster: &mut [u8]) -> Result<(), Refusal> {
        Refusal::outcome(raw::decode(self.order, self.tiles, self.slots(), raster))
    }

    /// The most bytes that the bed's file can take: 6, 4 for each tile, 5 for each account.
    ///
    /// ```
    /// assert_eq!(kingletbed::Bed::from_slots(2, 4, [69, 7177, 8201, 12361])?.file_room(), 6 + 4 * 4 + 5 * 4);
    /// # Ok::<(), kingletbed::Refusal>(())
    /// ```
    #[must_use]
    pub fn file_room(&self) -> usize {
        // No list has more than 4^10 tiles, so that nothing wraps.
        6 + 4 * self.tiles + 5 * self.tiles.min(Account::HIGHEST.0.into())
    }

    /// Writes the bed as a file and gives its length; [`file_room`](Bed::file_room) bytes are enough. Bytes behind the
    /// file are not touched. Its roster lists the accounts on the bed by rising account. A file is of a bed that is
    /// wholly scanned: an unfinished scan is refused.
    ///
    /// One map has one file: the files of two beds have the same bytes exactly if the beds have one order and the same
    /// account on every pixel, whatever their kinds and whatever was done to them before.
    ///
    /// ```
    /// use kingletbed::{Bed, Kind, Refusal};
    /// let bed = Bed::from_slots(2, 4, [69, 7177, 8201, 12361])?;
    /// let mut file = vec![0; bed.file_room()];
    /// let length = bed.write(&mut file)?;
    /// assert_eq!(length, 32);
    /// assert_eq!(Bed::read(&file[..length], [0; 16])?, bed);
    /// assert_eq!(bed.write(&mut file[..31]), Err(Refusal::BytesTooFew));
    /// assert_eq!(Bed::fresh(Kind::Rows, 2, [0; 16])?.write(&mut file), Err(Refusal::Unscanned));
    ///
    /// let mut scanned = Bed::fresh(Kind::Morton, 2, [0; 16])?;
    /// scanned.feed(&[5, 5, 5, 5, 0, 0, 0, 9, 9, 0, 0, 0, 9, 9, 9, 9])?;
    /// let mut other = vec![0; scanned.file_room()];
    /// assert_eq!(scanned.write(&mut other)?, length);
    /// assert_eq!(other[..length], file[..length]);
    /// # Ok::<(), kingletbed::Refusal>(())
    /// ```
    #[must_use = "the file is as many bytes as the answer says"]
    pub fn write(&self, file: &mut [u8]) -> Result<usize, Refusal> {
        let answer = raw::write(self.kind.number(), self.order, self.scanned, self.tiles, self.slots(), file);
        Refusal::outcome(answer.number)?;
        Ok(answer.length)
    }
}
