//! Each call made on the raw call, on a bed and on the plain implementation; answers and storage must be the same. A
//! difference panics with the call and both sides. The calls that change nothing are here, the others in `changing.rs`.
//!
//! A bed cannot be put together from any numbers: where the checks of its record refuse them there is none, and its
//! making must answer that refusal.

use crate::lent::{Brief, Lent};
use crate::plain::{area, list, Record, Tile};
use crate::tables::table_of;
use kingletbed::{raw, Account, Bed, Block, Found, Kind, Pixel, Refusal};
use std::collections::BTreeMap;
use std::fmt::Debug;

/// What was compared so far.
#[derive(Default)]
pub struct Count {
    pub calls: u64,
    /// How often each call answered each number.
    pub met: BTreeMap<(&'static str, u32), u64>,
}

impl Count {
    pub fn add(&mut self, call: &'static str, number: u32) {
        self.calls += 1;
        *self.met.entry((call, number)).or_default() += 1;
    }

    /// How often a number was answered.
    pub fn times(&self, number: u32) -> u64 {
        self.met.iter().filter(|((_, met), _)| *met == number).map(|(_, times)| times).sum()
    }

    /// How often a record did not go with its bed, 21, or with its list, 22.
    pub fn unfit(&self) -> u64 {
        self.times(21) + self.times(22)
    }
}

pub fn same<T: PartialEq + Debug>(call: &str, given: &dyn Debug, library: T, plain: T) {
    assert!(library == plain, "{call}: answers differ\n  library {library:?}\n  plain   {plain:?}\n  given {given:?}");
}

/// The wrapper's result as a number and what it holds, or nothing.
pub fn flat<T>(result: Result<T, Refusal>) -> (u32, Option<T>) {
    match result {
        Ok(value) => (0, Some(value)),
        Err(refusal) => (refusal.number(), None),
    }
}

pub fn some<T>(number: u32, value: T) -> (u32, Option<T>) {
    (number, if number == 0 { Some(value) } else { None })
}

pub fn kind_of(number: u32) -> Kind {
    if number == 0 {
        Kind::Rows
    } else {
        Kind::Morton
    }
}

/// A bed's record.
pub fn record_of<S: AsRef<[u32]>>(bed: &Bed<S>) -> Record {
    let kind = if bed.kind() == Kind::Rows { 0 } else { 1 };
    Record { kind, order: bed.order(), pixels: bed.scanned(), tiles: bed.words().len() }
}

/// The bed of a record and its slots.
pub fn bed_of<S: AsRef<[u32]>>(record: Record, slots: S) -> Result<Bed<S>, Refusal> {
    Bed::from_scan(kind_of(record.kind), record.order, record.pixels, record.tiles, slots)
}

pub fn tile_of(tile: kingletbed::Tile) -> Tile {
    Tile { corner: tile.corner().into(), size: tile.size(), account: tile.account().0 }
}

pub fn block_of(tile: Tile) -> Block {
    Block { corner: tile.corner as u32, size: tile.size }
}

/// A map to ask: record and slots, and the bed that has them, where one lives on.
#[derive(Clone, Copy)]
pub struct At<'a> {
    pub record: Record,
    pub slots: &'a [u32],
    pub held: Option<&'a Bed<Lent<u32>>>,
}

impl<'a, T: AsRef<[u32]> + ?Sized> From<(Record, &'a T)> for At<'a> {
    fn from((record, slots): (Record, &'a T)) -> At<'a> {
        At { record, slots: slots.as_ref(), held: None }
    }
}

/// A map that is wholly scanned: order, tile count and slots.
impl<'a, T: AsRef<[u32]> + ?Sized> From<(u32, usize, &'a T)> for At<'a> {
    fn from((order, tiles, slots): (u32, usize, &'a T)) -> At<'a> {
        (Record::whole(order, tiles), slots).into()
    }
}

impl Debug for At<'_> {
    fn fmt(&self, f: &mut std::fmt::Formatter) -> std::fmt::Result {
        write!(f, "{:?}, slots {:?}, held {}", self.record, Brief(self.slots), self.held.is_some())
    }
}

impl<'a> At<'a> {
    /// Whether the record is that of a map which was read.
    fn whole(self) -> bool {
        self.record == Record::whole(self.record.order, self.record.tiles)
    }

    fn listed(self) -> Result<Bed<&'a [u32]>, Refusal> {
        Bed::from_slots(self.record.order, self.record.tiles, self.slots)
    }

    /// The bed that lives on.
    fn living(self) -> Option<Result<Bed<&'a [u32]>, Refusal>> {
        self.held.map(|bed| Ok(bed.view()))
    }

    /// The beds to ask what a record is asked: one made of it, and the one that lives on.
    pub fn beds(self) -> impl Iterator<Item = Result<Bed<&'a [u32]>, Refusal>> {
        let made = if self.whole() { self.listed() } else { bed_of(self.record, self.slots) };
        std::iter::once(made).chain(self.living())
    }

    /// The beds to ask what an order and a tile count are asked: one of the list, one of the record where it makes one,
    /// and the one that lives on.
    pub fn lists(self) -> impl Iterator<Item = Result<Bed<&'a [u32]>, Refusal>> {
        let made = if self.whole() { None } else { bed_of(self.record, self.slots).ok() };
        std::iter::once(self.listed()).chain(made.map(Ok)).chain(self.living())
    }
}

impl Count {
    /// List checking, and the making of a bed of the list and of the record.
    pub fn check<'a>(&mut self, at: impl Into<At<'a>>) -> u32 {
        let at = at.into();
        let Record { order, tiles, .. } = at.record;
        let plain = list::check(order, tiles, at.slots);
        same("check", &at, raw::check(order, tiles, at.slots), plain);
        let (made, record) = (at.listed(), Record::whole(order, tiles));
        same("from_slots", &at, flat(made.as_ref().map(record_of).map_err(|&refusal| refusal)), some(plain, record));
        if let Ok(bed) = made {
            same("words", &at, bed.words(), &at.slots[..tiles]);
            let tiles = at.slots[..tiles].iter().map(|&word| Tile::of_word(word));
            assert!(bed.tiles().map(tile_of).eq(tiles), "tiles\n  given {at:?}");
            same("side and pixels", &at, (bed.side(), bed.pixels()), (1 << order, record.pixels));
        }
        self.add("check", plain);
        self.open(at);
        plain
    }

    /// The making of a bed of a record, by the checks that open a feed.
    pub fn open<'a>(&mut self, at: impl Into<At<'a>>) -> u32 {
        let At { record, slots, .. } = at.into();
        let plain = list::open(record, slots);
        let made = bed_of(record, slots).map(|bed| record_of(&bed));
        let expected = Record { kind: record.kind.min(1), ..record };
        same("from_scan", &(record, Brief(slots)), flat(made), some(plain, expected));
        self.add("from_scan", plain);
        plain
    }

    pub fn decode<'a>(&mut self, at: impl Into<At<'a>>, raster: &[u8]) -> (u32, Vec<u8>) {
        let at = at.into();
        let (given, Record { order, tiles, .. }) = ((at, raster.len()), at.record);
        let (number, after) = list::decode(order, tiles, at.slots, raster);
        let mut lent = Lent::new(raster);
        same("decode", &given, raw::decode(order, tiles, at.slots, lent.as_mut()), number);
        lent.must_be("decode", &given, &after);
        for bed in at.lists() {
            let mut lent = Lent::new(raster);
            same("decode of a bed", &given, flat(bed.and_then(|bed| bed.decode(lent.as_mut()))), some(number, ()));
            lent.must_be("decode of a bed", &given, &after);
        }
        self.add("decode", number);
        (number, after)
    }

    /// The number and the block named.
    pub fn lookup<'a>(&mut self, at: impl Into<At<'a>>, column: u32, row: u32) -> (u32, Tile) {
        let at = at.into();
        let (given, Record { kind, order, pixels, tiles }) = ((at, column, row), at.record);
        let plain = list::lookup(at.record, at.slots, column, row);
        let answer = raw::lookup(kind, order, pixels, tiles, at.slots, column, row);
        let named = Tile { corner: answer.corner.into(), size: answer.size, account: answer.account };
        same("lookup", &given, (answer.number, named), plain);
        let found = Found { account: Account(plain.1.account), block: block_of(plain.1) };
        for bed in at.beds() {
            let wrapped = bed.and_then(|bed| bed.lookup(Pixel { column, row }));
            same("lookup of a bed", &given, flat(wrapped), some(plain.0, found));
        }
        self.add("lookup", plain.0);
        plain
    }

    /// Two lookups: the answers are the same just where the second pixel lies in the block that the first named.
    pub fn lookups<'a>(&mut self, at: impl Into<At<'a>>, (column, row): (u32, u32), other: (u32, u32)) {
        let at = at.into();
        let (first, second) = (self.lookup(at, column, row), self.lookup(at, other.0, other.1));
        if first.0 == 0 {
            let has = block_of(first.1).has(Pixel { column: other.0, row: other.1 });
            same("lookup inside the block named", &(at, (column, row), other), has, first == second);
        }
    }

    pub fn part<'a>(&mut self, at: impl Into<At<'a>>, corner: u32, size: u32) -> (u32, usize, usize) {
        let at = at.into();
        let (given, Record { order, tiles, .. }) = ((at, corner, size), at.record);
        let plain = list::part(order, tiles, at.slots, corner, size);
        let answer = raw::part(order, tiles, at.slots, corner, size);
        same("part", &given, (answer.number, answer.position, answer.length), plain);
        for bed in at.lists() {
            // Where in the bed's own slots the part begins, in bytes.
            let from = |bed: &Bed<&[u32]>, part: &[u32]| part.as_ptr() as usize - bed.slots().as_ptr() as usize;
            let wrapped =
                bed.and_then(|bed| bed.part(Block { corner, size }).map(|part| (from(&bed, part), part.len())));
            same("part of a bed", &given, flat(wrapped), some(plain.0, (4 * plain.1, plain.2)));
        }
        self.add("part", plain.0);
        plain
    }

    /// What a block shows: the tiles that a bed of it alone would have, and painted they are its accounts. Besides,
    /// whether the block is scanned, and the account of one that is.
    pub fn shown<'a>(&mut self, at: impl Into<At<'a>>, corner: u32, size: u32) -> (u32, Vec<Tile>) {
        let at = at.into();
        let (given, block) = ((at, corner, size), Block { corner, size });
        let (number, list::Shown { tiles, accounts, seen }) = list::shown(at.record, at.slots, corner, size);
        let scanned = seen.iter().all(|&seen| seen);
        let one = accounts.first().filter(|&first| accounts.iter().all(|account| account == first));
        let one = one.map(|&account| Account(account));
        let of = if number == 0 && !scanned { 52 } else { number };
        let words: Vec<u32> = tiles.iter().map(|tile| tile.word()).collect();
        for bed in at.beds() {
            let whole = bed.clone().and_then(|bed| bed.is_block_scanned(block));
            same("whether a block is scanned", &given, flat(whole), some(number, scanned));
            let account = bed.clone().and_then(|bed| bed.account_of(block));
            same("account of a block", &given, flat(account), some(of, one));
            let wrapped = bed.and_then(|bed| {
                let shown = bed.shown(block)?;
                let mut back: Vec<Tile> = shown.clone().rev().map(tile_of).collect();
                back.reverse();
                same("shown, from its end", &given, (shown.len(), &back), (tiles.len(), &tiles));
                let mut painted = vec![0; accounts.len()];
                for tile in shown.clone() {
                    let from = (tile.corner() - corner) as usize;
                    painted[from..from + area(tile.size()) as usize].fill(tile.account().0);
                }
                assert!(painted == accounts, "shown: the block painted\n  given {given:?}");
                Ok(shown.map(|tile| tile.word()).collect::<Vec<u32>>())
            });
            same("shown of a bed", &given, flat(wrapped), some(number, words.clone()));
        }
        self.add("shown", number);
        self.add("account_of", of);
        (number, tiles)
    }

    /// Rights by a table, whatever it is. The wrapper has no table but such as count.
    pub fn rights<'a>(
        &mut self,
        table: &[u8],
        at: impl Into<At<'a>>,
        column: u32,
        row: u32,
        asking: u8,
    ) -> (u32, bool) {
        let (at, held) = (at.into(), table_of(table));
        let (given, Record { kind, order, pixels, tiles }) = ((table, at, column, row, asking), at.record);
        let plain = list::rights(table, at.record, at.slots, column, row, asking);
        let answer = raw::rights(table, kind, order, pixels, tiles, at.slots, column, row, asking);
        same("rights", &given, (answer.number, answer.yes), (plain.0, u8::from(plain.1)));
        for bed in at.beds() {
            let wrapped = bed.and_then(|bed| bed.rights(&held, Pixel { column, row }, Account(asking)));
            same("rights on a bed", &given, flat(wrapped), some(plain.0, plain.1));
        }
        self.add("rights", plain.0);
        plain
    }

    /// The number and the tile count.
    pub fn preview<'a>(&mut self, at: impl Into<At<'a>>, corner: u32, size: u32, account: u8) -> (u32, usize) {
        let at = at.into();
        let plain = list::preview(at.record, at.slots, corner, size, account);
        self.previewed(at, (corner, size, account), plain);
        plain
    }

    /// A preview of slots, and of a copy of the list that has other words behind it, as the plain implementation told.
    pub fn previewed(&mut self, at: At, (corner, size, account): (u32, u32, u8), plain: (u32, usize)) {
        let (given, Record { kind, order, pixels, tiles }) = ((at, corner, size, account), at.record);
        let mut copy = at.slots.to_vec();
        copy.iter_mut().skip(tiles).for_each(|word| *word = !*word);
        for slots in [at.slots, &copy] {
            let lent = Lent::new(slots);
            let answer = raw::preview(kind, order, pixels, tiles, lent.as_ref(), corner, size, account);
            same("preview", &given, (answer.number, answer.tiles), plain);
            lent.must_be("preview", &given, slots);
        }
        for bed in at.beds() {
            let wrapped = bed.and_then(|bed| bed.preview(Block { corner, size }, Account(account)));
            same("preview of a bed", &given, flat(wrapped), some(plain.0, plain.1));
        }
        self.add("preview", plain.0);
    }

    /// The number and, accepted, the file.
    pub fn write<'a>(&mut self, at: impl Into<At<'a>>, bytes: &[u8]) -> (u32, Vec<u8>) {
        let at = at.into();
        let (given, Record { kind, order, pixels, tiles }) = ((at, bytes.len()), at.record);
        let (number, length, after) = list::write(at.record, at.slots, bytes);
        let mut lent = Lent::new(bytes);
        let answer = raw::write(kind, order, pixels, tiles, at.slots, lent.as_mut());
        same("write", &given, (answer.number, answer.length), (number, length));
        lent.must_be("write", &given, &after);
        for bed in at.beds() {
            let mut lent = Lent::new(bytes);
            let wrapped = bed.and_then(|bed| {
                assert!(length <= bed.file_room(), "the room of a file");
                bed.write(lent.as_mut())
            });
            same("write of a bed", &given, flat(wrapped), some(number, length));
            lent.must_be("write of a bed", &given, &after);
        }
        self.add("write", number);
        (number, after[..length].to_vec())
    }
}
