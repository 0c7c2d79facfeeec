//! Scans from the first pixel to the last, with claims between the feeds. What comes of each call is known from the
//! pixels alone: where the camera has been, and whom it saw there or who claimed since.

use crate::living::Living;
use crate::pair::Count;
use crate::plain::bed::block_in;
use crate::plain::{area, morton, pixel, Record};
use crate::random::{palette, Built, Random};
use crate::sequences::{block_near, front};
use crate::tables;

/// Whose each pixel is, row after row; nothing where the camera has not been.
struct Known {
    side: usize,
    pixels: Vec<Option<u8>>,
}

impl Known {
    /// Where the pixels of a block lie.
    fn block(&self, corner: u32, size: u32) -> Vec<usize> {
        let ((west, north), wide, side) = (pixel(corner.into()), 1 << size, self.side);
        (north..north + wide).flat_map(|row| (west..west + wide).map(move |column| row * side + column)).collect()
    }

    fn whole(&self) -> bool {
        self.pixels.iter().all(Option::is_some)
    }
}

/// The pixels in the order in which the camera goes over them.
fn course(kind: u32, order: u32) -> Vec<usize> {
    let side = 1 << order;
    let mut course: Vec<usize> = (0..side * side).collect();
    if kind != 0 {
        course.sort_by_key(|&at| morton(at % side, at / side));
    }
    course
}

pub fn case(random: &mut Random, count: &mut Count) {
    let (kind, order) = (random.below(2) as u32, random.pick(&[0, 1, 1, 2, 2, 3, 3, 4]));
    let (accounts, splits) = (palette(random), random.between(2, 7));
    let seen = Built::random(random, order, &accounts, splits).raster;
    let (course, before) = (course(kind, order), count.unfit());
    let mut known = Known { side: 1 << order, pixels: vec![None; course.len()] };
    let slots = (0..course.len() + random.below(3)).map(|_| random.next() as u32).collect();
    let mut living = Living::unmade(Record { kind, order, pixels: 0, tiles: 0 }, slots);
    assert_eq!(living.fresh(count, kind, order), 0);
    let mut rest = &course[..];
    loop {
        for _ in 0..random.below(4) {
            claim(random, count, &mut living, &mut known);
        }
        ask(random, count, &living, &known);
        if rest.is_empty() {
            break;
        }
        let (piece, behind) = rest.split_at(random.between(1, rest.len().min(course.len() / 4 + 1)));
        let accounts: Vec<u8> = piece.iter().map(|&at| seen[at]).collect();
        assert_eq!(living.feed(count, &accounts), (0, piece.len()), "a scan goes on behind any claim");
        piece.iter().for_each(|&at| known.pixels[at] = Some(seen[at]));
        rest = behind;
    }
    assert_eq!(living.feed(count, &[0]), (23, 0), "every pixel is scanned");
    assert_eq!(count.unfit(), before, "no call gives 21 or 22");
}

/// A claim is refused with 52 just where the camera has not been at all of the block.
fn claim(random: &mut Random, count: &mut Count, living: &mut Living, known: &mut Known) {
    let Record { order, .. } = living.record;
    let ((corner, size), account) = (block_near(random, living.record), random.below(64) as u8);
    if !block_in(order, corner, size) {
        assert_eq!(living.claim(count, corner, size, account), 32);
        return;
    }
    let block = known.block(corner, size);
    let scanned = block.iter().all(|&at| known.pixels[at].is_some());
    let expected = if scanned { 0 } else { 52 };
    assert_eq!(living.claim(count, corner, size, account), expected, "a claim in the middle of a scan");
    if scanned {
        block.iter().for_each(|&at| known.pixels[at] = Some(account));
    }
    let shown = count.shown(living.at(), corner, size).1;
    assert_eq!(shown.iter().map(|tile| area(tile.size)).sum::<u64>(), held(known, &block), "what the block shows");
}

/// How many of some pixels are known to be somebody's.
fn held(known: &Known, pixels: &[usize]) -> u64 {
    pixels.iter().filter(|&&at| known.pixels[at].is_some_and(|account| account != 0)).count() as u64
}

fn ask(random: &mut Random, count: &mut Count, living: &Living, known: &Known) {
    let (at, side) = (living.at(), known.side);
    let raster: Vec<u8> = known.pixels.iter().map(|account| account.unwrap_or(0)).collect();
    assert_eq!(count.decode(at, &vec![0x5a; raster.len()]), (0, raster), "unscanned pixels decode to 0");
    let anywhere = (random.below(side) as u32, random.below(side) as u32);
    for (column, row) in [front(random, living.record), anywhere] {
        let pixel = known.pixels[row as usize * side + column as usize];
        let (number, named) = count.lookup(at, column, row);
        assert_eq!((number, named.account), pixel.map_or((52, 0), |account| (0, account)), "a lookup");
        let inside = known.block(named.corner as u32, named.size);
        assert!(number != 0 || inside.iter().all(|&at| known.pixels[at] == pixel), "the block named");
        let table = tables::any(random);
        assert_eq!(count.rights(&table, at, column, row, 3).0, number, "rights where a lookup is answered");
    }
    let (number, file) = count.write(at, &vec![0x5a; 6 + 9 * living.slots.len()]);
    assert_eq!(number, if known.whole() { 0 } else { 52 }, "a file is of a finished scan");
    if number == 0 {
        assert_eq!(count.read(&file, &mut living.slots.clone()), (0, living.record.order, living.record.tiles));
    }
}
