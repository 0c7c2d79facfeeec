//! Feeds of many pixels at once. By rows they begin at row starts of every alignment and in the middle of a row, in
//! Morton order at every remainder by four. They end anywhere, past the bed too, and have a bad byte at any place. The
//! slots are enough, just enough, or too few by some.

use crate::pair::Count;
use crate::plain::bed::Bed;
use crate::plain::tally::Tally;
use crate::plain::{area, Record};
use crate::random::{palette, Built, Random};

/// Bytes that are no account.
const BAD: [u8; 2] = [64, 255];

/// A scan to be made: the accounts as they come, and how many tiles there are after each number of pixels.
struct Scan {
    kind: u32,
    order: u32,
    raster: Vec<u8>,
    accounts: Vec<u8>,
    counts: Vec<usize>,
}

impl Scan {
    fn of(kind: u32, order: u32, raster: Vec<u8>) -> Scan {
        let bed = Bed::fresh(kind, order).expect("an order");
        let places: Vec<usize> = (0..area(order)).map(|place| bed.index_of_place(place)).collect();
        let (mut tally, mut counts) = (Tally::of(&bed), vec![0]);
        counts.extend(places.iter().map(|&at| tally.set(at, raster[at])));
        let accounts = places.iter().map(|&at| raster[at]).collect();
        Scan { kind, order, raster, accounts, counts }
    }

    fn pixels(&self) -> usize {
        self.accounts.len()
    }

    fn side(&self) -> usize {
        1 << self.order
    }

    /// The accounts from one place up to another. Behind its end the bed begins again.
    fn piece(&self, from: usize, upto: usize) -> Vec<u8> {
        self.accounts.iter().copied().cycle().skip(from).take(upto - from).collect()
    }

    /// The least number of slots that takes the pixels from one place up to another.
    fn enough(&self, from: usize, upto: usize) -> usize {
        self.counts[from..=upto.min(self.pixels())].iter().copied().max().expect("a count")
    }

    /// Numbers of slots around what a feed needs, none less than it finds tiles in them.
    fn rooms(&self, from: usize, upto: usize) -> Vec<usize> {
        let (found, enough, last) = (self.counts[from], self.enough(from, upto), self.counts[upto.min(self.pixels())]);
        let mut rooms: Vec<usize> = (0..5).map(|few| enough.saturating_sub(few)).collect();
        rooms.extend([enough + 1, last, found, found + 1, (found + enough) / 2, self.pixels()]);
        rooms.retain(|&room| room >= found);
        rooms.sort();
        rooms.dedup();
        rooms
    }

    /// One feed, of pixels from a place on, bad bytes among them: what stops it is known from the counts alone.
    fn feed(&self, count: &mut Count, from: usize, fed: &[u8], slots: usize) -> (u32, usize) {
        let built = Built { order: self.order, words: Vec::new(), raster: self.raster.clone() };
        let (record, Built { mut words, .. }) = built.upto(self.kind, from as u32);
        assert_eq!(record.tiles, self.counts[from], "the tally's count");
        words.resize(slots, 0x5a5a_5a5a);
        let (number, taken, after) = count.feed(record, &mut words, fed);
        assert_eq!((number, taken), self.stop(from, fed, slots), "{} from {from} on, {slots} slots", fed.len());
        let (pixels, tiles) = (from + taken, self.counts[from + taken]);
        assert_eq!(after, Record { pixels: pixels as u32, tiles, ..record });
        (number, taken)
    }

    fn stop(&self, from: usize, fed: &[u8], slots: usize) -> (u32, usize) {
        for (taken, &account) in fed.iter().enumerate() {
            if from + taken == self.pixels() {
                return (23, taken);
            }
            if account > 63 {
                return (24, taken);
            }
            if self.counts[from + taken + 1] > slots {
                return (25, taken);
            }
        }
        (0, fed.len())
    }
}

/// Rectangles of accounts on nobody's ground, some of them beginning at even places.
fn boards(random: &mut Random, side: usize) -> Vec<u8> {
    let mut raster = vec![0; side * side];
    for _ in 0..6 {
        let even = random.pick(&[0, 0, 1, 3]);
        let (column, row) = (random.below(side) & !even, random.below(side) & !even);
        let (width, height) = (random.between(1, side - column), random.between(1, side - row));
        let account = random.pick(&[0, 1, 2, 63]);
        (row..row + height).for_each(|row| raster[row * side + column..][..width].fill(account));
    }
    raster
}

/// Beds of an order: by a rule for each column and row, and at random.
fn beds(random: &mut Random, order: u32) -> Vec<Vec<u8>> {
    let side = 1usize << order;
    let rules: [fn(usize, usize) -> usize; 9] = [
        |_, _| 63,
        |_, _| 0,
        |column, row| (column + row) % 2 * 9,
        |column, _| 1 + column % 2,
        |_, row| 1 + row % 2,
        |_, row| row / 2 % 2 * 5,
        |column, row| 1 + (column / 2 + row / 2) % 2,
        |column, row| (column / 2 + row / 2) % 2 * 5,
        |column, row| 1 + (column / 4 + row / 4) % 2,
    ];
    let by_rule =
        |rule: fn(usize, usize) -> usize| (0..side * side).map(|at| rule(at % side, at / side) as u8).collect();
    let mut beds: Vec<Vec<u8>> = rules.into_iter().map(by_rule).collect();
    let mut mixed = |accounts: &[u8]| (0..side * side).map(|_| random.pick(accounts)).collect();
    beds.extend([mixed(&[0, 1, 2]), mixed(&[7, 7, 7, 7, 7, 7, 7, 8])]);
    let mut one_off = vec![63; side * side];
    one_off[random.below(side * side)] = random.pick(&[0, 62]);
    let (accounts, splits) = (palette(random), random.between(5, 7));
    beds.extend([one_off, boards(random, side), Built::random(random, order, &accounts, splits).raster]);
    beds
}

/// Every start of a small bed; every end from the start of a row, or of a quad, on, and every fifth from elsewhere.
/// From such a start the whole rest goes to every number of slots.
fn every(count: &mut Count, scan: &Scan) {
    let (pixels, step) = (scan.pixels(), if scan.kind == 0 { scan.side() } else { 4 });
    for from in 0..=pixels {
        let rest = scan.piece(from, pixels);
        let rooms = if from % step == 0 { (scan.counts[from]..pixels + 2).collect() } else { scan.rooms(from, pixels) };
        for slots in rooms {
            scan.feed(count, from, &rest, slots);
        }
        for upto in (from..pixels + 3).step_by(if from % step == 0 { 1 } else { 5 }) {
            let (piece, enough) = (scan.piece(from, upto), scan.enough(from, upto));
            for slots in [enough, pixels, enough.saturating_sub(1).max(scan.counts[from])] {
                scan.feed(count, from, &piece, slots);
            }
        }
        past(count, scan, from);
    }
}

/// The rest of a bed from a place on, and behind it two bytes that are no accounts, as many pixels as the bed has, or
/// three times as many.
fn past(count: &mut Count, scan: &Scan, from: usize) {
    let (pixels, enough) = (scan.pixels(), scan.enough(from, scan.pixels()));
    let rest = scan.piece(from, pixels);
    for fed in [[rest, BAD.to_vec()].concat(), scan.piece(from, 2 * pixels), scan.piece(from, 4 * pixels + 1)] {
        assert_eq!(scan.feed(count, from, &fed, enough), (23, pixels - from));
        assert_eq!(scan.feed(count, from, &fed, pixels), (23, pixels - from));
    }
}

/// Starts in each row, or in so many of any alignment: at its first pixel, or at another. Each piece goes to some of the
/// numbers of slots.
fn some(random: &mut Random, count: &mut Count, scan: &Scan, starts: usize) {
    let (pixels, side) = (scan.pixels(), scan.side());
    for start in 0..starts {
        let aligned = random.below(scan.order as usize + 1);
        let row = if starts < side { random.below(side) >> aligned << aligned } else { start };
        let from = row * side + if random.once_in(2) { random.below(side) } else { 0 };
        let upto = if random.once_in(3) { random.between(from, pixels) } else { pixels + random.pick(&[0, 5]) };
        let (piece, mut rooms) = (scan.piece(from, upto), scan.rooms(from, upto));
        while rooms.len() > 4 {
            rooms.remove(random.below(rooms.len()));
        }
        rooms.extend([pixels, random.between(scan.counts[from], pixels)]);
        for slots in rooms {
            scan.feed(count, from, &piece, slots);
        }
    }
}

/// Bad bytes at each place of a bed, or at one in so many: fed from the first pixel on, from the start of a row ahead of
/// the place and from any pixel ahead, with a slot for each pixel, with just enough and with fewer.
fn bad(random: &mut Random, count: &mut Count, scan: &Scan, one_in: usize) {
    let (pixels, side) = (scan.pixels(), scan.side());
    for place in (random.below(one_in)..pixels).step_by(one_in) {
        let (row, any, few) = (random.below(place / side + 1) * side, random.between(0, place), random.between(1, 4));
        let feeds = [(0, None, BAD[0]), (row, None, BAD[1]), (any, Some(0), BAD[0]), (0, Some(few), BAD[1])];
        for (from, fewer, byte) in feeds {
            let mut piece = scan.piece(from, pixels);
            piece[place - from] = byte;
            let room = fewer.map_or(pixels, |fewer| scan.enough(from, place).saturating_sub(fewer));
            let (number, taken) = scan.feed(count, from, &piece, room.max(scan.counts[from]));
            assert!(fewer.is_some_and(|fewer| fewer > 0) || (number, from + taken) == (24, place), "a bad byte");
        }
    }
}

pub fn all(random: &mut Random, count: &mut Count) {
    let fed = |count: &Count, number| count.met.get(&("feed", number)).copied().unwrap_or(0);
    let before = [0, 23, 24, 25].map(|number| (number, fed(count, number)));
    for (kind, order) in (0..2).flat_map(|kind| [0, 1, 2, 3, 4, 5, 7].map(|order| (kind, order))) {
        for raster in beds(random, order) {
            let scan = Scan::of(kind, order, raster);
            match order {
                0..=3 => every(count, &scan),
                4 => some(random, count, &scan, 16),
                5 => some(random, count, &scan, 2),
                _ => some(random, count, &scan, 4),
            }
            match order {
                0..=4 => bad(random, count, &scan, 1),
                5 => bad(random, count, &scan, 101),
                _ => bad(random, count, &scan, scan.pixels()),
            }
        }
    }
    for (number, before) in before {
        let met = fed(count, number) - before;
        assert!(met > 10_000, "feeds of many pixels were answered {number} only {met} times");
    }
}

/// A piece of a bed at random, with some numbers of slots, and bad bytes at a place.
pub fn case(random: &mut Random, count: &mut Count) {
    let (kind, order) = (random.below(2) as u32, random.pick(&[1, 2, 3, 3, 4, 4, 4, 5, 7]));
    let mut beds = beds(random, order);
    let scan = Scan::of(kind, order, beds.swap_remove(random.below(beds.len())));
    some(random, count, &scan, 1);
    bad(random, count, &scan, scan.pixels());
}
