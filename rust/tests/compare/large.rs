//! Large beds: lists known by construction, by a rule of the bed, and by the plain implementation.

use crate::changing::stopped;
use crate::combine;
use crate::damage;
use crate::living::Living;
use crate::pair::{kind_of, record_of, Count};
use crate::plain::bed::Bed;
use crate::plain::tally::Tally;
use crate::plain::{area, left, Record};
use crate::random::{palette, Built, Random};
use crate::sequences::{block, block_near, front};
use crate::tables;
use kingletbed::raw;

const ORDER: u32 = 10;
const SIDE: usize = 1 << ORDER;
const PIXELS: usize = SIDE * SIDE;

/// Rectangles of accounts on nobody's ground.
fn boards(random: &mut Random) -> Vec<u8> {
    let mut raster = vec![0; PIXELS];
    for _ in 0..60 {
        let (column, row) = (random.below(SIDE), random.below(SIDE));
        let (width, height) = (random.between(1, 300).min(SIDE - column), random.between(1, 300).min(SIDE - row));
        let account = random.below(64) as u8;
        for y in row..row + height {
            raster[y * SIDE + column..y * SIDE + column + width].fill(account);
        }
    }
    raster
}

/// One account for each pixel, from all of them.
fn noise(random: &mut Random) -> Vec<u8> {
    (0..PIXELS).map(|_| random.below(64) as u8).collect()
}

fn in_scan_order(kind: u32, raster: &[u8]) -> Vec<u8> {
    let bed = Bed::fresh(kind, ORDER).expect("order 10");
    (0..area(ORDER)).map(|place| raster[bed.index_of_place(place)]).collect()
}

/// Feeds in pieces of a length, with m slots, by the raw calls and through a bed: the number that stopped it, the
/// pixels taken, the tile count after each piece, the slots.
fn fed(kind: u32, m: usize, accounts: &[u8], piece: usize) -> (u32, usize, Vec<usize>, Vec<u32>) {
    let mut slots = vec![u32::MAX; m];
    let fresh = raw::fresh(kind, ORDER, &mut slots);
    assert_eq!((fresh.number, fresh.kind, fresh.order, fresh.pixels, fresh.tiles), (0, kind, ORDER, 0, 0));
    let mut bed = kingletbed::Bed::fresh(kind_of(kind), ORDER, vec![u32::MAX; m]).expect("order 10");
    let (mut record, mut counts, mut total) = (record_of(&bed), Vec::new(), 0);
    for accounts in accounts.chunks(piece) {
        let f = raw::feed(kind, ORDER, record.pixels, record.tiles, &mut slots, accounts);
        record = Record { kind: f.kind, order: f.order, pixels: f.pixels, tiles: f.tiles };
        total += f.taken;
        counts.push(f.tiles);
        assert_eq!((f.kind, f.order, f.pixels as usize), (kind, ORDER, total));
        assert_eq!(stopped(bed.feed(accounts), accounts), (f.number, f.taken), "a feed of a bed");
        assert_eq!(record_of(&bed), record, "a bed after a feed");
        if f.number != 0 {
            assert!(bed.slots() == slots, "the slots of a bed whose feed was stopped");
            return (f.number, total, counts, slots);
        }
        assert_eq!(f.taken, accounts.len(), "a feed that is not refused takes all");
    }
    assert!(bed.slots() == slots, "the slots of a bed");
    (0, total, counts, slots)
}

/// The number of blocks after each pixel of a scan.
fn course(kind: u32, accounts: &[u8]) -> Vec<usize> {
    let bed = Bed::fresh(kind, ORDER).expect("order 10");
    let mut tally = Tally::of(&bed);
    accounts.iter().enumerate().map(|(place, &account)| tally.set(bed.index_of_place(place as u64), account)).collect()
}

/// Scans a bed whose list is known, with enough slots at once and in pieces, then with just enough and with one too
/// few.
fn scans(raster: &[u8], words: &[u32], kind: u32, piece: usize) {
    let accounts = in_scan_order(kind, raster);
    let counts = course(kind, &accounts);
    assert_eq!(counts[PIXELS - 1], words.len(), "the tally's last count");
    let most = counts.iter().copied().max().expect("a bed has pixels");
    let expected = |m: usize| words.iter().copied().chain(std::iter::repeat(0)).take(m).collect::<Vec<u32>>();
    let same = |got: &[u32], m: usize| assert!(got == expected(m), "the slots after a scan of order 10");

    let (number, taken, last, slots) = fed(kind, PIXELS, &accounts, PIXELS);
    assert_eq!((number, taken, last), (0, PIXELS, vec![words.len()]));
    same(&slots, PIXELS);
    let (number, taken, after, slots) = fed(kind, most, &accounts, piece);
    assert_eq!((number, taken), (0, PIXELS), "just enough slots");
    let pieces: Vec<usize> = counts.chunks(piece).map(|counts| counts[counts.len() - 1]).collect();
    assert_eq!(after, pieces, "tile counts after each piece");
    same(&slots, most);
    if most > 0 {
        let stop = counts.iter().position(|&count| count == most).expect("the most is met");
        let (number, taken, _, slots) = fed(kind, most - 1, &accounts, PIXELS);
        assert_eq!((number, taken), (25, stop), "one slot too few");
        let mut bed = Bed::fresh(kind, ORDER).expect("order 10");
        for (place, &account) in accounts[..stop].iter().enumerate() {
            let at = bed.index_of_place(place as u64);
            bed.accounts[at] = account;
        }
        assert!(slots == left(most - 1, &bed.blocks()), "the slots of a stopped feed");
    }
}

/// The other calls on a large map.
fn others(random: &mut Random, count: &mut Count, raster: &[u8], words: &[u32]) {
    let at = (ORDER, words.len(), words);
    assert_eq!(count.check(at), 0);
    assert!(count.decode(at, &vec![0xaa; PIXELS]).1 == raster, "decoding a large bed");
    for _ in 0..2 {
        let (column, row) = (random.below(SIDE), random.below(SIDE));
        let (number, named) = count.lookup(at, column as u32, row as u32);
        assert_eq!((number, named.account), (0, raster[row * SIDE + column]));
        let near = (column as u32 ^ random.below(16) as u32, row as u32 ^ random.below(16) as u32);
        count.lookups(at, (column as u32, row as u32), near);
        count.rights(&tables::any(random), at, column as u32, row as u32, random.between(1, 63) as u8);
        let (corner, size) = block(random, ORDER);
        count.part(at, corner, size);
        count.shown(at, corner, size);
    }
    let (number, file) = count.write(at, &vec![0xaa; 6 + 4 * words.len() + 5 * 63]);
    assert_eq!(number, 0);
    let mut slots = vec![1; words.len() + 100];
    assert_eq!(count.read(&file, &mut slots), (0, ORDER, words.len()));
    assert!(slots[..words.len()] == *words, "a large file read back");
    let mut living = Living::of_scan(Record::whole(ORDER, words.len()), &slots);
    for _ in 0..3 {
        let (corner, size) = block(random, ORDER);
        living.claim(count, corner, size, random.below(64) as u8);
    }
    assert_eq!(living.feed(count, &[1]), (23, 0));
    let (choice, zones) = (random.below(2) as u32, combine::second(random, ORDER, raster));
    count.combine_rooms(random, choice, at, (ORDER, zones.len(), &zones));
    let mut bad = words.to_vec();
    damage::list(random, &mut bad, ORDER);
    count.check((ORDER, bad.len(), &bad));
    count.combine(choice, at, (ORDER, bad.len(), &bad), &mut vec![1; 4]);
    let mut bytes = file;
    damage::file(random, &mut bytes, words.len());
    count.read(&bytes, &mut slots);
}

/// The calls that take a record, on a scan of a large bed that is not finished, and how it goes on.
fn unfinished(random: &mut Random, count: &mut Count, raster: &[u8]) {
    let (kind, pixels) = (random.below(2) as u32, random.below(PIXELS) as u32);
    let (record, built) = Built { order: ORDER, words: Vec::new(), raster: raster.to_vec() }.upto(kind, pixels);
    let mut slots = built.words;
    slots.resize(record.tiles + 1000, 1);
    let mut living = Living::of_scan(record, &slots);
    count.lookups(living.at(), front(random, record), front(random, record));
    let (column, row) = front(random, record);
    count.rights(&tables::any(random), living.at(), column, row, random.between(1, 63) as u8);
    assert_eq!(count.write(living.at(), &[0xaa; 9]).0, 52);
    for _ in 0..2 {
        let (corner, size) = block_near(random, record);
        living.claim(count, corner, size, random.below(64) as u8);
    }
    let next: Vec<u8> = in_scan_order(kind, raster)[pixels as usize..].iter().copied().take(900).collect();
    assert_eq!(living.feed(count, &next), (0, next.len()), "a large scan goes on behind a claim");
}

/// Third maps of the regular beds by their rules. In the last all the second map's tiles, one for each pixel, merge to
/// one.
fn combined(count: &mut Count, uniform: &[u32], checkerboard: &[u32], stripes: &[u32]) {
    let ones = |kept: fn(u32) -> bool, account: fn(u32) -> u32| {
        (0..PIXELS as u32).filter(|&z| kept(z)).map(|z| z << 10 | account(z)).collect::<Vec<u32>>()
    };
    let thirds = [
        (0, uniform, checkerboard, ones(|z| z % 4 == 0 || z % 4 == 3, |_| 63)),
        (1, uniform, checkerboard, ones(|z| z % 4 == 1 || z % 4 == 2, |_| 63)),
        (0, stripes, checkerboard, ones(|z| z % 4 == 0 || z % 4 == 3, |z| 1 + z % 2)),
        (1, stripes, uniform, vec![]),
        (0, checkerboard, uniform, checkerboard.to_vec()),
        (0, stripes, stripes, stripes.to_vec()),
        (0, uniform, stripes, uniform.to_vec()),
    ];
    for (choice, first, second, third) in thirds {
        let (first, second) = ((ORDER, first.len(), first), (ORDER, second.len(), second));
        let mut out = vec![1; third.len()];
        assert_eq!(count.combine(choice, first, second, &mut out), (0, third.len()));
        assert!(out == third, "a third map of two beds known by their rules");
    }
}

/// A bed of each pattern; the list of the regular ones by their rule, of the others by the plain implementation.
pub fn patterns(random: &mut Random, count: &mut Count) {
    let word = |z: u32, account: u32| z << 10 | account;
    let uniform = vec![63; PIXELS];
    let checkerboard: Vec<u8> = (0..PIXELS).map(|at| if (at % SIDE + at / SIDE) % 2 == 0 { 5 } else { 0 }).collect();
    // On a checkerboard the pixels NW and SE of every block of four.
    let alternate: Vec<u32> = (0..PIXELS as u32).filter(|z| z % 4 == 0 || z % 4 == 3).map(|z| word(z, 5)).collect();
    // No block of four has one account.
    let stripes: Vec<u8> = (0..PIXELS).map(|at| 1 + (at % SIDE % 2) as u8).collect();
    let single: Vec<u32> = (0..PIXELS as u32).map(|z| word(z, 1 + z % 2)).collect();
    let plain = |raster: &[u8]| combine::words(ORDER, raster);
    let (boards, noise) = (boards(random), noise(random));
    let (of_boards, of_noise) = (plain(&boards), plain(&noise));
    let beds =
        [(uniform, vec![703]), (checkerboard, alternate), (stripes, single), (boards, of_boards), (noise, of_noise)];
    combined(count, &beds[0].1, &beds[1].1, &beds[2].1);
    for (raster, words) in beds {
        assert!(plain(&raster) == words, "the plain blocks of a bed known by its rule");
        // Every feed looks at the whole list: row by row where it is short.
        let piece = if words.len() < 50_000 { SIDE } else { 33 * SIDE + 7 };
        scans(&raster, &words, 0, piece);
        scans(&raster, &words, 1, 100_003);
        others(random, count, &raster, &words);
        unfinished(random, count, &raster);
    }
}

/// A bed of order 10 built together with its list.
pub fn case(random: &mut Random, count: &mut Count) {
    let (accounts, splits) = (palette(random), random.between(5, 7));
    let built = Built::random(random, ORDER, &accounts, splits);
    let piece = random.pick(&[SIDE * 4, 33_333, PIXELS / 2 + 1]);
    scans(&built.raster, &built.words, random.below(2) as u32, piece);
    others(random, count, &built.raster, &built.words);
    unfinished(random, count, &built.raster);
}
