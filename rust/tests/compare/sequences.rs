//! Random lists of calls on the same few slots and through one bed that lives, beside the plain bed. The plain bed sees
//! what the calls are handed besides record and slots, nothing of these.

use crate::combine::{garbage, CHOICES};
use crate::damage;
use crate::living::Living;
use crate::pair::{At, Count};
use crate::plain::bed::Bed;
use crate::plain::{area, file, left, morton, pixel, Record, Tile};
use crate::random::{palette, Built, Random};
use crate::tables::{self, InForce};

/// The bed that lives, with its record and slots, and the plain bed once a call was accepted; and the table in force.
struct State {
    living: Living,
    bed: Option<Bed>,
    /// Accounts in the order of the scan, for feeds to follow.
    wanted: Vec<u8>,
    in_force: InForce,
}

pub fn case(random: &mut Random, count: &mut Count) {
    let slots = match random.below(10) {
        0 => 0,
        1..=6 => random.between(1, 14),
        7 | 8 => random.between(15, 70),
        _ => 300,
    };
    // What record and slots hold before the first accepted call is arbitrary.
    let record = Record {
        kind: random.below(3) as u32,
        order: random.below(12) as u32,
        pixels: random.below(70) as u32,
        tiles: random.below(slots + 2),
    };
    let slots = (0..slots).map(|_| if random.once_in(2) { random.next() as u32 } else { 0 }).collect();
    let in_force = InForce::of((0..15).map(|_| random.pick(&[0, 1, 1, 255])).collect());
    let mut state = State { living: Living::unmade(record, slots), bed: None, wanted: Vec::new(), in_force };
    let begin = random.below(4);
    for step in 0..random.between(5, 40) {
        let call = if step == begin { random.below(2) } else { random.below(24) };
        let before = state.bed.is_some().then(|| count.unfit());
        match call {
            0 => fresh(random, count, &mut state),
            1 => read(random, count, &mut state),
            2..=9 => feed(random, count, &mut state),
            10..=14 => claim(random, count, &mut state),
            15 | 16 => combine(random, count, &mut state),
            17 => {
                state.in_force.load(count, &tables::file(random));
            }
            _ => ask(random, count, state.living.at(), &state.in_force.bytes),
        }
        if let Some(before) = before {
            assert_eq!(count.unfit(), before, "a record answered goes with its slots: no call gives 21 or 22");
        }
        compare_left(count, &state);
    }
}

fn small_order(random: &mut Random) -> u32 {
    random.pick(&[0, 1, 1, 2, 2, 2, 2, 3, 3, 3, 4, 5])
}

fn fresh(random: &mut Random, count: &mut Count, state: &mut State) {
    let order = if random.once_in(12) { random.pick(&[11, 12, 255, 256, 258, u32::MAX]) } else { small_order(random) };
    let kind = if random.once_in(12) { random.pick(&[2, 256, u32::MAX]) } else { random.below(2) as u32 };
    let number = state.living.fresh(count, kind, order);
    match Bed::fresh(kind.min(1), order) {
        Ok(bed) => {
            assert_eq!(number, 0, "fresh: the plain bed accepts");
            let splits = random.between(2, 7);
            let accounts = palette(random);
            let built = Built::random(random, order, &accounts, splits);
            state.wanted = (0..area(order)).map(|place| built.raster[bed.index_of_place(place)]).collect();
            state.bed = Some(bed);
        }
        Err(refused) => assert_eq!(number, refused, "fresh: the plain bed refuses"),
    }
}

fn feed(random: &mut Random, count: &mut Count, state: &mut State) {
    let from = state.living.record.pixels as usize;
    let length = match random.below(8) {
        0 => 0,
        1..=4 => random.between(1, 12),
        5 | 6 => random.between(1, 90),
        _ => state.wanted.len() + 1,
    };
    let mut accounts: Vec<u8> =
        (from..from + length).map(|place| state.wanted.get(place).copied().unwrap_or(7)).collect();
    for _ in 0..random.below(3) {
        if length > 0 {
            let at = random.below(length);
            accounts[at] = if random.once_in(3) { random.pick(&[64, 65, 128, 255]) } else { random.below(64) as u8 };
        }
    }
    let answer = state.living.feed(count, &accounts);
    if let Some(bed) = &mut state.bed {
        assert_eq!(answer, bed.feed(state.living.slots.len(), &accounts), "feed: the plain bed answers otherwise");
    }
}

/// An account to claim for, often that of the first tile, now and then none.
fn given(random: &mut Random, slots: &[u32]) -> u8 {
    match random.below(8) {
        0 => random.pick(&[64, 100, 255]),
        1 | 2 => 0,
        3 => random.below(64) as u8,
        _ => slots.first().map_or(5, |word| (word % 64) as u8),
    }
}

/// A preview and then its claim; the count previewed is that of the plain bed's blocks afterwards.
fn claim(random: &mut Random, count: &mut Count, state: &mut State) {
    let (corner, size) = block_near(random, state.living.record);
    let account = given(random, &state.living.slots);
    let m = state.living.slots.len();
    let preview = count.preview(state.living.at(), corner, size, account);
    let number = state.living.claim(count, corner, size, account);
    if let Some(bed) = &mut state.bed {
        assert_eq!(number, bed.claim(m, corner, size, account), "claim: the plain bed answers otherwise");
        let tiles = if number == 0 { bed.blocks().len() } else { 0 };
        assert_eq!(preview, (number, tiles), "preview: the plain bed answers otherwise");
    }
}

fn read(random: &mut Random, count: &mut Count, state: &mut State) {
    let (order, splits) = (small_order(random), random.between(2, 6));
    let accounts = palette(random);
    let built = Built::random(random, order, &accounts, splits);
    let tiles: Vec<Tile> = built.words.iter().map(|&word| Tile::of_word(word)).collect();
    let mut bytes = file::write(order, &tiles);
    if random.once_in(3) {
        damage::file(random, &mut bytes, built.words.len());
    }
    let number = state.living.read(count, &bytes);
    match Bed::read(state.living.slots.len(), &bytes) {
        Ok(bed) => {
            assert_eq!(number, 0, "read: the plain bed accepts");
            state.bed = Some(bed);
        }
        Err(refused) => assert_eq!(number, refused, "read: the plain bed refuses"),
    }
}

/// A second map, and the third in the slots of the first.
fn combine(random: &mut Random, count: &mut Count, state: &mut State) {
    let (choice, built) = (random.pick(&CHOICES), beside(random, state.living.record.order));
    let m = state.living.slots.len();
    let number = state.living.combine(count, choice, (built.order, built.words.len(), &built.words));
    let Some(bed) = &mut state.bed else { return };
    match bed.combine(m, choice, &Bed::whole(built.order, built.raster)) {
        Ok(third) => {
            assert_eq!(number, 0, "combine: the plain bed accepts");
            *bed = third;
        }
        Err(refused) => assert_eq!(number, refused, "combine: the plain bed refuses"),
    }
}

/// A bed beside one of an order, of the same order more often than not.
fn beside(random: &mut Random, order: u32) -> Built {
    let order = if random.once_in(6) { small_order(random) } else { order.min(5) };
    let (accounts, splits) = (palette(random), random.between(1, 6));
    Built::random(random, order, &accounts, splits)
}

/// A block of the bed, now and then one that is none.
pub fn block(random: &mut Random, order: u32) -> (u32, u32) {
    if random.once_in(8) {
        return (random.next() as u32 >> random.below(32), random.below(14) as u32);
    }
    let size = random.below(order.min(10) as usize + 1) as u32;
    let corner = random.below(area(order.min(10) - size) as usize) as u32 * area(size) as u32;
    (corner, size)
}

/// A pixel of the bed: about the place that its scan has come to.
pub fn front(random: &mut Random, record: Record) -> (u32, u32) {
    let order = record.order.min(10);
    let last = area(order) - 1;
    let place = (u64::from(record.pixels) + random.below(3) as u64).saturating_sub(random.below(6) as u64).min(last);
    let (column, row) = match record.kind {
        0 => (place as usize % (1 << order), place as usize / (1 << order)),
        _ => pixel(place),
    };
    (column as u32, row as u32)
}

/// A pixel anywhere on the bed or just off it, or about the place that its scan has come to.
fn point(random: &mut Random, record: Record) -> (u32, u32) {
    if random.once_in(3) {
        return front(random, record);
    }
    let side = 1usize << record.order.min(10);
    (random.below(side + 1) as u32, random.below(side + 1) as u32)
}

/// A block anywhere, now and then one that is none, or one with a pixel about the place that the scan has come to.
pub fn block_near(random: &mut Random, record: Record) -> (u32, u32) {
    if random.once_in(2) {
        return block(random, record.order);
    }
    let (column, row) = front(random, record);
    let size = random.below(record.order.min(10) as usize + 1).min(random.below(3)) as u32;
    let corner = morton(column as usize, row as usize) as u32;
    (corner - corner % area(size) as u32, size)
}

/// The calls that change nothing. Rights go by the table handed in, or now and then by any other.
pub fn ask(random: &mut Random, count: &mut Count, at: At, table: &[u8]) {
    let (Record { order, .. }, slots) = (at.record, at.slots);
    let (column, row) = point(random, at.record);
    match random.below(9) {
        0 => {
            count.check(at);
        }
        1 => {
            let length = if random.once_in(3) { random.below(70) } else { area(order.min(5)) as usize };
            count.decode(at, &vec![0x5a; length]);
        }
        2 => {
            let other = point(random, at.record);
            let near = (column ^ random.below(4) as u32, row ^ random.below(4) as u32);
            count.lookups(at, (column, row), if random.once_in(2) { near } else { other });
        }
        3 => {
            let (corner, size) = block_near(random, at.record);
            count.part(at, corner, size);
        }
        4 => {
            let (corner, size) = block_near(random, at.record);
            count.shown(at, corner, size);
        }
        5 => {
            let asking = if random.once_in(8) { random.next() as u8 } else { random.between(1, 63) as u8 };
            let table = if random.once_in(3) { tables::any(random) } else { table.to_vec() };
            count.rights(&table, at, column, row, asking);
        }
        6 => third(random, count, at),
        7 => {
            let (corner, size) = block_near(random, at.record);
            count.preview(at, corner, size, given(random, slots));
        }
        _ => {
            let room = random.below(6 + 4 * slots.len() + 5 * slots.len().min(63) + 3);
            count.write(at, &vec![0x5a; room]);
        }
    }
}

/// The map as the first and as the second of two, and as both.
fn third(random: &mut Random, count: &mut Count, at: At) {
    let (choice, built) = (random.pick(&CHOICES), beside(random, at.record.order));
    let other = (built.order, built.words.len(), &built.words[..]).into();
    for (first, second) in [(at, other), (other, at), (at, at)] {
        count.combine(choice, first, second, &mut garbage(random, 0, 40));
    }
}

/// The list left is the plain bed's blocks, and decodes to its accounts.
fn compare_left(count: &mut Count, state: &State) {
    let Some(bed) = &state.bed else { return };
    let Living { record, slots, .. } = &state.living;
    let blocks = bed.blocks();
    assert_eq!(record.tiles, blocks.len(), "the tile count left");
    assert_eq!(*slots, left(slots.len(), &blocks), "the slots left");
    assert_eq!((record.order, record.kind), (bed.order, bed.kind), "the record left");
    assert_eq!(u64::from(record.pixels), bed.scanned, "the pixels scanned");
    let (number, raster) = count.decode(state.living.at(), &vec![0x5a; bed.accounts.len()]);
    assert_eq!(number, 0, "decoding what was left");
    assert_eq!(raster, bed.accounts, "what was left, decoded");
}
