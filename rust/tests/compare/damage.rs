//! Lists and files with something wrong in them, and every call on them.

use crate::combine::{garbage, CHOICES};
use crate::pair::{At, Count};
use crate::plain::{area, file as plain_file, Record, Tile};
use crate::random::{palette, Built, Random};
use crate::sequences::{ask, block_near};
use crate::tables;

/// A record and a list that may be bad.
struct Bad {
    record: Record,
    slots: Vec<u32>,
}

impl Bad {
    /// A scan of a bed of an order whose list was damaged once or twice, or not at all.
    fn random(random: &mut Random, order: u32) -> Bad {
        let splits = random.between(2, 7);
        let accounts = palette(random);
        let (record, Built { mut words, .. }) = Built::random(random, order, &accounts, splits).scan(random);
        for _ in 0..random.below(3) {
            list(random, &mut words, order);
        }
        let mut bad = Bad { record: Record { tiles: words.len(), ..record }, slots: words };
        bad.slots.extend((0..random.below(4)).map(|_| 0x3fff_ffff));
        match random.below(12) {
            0 => bad.record.order = random.pick(&[0, 1, 3, 10, 11, 255, 256, 257, u32::MAX]),
            1 => bad.record.tiles = bad.slots.len() + random.pick(&[0, 1, 2, usize::MAX / 2 - 100]),
            2 => bad.record.tiles = random.below(bad.slots.len() + 1),
            3 | 4 => bad.record.pixels = pixels(random, order),
            5 => bad.record.kind = random.below(3) as u32,
            _ => {}
        }
        bad
    }

    fn at(&self) -> At<'_> {
        (self.record, &self.slots).into()
    }
}

/// Pixels that need not go with a list, and may be more than the bed has.
fn pixels(random: &mut Random, order: u32) -> u32 {
    let most = area(order.min(6)) as u32;
    match random.below(4) {
        0 | 1 => random.below(most as usize + 1) as u32,
        2 => most + random.below(3) as u32,
        _ => u32::MAX - random.below(3) as u32,
    }
}

/// Every call on a scan whose list was damaged once or twice, or whose record does not go with it.
pub fn list_case(random: &mut Random, count: &mut Count) {
    let order = random.pick(&[0, 1, 2, 2, 3, 3, 4, 5]);
    let mut bad = Bad::random(random, order);
    count.check(bad.at());
    let table = tables::any(random);
    for _ in 0..4 {
        ask(random, count, bad.at(), &table);
    }
    let fed: Vec<u8> = (0..random.below(6)).map(|_| random.below(66) as u8).collect();
    count.feed(bad.record, &mut bad.slots.clone(), &fed);
    let (corner, size) = block_near(random, bad.record);
    let account = random.below(66) as u8;
    count.claim(bad.record, &mut bad.slots, corner, size, account);
}

/// Two lists of which either, both or none may be bad, combined both ways round, and a slice with itself by the same
/// tile count and by another; the orders may differ.
pub fn pair_case(random: &mut Random, count: &mut Count) {
    let order = random.pick(&[0, 1, 2, 2, 3, 3]);
    let other = if random.once_in(4) { random.pick(&[0, 1, 2, 3, 4]) } else { order };
    let (one, two) = (Bad::random(random, order), Bad::random(random, other));
    let (one, two) = (one.at(), two.at());
    let other = At { record: Record { tiles: random.below(one.slots.len() + 2), ..one.record }, ..one };
    for (first, second) in [(one, two), (two, one), (one, one), (one, other), (other, one)] {
        let mut out = garbage(random, 0, area(order) as usize + 2);
        count.combine(random.pick(&CHOICES), first, second, &mut out);
    }
}

/// A list of several hundred tiles and the lists of its first 1 to 24, each damaged in each way at each place.
pub fn every_word(random: &mut Random, count: &mut Count) {
    const ORDER: u32 = 6;
    let words = loop {
        let accounts = palette(random);
        let words = Built::random(random, ORDER, &accounts, 7).words;
        if (600..1200).contains(&words.len()) {
            break words;
        }
    };
    for length in (1..=24).chain([words.len()]) {
        for at in 0..length {
            for kind in 0..KINDS {
                let mut bad = words[..length].to_vec();
                at_word(random, &mut bad, ORDER, at, kind);
                count.check((ORDER, bad.len(), &bad));
            }
        }
    }
}

/// Damage of some kind to a list.
pub fn list(random: &mut Random, words: &mut Vec<u32>, order: u32) {
    if words.is_empty() {
        words.push(random.next() as u32 >> random.below(32));
        return;
    }
    let (at, kind) = (random.below(words.len()), random.below(KINDS));
    at_word(random, words, order, at, kind);
}

const KINDS: usize = 11;

/// One kind of damage to a list at a place.
fn at_word(random: &mut Random, words: &mut Vec<u32>, order: u32, at: usize, kind: usize) {
    let other = random.below(words.len());
    match kind {
        0 => words[at] ^= 1 << random.below(32),
        1 => words.swap(at, other),
        2 => words.truncate(at),
        3 => {
            words.remove(at);
        }
        4 => words.insert(at, words[other]),
        5 => words[at] = random.next() as u32 >> random.below(32),
        6 => words[at] &= !63,
        7 => words[at] = words[at] & !(15 << 6) | (random.between(order as usize, 15) as u32) << 6,
        8 => words[at] = (words[at]).wrapping_add(1 << 10),
        9 => words[at] = words[at] & 1023 | (area(order) as u32) << 10 & 0x3fff_ffff,
        _ => unmerge(words, at),
    }
}

/// The tile at a place becomes its four quarters.
fn unmerge(words: &mut Vec<u32>, at: usize) {
    let tile = Tile::of_word(words[at]);
    if tile.size == 0 {
        return;
    }
    let size = tile.size - 1;
    let quarters = (0..4).map(|quarter| Tile { corner: tile.corner + quarter * area(size), size, ..tile }.word());
    words.splice(at..=at, quarters.collect::<Vec<u32>>());
}

/// Readings of a file that was damaged, cut at each place and lengthened, with enough slots and with too few.
pub fn file_case(random: &mut Random, count: &mut Count) {
    let order = random.pick(&[0, 1, 1, 2, 2, 3, 4]);
    let splits = random.between(2, 6);
    let accounts = palette(random);
    let mut words = Built::random(random, order, &accounts, splits).words;
    if random.once_in(2) {
        list(random, &mut words, order);
    }
    let mut bytes = rough(order, &words);
    for _ in 0..random.below(3) {
        file(random, &mut bytes, words.len());
    }
    let room = match random.below(4) {
        0 => random.below(words.len() + 1),
        1 => words.len(),
        _ => words.len() + random.below(5),
    };
    let mut slots: Vec<u32> = (0..room).map(|_| random.next() as u32).collect();
    let (number, order, tiles) = count.read(&bytes, &mut slots);
    if number == 0 {
        // What was read is a map, and writing it gives the file's bytes again.
        let written = count.write((order, tiles, &slots), &vec![0; bytes.len() + random.below(3)]);
        assert_eq!(written, (0, bytes.clone()), "a file read and written again");
        let (number, raster) = count.decode((order, tiles, &slots), &vec![0; area(order) as usize]);
        assert_eq!(number, 0, "a list read and decoded");
        tallies(&bytes[6 + 4 * tiles..], &raster);
    }
    let cut = random.below(bytes.len() + 1);
    count.read(&bytes[..cut], &mut slots);
}

/// Roster entries tally with a raster: by rising account, each account on it has one, with the number of its pixels.
fn tallies(entries: &[u8], raster: &[u8]) {
    let total = |entry: &[u8]| (entry[0], entry[1..].iter().fold(0, |total, &byte| total << 8 | usize::from(byte)));
    let listed: Vec<(u8, usize)> = entries.chunks(5).map(total).collect();
    let counted = (1..=u8::MAX).map(|account| (account, raster.iter().filter(|&&pixel| pixel == account).count()));
    assert_eq!(listed, counted.filter(|&(_, pixels)| pixels > 0).collect::<Vec<_>>(), "the totals of a file");
}

/// The file of words that need not be a list: its roster has the tiles' areas where they can be summed.
fn rough(order: u32, words: &[u32]) -> Vec<u8> {
    let tiles: Vec<Tile> = words.iter().map(|&word| Tile::of_word(word)).collect();
    let fits = |tile: &Tile| tile.size <= order && tile.corner % area(tile.size) == 0 && tile.end() <= area(order);
    let good: Vec<Tile> = tiles.iter().copied().filter(fits).collect();
    let file = plain_file::write(order, &good);
    let mut bytes = vec![order as u8];
    bytes.extend((words.len() as u32).to_be_bytes());
    bytes.extend(words.iter().flat_map(|word| word.to_be_bytes()));
    bytes.extend(&file[5 + 4 * good.len()..]);
    bytes
}

/// One kind of damage to a file of so many tiles.
pub fn file(random: &mut Random, bytes: &mut Vec<u8>, tiles: usize) {
    if bytes.is_empty() {
        bytes.push(random.next() as u8);
        return;
    }
    let at = random.below(bytes.len());
    match random.below(12) {
        0 => bytes[at] ^= 1 << random.below(8),
        1 => bytes.truncate(at),
        2 => bytes.extend((0..random.between(1, 6)).map(|_| 0)),
        3 => bytes[0] = random.pick(&[0, 1, 2, 3, 10, 11, 128, 255]),
        4 if bytes.len() > 4 => {
            let number =
                random.pick(&[0, tiles as u32 + 1, 0x4000_0000, 0x4000_0000 + tiles as u32, 0x8000_0000, u32::MAX]);
            bytes[1..5].copy_from_slice(&number.to_be_bytes());
        }
        _ => roster(random, bytes, tiles),
    }
}

/// One kind of damage to the roster of a file of so many tiles. Then the file may end within the roster or go on behind
/// it, so that an entry which does not rise has a cut one or further bytes behind it.
fn roster(random: &mut Random, bytes: &mut Vec<u8>, tiles: usize) {
    let begins = (5 + 4 * tiles).min(bytes.len() - 1);
    let section = bytes.split_off(begins);
    let mut entries: Vec<Vec<u8>> = section[1..].chunks(5).map(<[u8]>::to_vec).collect();
    let (before, all) = (entries.len() as u8, entries.len().max(1));
    let (one, other) = (random.below(all), random.below(all));
    match random.below(11) {
        0 => entries.insert(0, vec![0; 5]),
        1 | 2 => {
            // An account without pixels, in its place or ahead of all others.
            let account = random.between(1, 63) as u8;
            let place = entries.iter().take_while(|entry| entry[0] < account).count();
            entries.insert(random.pick(&[0, place, place]), vec![account, 0, 0, 0, 0]);
        }
        _ if entries.is_empty() => entries.push(vec![random.next() as u8, 0, 0, 0, 1]),
        3 | 4 => entries.swap(one, other),
        5 => entries.insert(other, entries[one].clone()),
        6 => entries.push(entries[one].clone()),
        7 => {
            entries.remove(one);
        }
        8 => entries[one][0] = random.pick(&[0, 1, 5, 63, 64, 128, 255]),
        9 => entries[one].iter_mut().skip(1).for_each(|byte| *byte = byte.wrapping_add(random.pick(&[0, 1, 255]))),
        _ => entries.reverse(),
    }
    let count = section[0].wrapping_add(entries.len() as u8).wrapping_sub(before);
    bytes.push(if random.once_in(12) { random.next() as u8 } else { count });
    bytes.extend(entries.concat());
    match random.below(6) {
        0 => bytes.truncate(random.between(begins + 1, bytes.len())),
        1 => bytes.extend((0..random.between(1, 6)).map(|_| 255)),
        _ => {}
    }
}
