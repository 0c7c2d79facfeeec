//! Every combination of arguments at and past their limits on a few maps, every bed of order 1 of three accounts, and
//! lookups on every bed of order 2 of two, beside free blocks of every size, and where the scan ends at one.

use crate::combine::{words, CHOICES};
use crate::living::Living;
use crate::pair::Count;
use crate::plain::bed::Bed;
use crate::plain::{area, left, pixel, Record, Tile};
use crate::tables::{OLD, UNLOADABLE, WORKSHOP};

/// Orders, and numbers that would be good orders if they were cut down.
const ORDERS: [u32; 13] = [0, 1, 2, 3, 9, 10, 11, 12, 255, 256, 258, 1 << 16, u32::MAX];
const ACCOUNTS: [u8; 11] = [0, 1, 7, 8, 47, 48, 63, 64, 65, 128, 255];
const COUNTS: [usize; 8] = [0, 1, 3, 4, 5, 6, 1 << 32, usize::MAX];

/// Good lists of their order.
fn maps() -> Vec<(u32, Vec<u32>)> {
    vec![
        (0, vec![]),
        (0, vec![7]),
        (2, vec![69, 7177, 8201, 12361]),
        (10, vec![703]),
        (10, vec![703 - 64, (4 << 16 | 5) << 10 | 1]),
    ]
}

pub fn all(count: &mut Count) {
    for order in ORDERS {
        for kind in [0, 1, 2, 256, u32::MAX] {
            count.fresh(kind, order, &mut vec![3; 5]);
            count.fresh(kind, order, &mut vec![]);
        }
        for tiles in COUNTS {
            let mut slots = vec![69, 7177, 8201, 12361, u32::MAX];
            count.check((order, tiles, &slots));
            count.lookup((order, tiles, &slots), 3, 1);
            count.part((order, tiles, &slots), 4, 1);
            count.shown((order, tiles, &slots), 12, 0);
            count.rights(&OLD, (order, tiles, &slots), 3, 1, 9);
            count.decode((order, tiles, &slots), &[0xaa; 16]);
            count.write((order, tiles, &slots), &[0xaa; 40]);
            count.claim(Record::whole(order, tiles), &mut slots.clone(), 4, 1, 0);
            for pixels in [0, 15, 16, 17, u32::MAX] {
                let record = Record { kind: 0, order, pixels, tiles };
                count.lookup((record, &slots), 3, 1);
                count.write((record, &slots), &[0xaa; 40]);
                count.claim(record, &mut slots.clone(), 4, 1, 0);
                count.feed(record, &mut slots, &[]);
            }
        }
    }
    for (order, words) in maps() {
        points(count, order, &words);
        blocks(count, order, &words);
        lengths(count, order, &words);
        records(count, order, &words);
    }
    order_one(count);
    order_two(count);
    free_sizes(count);
    scanned_sizes(count);
    combined(count);
    combined_small(count);
}

fn points(count: &mut Count, order: u32, words: &[u32]) {
    let side = 1u32 << order;
    let ends = [0, side - 1, side, side + 1, 1023, 1024, 1 << 16, 1 << 31, u32::MAX - side + 1, u32::MAX];
    let at = (order, words.len(), words);
    for column in ends {
        for row in ends {
            count.lookup(at, column, row);
            count.rights(&OLD, at, column, row, 0);
            count.rights(&WORKSHOP, at, column, row, 8);
        }
    }
    for account in ACCOUNTS {
        for table in UNLOADABLE.into_iter().chain([&OLD[..], &WORKSHOP]) {
            count.rights(table, at, side - 1, 0, account);
        }
    }
}

fn blocks(count: &mut Count, order: u32, words: &[u32]) {
    let end = area(order) as u32;
    let corners =
        [0, 1, 3, 4, end / 4, end - 1, end, end + 4, 1 << 20, 1 << 22, 1 << 30, 1 << 31, u32::MAX - 3, u32::MAX];
    for corner in corners {
        for size in [0, 1, order.saturating_sub(1), order, order + 1, 10, 11, 15, 16, 31, 32, 33, 1 << 31, u32::MAX] {
            count.part((order, words.len(), words), corner, size);
            count.shown((order, words.len(), words), corner, size);
            // Each accepted claim on a bed of order 10 costs the plain bed a million pixels.
            let claims = &[(63, 40), (0, 0), (1, 2), (64, 0)][..if order < 10 { 4 } else { 1 }];
            for &(account, room) in claims {
                let mut slots = words.to_vec();
                slots.resize(words.len() + room, 0);
                count.claim(Record::whole(order, words.len()), &mut slots, corner, size, account);
            }
        }
    }
    for account in ACCOUNTS {
        count.claim(Record::whole(order, words.len()), &mut words.to_vec(), 0, order, account);
    }
}

fn lengths(count: &mut Count, order: u32, words: &[u32]) {
    let pixels = area(order) as usize;
    for length in [0, pixels - 1, pixels, pixels + 1, 4 * pixels] {
        count.decode((order, words.len(), words), &vec![0xaa; length]);
    }
    let (_, file) = count.write((order, words.len(), words), &[0xaa; 200]);
    for length in [0, 1, file.len() - 1, file.len(), file.len() + 1] {
        count.write((order, words.len(), words), &vec![0xaa; length]);
    }
    for cut in 0..=file.len() {
        for room in 0..words.len() + 2 {
            count.read(&file[..cut], &mut vec![0xaa; room]);
        }
    }
    for more in 1..7 {
        let longer: Vec<u8> = file.iter().copied().chain(std::iter::repeat_n(0, more)).collect();
        count.read(&longer, &mut vec![0xaa; words.len()]);
    }
    for first in 0..=255 {
        let mut other = file.clone();
        other[0] = first;
        count.read(&other, &mut vec![0xaa; words.len()]);
    }
}

fn records(count: &mut Count, order: u32, words: &[u32]) {
    let end = area(order) as u32;
    let kinds = &[0, 1, 2, u32::MAX][..if order < 10 { 4 } else { 2 }];
    let feeds = &[&[63][..], &[255, 1], &[], &[0], &[64]][..if order < 10 { 5 } else { 2 }];
    for &kind in kinds {
        for pixels in [0, end / 2, end - 1, end, end + 1, 1 << 20, 1 << 31, u32::MAX] {
            let record = Record { kind, order, pixels, tiles: words.len() };
            for (fed, room) in feeds.iter().flat_map(|fed| [(fed, 0), (fed, 1)]) {
                let mut slots = words.to_vec();
                slots.resize(words.len() + room, 0x1234);
                count.feed(record, &mut slots, fed);
            }
            on_record(count, record, words);
        }
    }
}

/// The calls that take a record, at both ends of the bed and in its middle.
fn on_record(count: &mut Count, record: Record, words: &[u32]) {
    let (at, side, end) = ((record, words), 1u32 << record.order, area(record.order) as u32);
    count.open(at);
    for (column, row) in [(0, 0), (side - 1, side - 1), (0, side / 2), (side, 0)] {
        count.lookup(at, column, row);
    }
    count.rights(&WORKSHOP, at, side - 1, side - 1, 9);
    for (corner, size) in [(0, record.order), (end - 1, 0), (end / 4, 0)] {
        let mut slots = words.to_vec();
        slots.resize(words.len() + 4, 0x1234);
        count.claim(record, &mut slots, corner, size, 9);
        count.shown(at, corner, size);
    }
    count.write(at, &[0xaa; 200]);
}

/// The accounts of one of the 81 beds of order 1 with accounts 0, 1 and 2.
fn of_three(bed: u32) -> Vec<u8> {
    (0..4).map(|place| (bed / 3u32.pow(place) % 3) as u8).collect()
}

/// All beds of order 1 with accounts 0, 1 and 2, both kinds, with 0 to 4 slots, as far as they are scanned then, and
/// with 4 slots also ahead of each pixel.
fn order_one(count: &mut Count) {
    for bed in 0..81 {
        let accounts = of_three(bed);
        for (kind, m) in (0..2).flat_map(|kind| (0..5).map(move |m| (kind, m))) {
            let mut living = Living::unmade(Record { kind, order: 1, pixels: 0, tiles: 0 }, vec![9; m]);
            living.fresh(count, kind, 1);
            let mut plain = Bed::fresh(kind, 1).expect("order 1");
            for accounts in accounts.chunks(if m < 4 { 4 } else { 1 }) {
                if m == 4 {
                    on_order_one(count, &living);
                }
                assert_eq!(living.feed(count, accounts), plain.feed(m, accounts));
                assert_eq!(left(m, &plain.blocks()), living.slots);
            }
            on_order_one(count, &living);
        }
    }
}

/// Every claim on a bed of order 1, every block, and every two pixels.
fn on_order_one(count: &mut Count, living: &Living) {
    for (corner, size) in [(0, 0), (1, 0), (2, 0), (3, 0), (0, 1)] {
        for account in 0..3 {
            count.claim(living.record, &mut living.slots.clone(), corner, size, account);
        }
        count.part(living.at(), corner, size);
        count.shown(living.at(), corner, size);
    }
    for (one, two) in pairs(&[(0, 0), (1, 0), (0, 1), (1, 1)]) {
        count.lookups(living.at(), one, two);
    }
}

/// Every bed of order 2 of nobody's pixels and one account's, each pixel looked up; and scans of both kinds as far as
/// each pixel, every one up to the ninth and some of the longer ones.
fn order_two(count: &mut Count) {
    let bed = |bits: u32| (0..16).map(|pixel| (bits >> pixel & 1) as u8).collect::<Vec<u8>>();
    for bits in 0..1 << 16 {
        let words = words(2, &bed(bits));
        for pixel in 0..16 {
            count.lookup((2, words.len(), &words), pixel % 4, pixel / 4);
        }
    }
    for (kind, pixels) in (0..2).flat_map(|kind| (0..=16).map(move |pixels| (kind, pixels))) {
        for bits in 0..1u32 << pixels.min(9) {
            // A longer scan has the bits at either end.
            let bits = bits << (pixels - pixels.min(9)) | bits;
            let places = Bed::fresh(kind, 2).expect("order 2");
            let mut raster = vec![0; 16];
            (0..pixels).for_each(|place| raster[places.index_of_place(place.into())] = (bits >> place & 1) as u8);
            let words = words(2, &raster);
            let record = Record { kind, order: 2, pixels, tiles: words.len() };
            for pixel in 0..16 {
                count.lookup((record, &words), pixel % 4, pixel / 4);
            }
        }
    }
}

/// Free blocks of every size on the largest bed: one held pixel lies in the next block of the size, ahead or behind.
fn free_sizes(count: &mut Count) {
    for held in [0, 0x35a1c, 0x9c3f6, 0xfffff] {
        for (size, beside) in (0..10).flat_map(|size| (1..4).map(move |beside| (size, beside))) {
            let (column, row) = pixel(held ^ beside << (2 * size));
            let (number, named) = count.lookup((10, 1, &[held as u32 * 1024 + 7]), column as u32, row as u32);
            assert_eq!((number, named.size, named.account), (0, size, 0), "{held}, {beside}");
        }
    }
}

/// Free blocks of every size on the largest bed where nothing is held: the scan has just come to their end, or lacks a
/// pixel of it.
fn scanned_sizes(count: &mut Count) {
    for (kind, size) in (0..2).flat_map(|kind| (0..=10).map(move |size| (kind, size))) {
        // The second block of a size from the north-west, or the whole bed: its last place by rows and by Morton order.
        let wide = 1u32 << size;
        let (column, row) = if size < 10 { (2 * wide - 1, wide - 1) } else { (wide - 1, wide - 1) };
        let corner = if size < 10 { area(size) } else { 0 };
        let last = if kind == 0 { row * 1024 + column } else { (corner + area(size)) as u32 - 1 };
        let record = Record { kind, order: 10, pixels: last + 1, tiles: 0 };
        let none: [u32; 0] = [];
        let named = Tile { corner, size, account: 0 };
        assert_eq!(count.lookup((record, &none), column, row), (0, named), "{kind}, {size}");
        let lacking = Record { pixels: last, ..record };
        assert_eq!(count.lookup((lacking, &none), column, row).0, 52, "{kind}, {size}");
        let (number, smaller) = count.lookup((lacking, &none), column + 1 - wide, row + 1 - wide);
        assert_eq!((number, smaller.size), if size > 0 { (0, size - 1) } else { (52, 0) }, "{kind}, {size}");
    }
}

/// Every two of a few things.
fn pairs<T: Clone>(things: &[T]) -> impl Iterator<Item = (T, T)> + '_ {
    things.iter().flat_map(|one| things.iter().map(|two| (one.clone(), two.clone())))
}

/// Every two orders with counts at and past the slots, apart and in one slice, and every two maps with every choice.
fn combined(count: &mut Count) {
    let (one, two) = ([69, 7177, 8201, 12361, u32::MAX], [67, 12355, 0, 0, 0]);
    for (order1, order2) in pairs(&ORDERS) {
        for (tiles1, tiles2) in pairs(&COUNTS) {
            count.combine(0, (order1, tiles1, &one), (order2, tiles2, &two), &mut vec![3; 5]);
            count.combine(1, (order1, tiles1, &one), (order2, tiles2, &one), &mut vec![3; 5]);
        }
    }
    for ((order1, one), (order2, two)) in pairs(&maps()) {
        let rooms = &[1, 70, 0, 2, 4, 5][..if order1 < 10 { 6 } else { 2 }];
        for (choice, &room) in CHOICES.iter().flat_map(|&choice| rooms.iter().map(move |room| (choice, room))) {
            count.combine(choice, (order1, one.len(), &one), (order2, two.len(), &two), &mut vec![3; room]);
        }
    }
}

/// Every two beds of order 0, and every two of order 1 with accounts 0, 1 and 2, with 0 to 4 slots.
fn combined_small(count: &mut Count) {
    let pixels: Vec<_> = (0..64).map(|account| (0, words(0, &[account]))).collect();
    let beds: Vec<_> = (0..81).map(|bed| (1, words(1, &of_three(bed)))).collect();
    for ((order, one), (_, two)) in pairs(&pixels).chain(pairs(&beds)) {
        for (choice, room) in (0..2).flat_map(|choice| (0..5).map(move |room| (choice, room))) {
            count.combine(choice, (order, one.len(), &one), (order, two.len(), &two), &mut vec![9; room]);
        }
    }
}
