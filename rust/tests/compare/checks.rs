//! The order of the checks: each is broken together with all behind it that can be, and the answer is its number, as
//! the papers have it. And which refusals each call must have met by the end, and no others.

use crate::pair::Count;
use crate::plain::Record;
use crate::tables::{OLD, UNLOADABLE, WORKSHOP};
use std::collections::BTreeSet;

fn word(corner: u32, size: u32, account: u32) -> u32 {
    corner * 1024 + size * 64 + account
}

/// Lists of a bed of order 2, each with the number of its check.
fn bad_lists() -> Vec<(u32, u32, usize, Vec<u32>)> {
    let tile = word(4, 1, 5);
    vec![
        (1, 11, 9, vec![u32::MAX; 4]),
        (2, 2, 5, vec![u32::MAX; 4]),
        (11, 2, 2, vec![tile, 1 << 30 | word(1, 3, 0)]),
        (12, 2, 2, vec![tile, word(1, 3, 0)]),
        (13, 2, 2, vec![tile, word(1, 1, 0)]),
        (13, 2, 2, vec![tile, word(16, 0, 0)]),
        (14, 2, 2, vec![tile, word(0, 0, 0)]),
        (15, 2, 3, vec![tile, word(7, 0, 5), word(1, 1, 0)]),
        (16, 2, 5, vec![word(0, 0, 7), word(1, 0, 7), word(2, 0, 7), word(3, 0, 7), word(0, 0, 0)]),
    ]
}

/// Kinds, and numbers that would be kind 0 if they were cut down.
const KINDS: [u32; 7] = [0, 1, 2, 256, 1 << 16, 1 << 31, u32::MAX];

pub fn in_order(count: &mut Count) {
    for (number, order, tiles, slots) in bad_lists() {
        assert_eq!(count.check((order, tiles, &slots)), number);
        assert_eq!(count.decode((order, tiles, &slots), &[7; 3]).0, number);
        assert_eq!(count.part((order, tiles, &slots), 1, 1).0, number);
        assert_eq!(count.combine(0, (order, tiles, &slots), (3, 1, &[9]), &mut vec![]), (number, 0));
        assert_eq!(count.combine(0, (2, 1, &[9]), (order, tiles, &slots), &mut vec![]), (number, 0));
        KINDS.iter().for_each(|&kind| {
            broken(count, number, Record { kind, order, pixels: u32::MAX, tiles }, &slots);
        });
    }
    for kind in KINDS {
        // The tile NW: its last pixel is the sixth by rows, the fourth in Morton order.
        let record = |pixels| Record { kind, order: 2, pixels, tiles: 1 };
        for pixels in [17, u32::MAX] {
            broken(count, 21, record(pixels), &[word(0, 1, 5)]);
        }
        broken(count, 22, record(0), &[word(0, 1, 5)]);
        broken(count, 22, record(3), &[word(0, 1, 5)]);
        assert_eq!(count.open((record(6), &[word(0, 1, 5)])), 0);
        behind(count, record(6), &[word(0, 1, 5)]);
        by_kind(count, kind);
    }
    positions(count);
    loads(count);
}

/// A load: 55 in each of its ways, with a table behind it that is unsound as well, and then 56.
fn loads(count: &mut Count) {
    let unsound = [15, 1, 1, 1, 1, 0, 1, 1, 0, 0, 0, 0, 1, 0, 0, 0];
    let file = |at: usize, byte: u8| {
        let mut file = unsound.to_vec();
        file[at] = byte;
        file
    };
    for bad in [vec![], vec![15], unsound[..15].to_vec(), [&unsound[..], &[0]].concat(), file(0, 14), file(15, 2)] {
        assert_eq!(count.load(&bad, &mut vec![7; 15]), 55);
    }
    for lent in [0, 14, 16] {
        assert_eq!(count.load(&unsound, &mut vec![7; lent]), 55);
    }
    assert_eq!(count.load(&unsound, &mut vec![7; 15]), 56);
    assert_eq!(count.load(&file(11, 1), &mut vec![7; 15]), 0);
}

/// Positions in mils, the way there and the way back.
fn positions(count: &mut Count) {
    for order in [11, u32::MAX] {
        assert_eq!(count.mils_pixel(order, b""), (1, 0));
        assert_eq!(count.mils_h(order, u32::MAX), (1, 0));
        assert_eq!(count.mils_text(order, u32::MAX, b"").0, 1);
    }
    for order in 0..=10 {
        assert_eq!(count.mils_pixel(order, b""), (53, 0));
        assert_eq!(count.mils_h(order, 1 << order), (31, 0));
        assert_eq!(count.mils_text(order, 1 << order, b"").0, 31);
        assert_eq!(count.mils_text(order, (1 << order) - 1, b"...").0, 26);
    }
}

/// Five pixels of order 2: by rows the block NW lacks its last one, which in Morton order is there, and (3, 0) is not.
fn by_kind(count: &mut Count, kind: u32) {
    let five = Record { kind, order: 2, pixels: 5, tiles: 0 };
    let (rows, morton) = if kind == 0 { (0, 52) } else { (52, 0) };
    let at = (five, &[0, 0, 0]);
    for (column, row, number) in [(3, 0, rows), (1, 1, morton), (2, 0, 0), (2, 1, 52)] {
        assert_eq!(count.lookup(at, column, row).0, number);
        assert_eq!(count.rights(&OLD, at, column, row, 9).0, number);
    }
    for (corner, size, number) in [(5, 0, rows), (3, 0, morton), (0, 1, morton), (4, 0, 0), (4, 1, 52)] {
        assert_eq!(count.preview(at, corner, size, 9).0, number);
        assert_eq!(count.claim(five, &mut vec![0; 3], corner, size, 9).0, number);
    }
    let number = if kind == 0 { 22 } else { 52 };
    assert_eq!(count.write((Record { tiles: 1, ..five }, &[word(0, 1, 5)]), &[]).0, number);
}

/// Every call on a record that is refused with a number, with arguments that are wrong as well.
fn broken(count: &mut Count, number: u32, record: Record, slots: &[u32]) {
    let at = (record, slots);
    assert_eq!(count.open(at), number);
    assert_eq!(count.feed(record, &mut slots.to_vec(), &[64]).0, number);
    assert_eq!(count.lookup(at, 4, 4).0, number);
    assert_eq!(count.rights(&[2; 3], at, 4, 4, 0).0, number);
    assert_eq!(count.claim(record, &mut slots.to_vec(), 1, 1, 64), (number, 0));
    assert_eq!(count.preview(at, 1, 1, 64), (number, 0));
    assert_eq!(count.write(at, &[]).0, number);
    assert_eq!(count.shown(at, 1, 1).0, number);
}

/// The checks behind those of the record, on a scan of order 2 that has six pixels and no free slot.
fn behind(count: &mut Count, record: Record, slots: &[u32]) {
    let (at, whole) = ((record, slots), Record { pixels: 16, ..record });
    for (column, row, number) in [(4, 0, 31), (0, 4, 31), (u32::MAX, u32::MAX, 31), (3, 3, 52), (0, 2, 52)] {
        assert_eq!(count.lookup(at, column, row).0, number);
        assert_eq!(count.rights(&WORKSHOP, at, column, row, 0).0, number);
    }
    // A table that no load would accept is no refusal, and hides none.
    for table in UNLOADABLE {
        assert_eq!(count.rights(table, at, 4, 0, 0).0, 31);
        assert_eq!(count.rights(table, at, 3, 3, 0).0, 52);
        assert_eq!(count.rights(table, at, 1, 1, 0).0, 34);
        assert_eq!(count.rights(table, at, 1, 1, 64).0, 34);
        assert_eq!(count.rights(table, at, 1, 1, 5), (0, true));
    }
    let claims = [(1, 1, 64, 32), (0, 3, 64, 32), (16, 0, 0, 32), (0, 2, 64, 52), (15, 0, 64, 52), (15, 0, 0, 52)];
    for (corner, size, account, number) in claims.into_iter().chain([(0, 0, 64, 24), (0, 0, 9, 25), (3, 0, 0, 25)]) {
        assert_eq!(count.preview(at, corner, size, account), (number, 0));
        assert_eq!(count.claim(record, &mut slots.to_vec(), corner, size, account), (number, 0));
        let shown = if number == 32 { 32 } else { 0 };
        assert_eq!(count.shown(at, corner, size).0, shown);
    }
    assert_eq!(count.claim(record, &mut slots.to_vec(), 0, 1, 9), (0, 1));
    assert_eq!(count.write(at, &[]).0, 52);
    assert_eq!(count.write((whole, slots), &[0; 14]).0, 26);
    assert_eq!(count.write((whole, slots), &[0; 15]).0, 0);
}

const LIST: &[u32] = &[1, 2, 11, 12, 13, 14, 15, 16];
const SCAN: &[u32] = &[21, 22];

/// The refusals of each call.
const CALLS: [(&str, &[&[u32]]); 24] = [
    ("check", &[LIST]),
    ("fresh", &[&[1]]),
    ("feed", &[LIST, SCAN, &[23, 24, 25]]),
    ("decode", &[LIST, &[33]]),
    ("part", &[LIST, &[32]]),
    ("lookup", &[LIST, SCAN, &[31, 52]]),
    ("rights", &[LIST, SCAN, &[31, 52, 34]]),
    ("claim", &[LIST, SCAN, &[32, 52, 24, 25]]),
    ("preview", &[LIST, SCAN, &[32, 52, 24, 25]]),
    ("write", &[LIST, SCAN, &[52, 26]]),
    ("read", &[&[1, 11, 12, 13, 14, 15, 16, 25, 41, 54, 42, 43]]),
    ("combine", &[LIST, &[51, 25]]),
    ("extent", &[&[1]]),
    ("morton", &[&[1, 31]]),
    ("block", &[&[1, 31, 32]]),
    ("point", &[&[1, 32]]),
    ("mils_pixel", &[&[1, 53]]),
    ("mils_h", &[&[1, 31]]),
    ("mils_text", &[&[1, 31, 26]]),
    ("at_mils", &[&[1, 53]]),
    ("load", &[&[55, 56]]),
    ("from_scan", &[LIST, SCAN]),
    ("shown", &[LIST, SCAN, &[32]]),
    ("account_of", &[LIST, SCAN, &[32, 52]]),
];

/// What is wrong with the refusals met: for each call those that are its own must be, and no others.
pub fn unmet(count: &Count) -> Vec<String> {
    let mut wrong = Vec::new();
    for (call, refusals) in CALLS {
        let own: BTreeSet<u32> = refusals.concat().into_iter().collect();
        let of_call = count.met.keys().filter(|(of, number)| *of == call && *number != 0);
        let met: BTreeSet<u32> = of_call.map(|&(_, number)| number).collect();
        own.difference(&met).for_each(|number| wrong.push(format!("{call} was never refused with {number}")));
        met.difference(&own).for_each(|number| wrong.push(format!("{call} was refused with {number}")));
    }
    let all: BTreeSet<u32> = CALLS.iter().flat_map(|(_, refusals)| refusals.concat()).collect();
    let others = kingletbed::Refusal::ALL.iter().map(|refusal| refusal.number()).filter(|number| !all.contains(number));
    wrong.extend(others.map(|number| format!("no call has the refusal {number}")));
    wrong
}
