//! One map, one file. Every bed of order 0, and every bed of orders 1 and 2 with a few accounts, has a file that no
//! other has, whichever way it was scanned; and what is a byte or two away from a few files is refused, or is the file
//! of another bed, written again as it was.

use crate::pair::Count;
use crate::plain::area;
use crate::plain::bed::Bed as Plain;
use crate::random::Random;
use std::collections::BTreeSet;

/// The accounts of which all beds of order 1 are made, and those for order 2.
const FOUR: [u8; 4] = [0, 1, 8, 63];
const TWO: [u8; 2] = [0, 9];

/// Bed M's file, and that of a bed of one pixel.
const M: [u8; 32] =
    [2, 0, 0, 0, 4, 0, 0, 0, 69, 0, 0, 28, 9, 0, 0, 32, 9, 0, 0, 48, 73, 2, 5, 0, 0, 0, 4, 9, 0, 0, 0, 6];
const PIXEL: [u8; 15] = [0, 0, 0, 0, 1, 0, 0, 0, 63, 1, 63, 0, 0, 0, 1];

/// The bytes that are put in, and those that a byte is changed to where two are changed at once: those of the two
/// files, others around them, and the highest.
const NEAR: [u8; 20] = [0, 1, 2, 3, 4, 5, 6, 9, 10, 24, 28, 32, 36, 48, 62, 63, 64, 69, 73, 255];

pub fn all(random: &mut Random, count: &mut Count) {
    every_bed(count);
    for file in [&M[..], &PIXEL] {
        one_byte(count, file);
        two_bytes(count, file);
    }
    for order in 0..=3 {
        let raster: Vec<u8> = (0..area(order)).map(|_| random.pick(&FOUR)).collect();
        let file = file_of(count, order, &raster);
        one_byte(count, &file);
    }
}

/// All beds of order 0, and those of the orders 1 and 2 with accounts out of a few: no two have one file.
fn every_bed(count: &mut Count) {
    let mut files = BTreeSet::new();
    for account in 0..64 {
        assert!(files.insert(file_of(count, 0, &[account])), "account {account}");
    }
    for (order, accounts) in [(1, &FOUR[..]), (2, &TWO)] {
        let pixels = area(order) as u32;
        for number in 0..accounts.len().pow(pixels) {
            let digit = |place| number / accounts.len().pow(place) % accounts.len();
            let raster: Vec<u8> = (0..pixels).map(|place| accounts[digit(place)]).collect();
            assert!(files.insert(file_of(count, order, &raster)), "order {order}, {raster:?}");
        }
    }
}

/// The file of a bed, which is the same by rows and in Morton order, and is read as that bed.
fn file_of(count: &mut Count, order: u32, raster: &[u8]) -> Vec<u8> {
    let [file, other] = [0, 1].map(|kind| {
        let plain = Plain::fresh(kind, order).expect("a small order");
        let accounts: Vec<u8> = (0..area(order)).map(|place| raster[plain.index_of_place(place)]).collect();
        let mut slots = vec![7; raster.len()];
        let (_, record) = count.fresh(kind, order, &mut slots);
        let (number, _, record) = count.feed(record, &mut slots, &accounts);
        let (written, file) = count.write((record, &slots), &[1; 6 + 4 * 64 + 5 * 63]);
        assert_eq!((number, written), (0, 0));
        file
    });
    assert_eq!(file, other, "by rows and in Morton order: {raster:?}");
    assert_eq!(bed_of(count, &file), Some((order, raster.to_vec())));
    file
}

/// Order and accounts of a file, if it is accepted; then it is written again as it was.
fn bed_of(count: &mut Count, file: &[u8]) -> Option<(u32, Vec<u8>)> {
    let mut slots = vec![7; 64];
    let (number, order, tiles) = count.read(file, &mut slots);
    if number != 0 {
        return None;
    }
    let (written, again) = count.write((order, tiles, &slots), &[1; 6 + 4 * 64 + 5 * 63]);
    assert_eq!((written, again.as_slice()), (0, file), "written again");
    let (_, raster) = count.decode((order, tiles, &slots), &vec![1; area(order) as usize]);
    Some((order, raster))
}

/// Bytes that are not the file are refused, or are another bed's.
fn other(count: &mut Count, file: &[u8], bed: &(u32, Vec<u8>), bytes: &[u8]) {
    let same = bed_of(count, bytes).as_ref() == Some(bed);
    assert_eq!(same, bytes == file, "one bed, two files: {file:?} and {bytes:?}");
}

/// A file with each byte changed to each, with a byte left out, and with a near one put in.
fn one_byte(count: &mut Count, file: &[u8]) {
    let bed = bed_of(count, file).expect("a good file");
    for at in 0..file.len() {
        let mut bytes = file.to_vec();
        for byte in 0..=255 {
            bytes[at] = byte;
            other(count, file, &bed, &bytes);
        }
        other(count, file, &bed, &[&file[..at], &file[at + 1..]].concat());
    }
    for at in 0..=file.len() {
        for byte in NEAR {
            other(count, file, &bed, &[&file[..at], &[byte], &file[at..]].concat());
        }
    }
}

/// A file with each two bytes changed to each two that are near.
fn two_bytes(count: &mut Count, file: &[u8]) {
    let bed = bed_of(count, file).expect("a good file");
    for (at, then) in (0..file.len()).flat_map(|at| (at + 1..file.len()).map(move |then| (at, then))) {
        let mut bytes = file.to_vec();
        for (first, second) in NEAR.into_iter().flat_map(|first| NEAR.map(|second| (first, second))) {
            (bytes[at], bytes[then]) = (first, second);
            other(count, file, &bed, &bytes);
        }
    }
}
