//! Each refusal of a file, with what is said of it.

use super::locate;
use kingletbed::{raw, Bed, HIGHEST_ORDER};

/// The worked bed M: order 2, four tiles, 32 bytes.
const BED: [u8; 32] =
    [2, 0, 0, 0, 4, 0, 0, 0, 69, 0, 0, 28, 9, 0, 0, 32, 9, 0, 0, 48, 73, 2, 5, 0, 0, 0, 4, 9, 0, 0, 0, 6];

/// The refusal's number of the bed with some bytes changed, and what is said.
fn changed(change: impl Fn(&mut Vec<u8>)) -> (u32, String) {
    let mut bytes = BED.to_vec();
    change(&mut bytes);
    let refusal = Bed::read(&bytes, vec![0; raw::extent(HIGHEST_ORDER).pixels as usize]).unwrap_err();
    (refusal.number(), locate(&bytes, refusal).join("\n"))
}

fn told(change: impl Fn(&mut Vec<u8>), number: u32, text: &str) {
    assert_eq!(changed(change), (number, text.to_owned()));
}

#[test]
fn head() {
    told(|file| file[0] = 11, 1, "byte 0: the order is 11");
    told(|file| file[1] = 1, 25, "bytes 1 to 4: the tile count is 16777220, and no bed has more than 1048576 tiles");
}

#[test]
fn short_files() {
    told(|file| file.clear(), 41, "the file is empty");
    told(|file| file.truncate(1), 41, "the file has 1 byte; its tile count takes bytes 1 to 4");
    told(|file| file.truncate(20), 41, "the file has 20 bytes; with 4 tiles its roster begins at byte 21");
    told(|file| file.truncate(21), 41, "the file has 21 bytes; with 4 tiles its roster begins at byte 21");
    told(|file| file.truncate(31), 41, "the file has 31 bytes; with 2 roster entries it takes 32");
}

#[test]
fn long_files() {
    told(|file| file.push(0), 42, "byte 32: the file should end here, and 1 byte follows");
    told(|file| file.extend([1, 2]), 42, "byte 32: the file should end here, and 2 bytes follow");
}

#[test]
fn first_word() {
    let text = "word 0 (the first is 0), bytes 5 to 8, 0x80000045: account 5, corner 2097152, size 1";
    told(|file| file[5] = 128, 11, text);
}

/// The third word is bad, and so is the fourth: the first of them is told.
#[test]
fn later_words() {
    let cases = [
        (0x20c9, 12, "account 9, corner 8, size 3"),
        (0x2449, 13, "account 9, corner 9, size 1"),
        (0x4009, 13, "account 9, corner 16, size 0"),
        (0x2000, 14, "account 0, corner 8, size 0: column 0, row 2"),
        (0x1809, 15, "account 9, corner 6, size 0: column 2, row 1"),
    ];
    let ahead = "word 1, ahead of it: account 9, corner 7, size 0: column 3, row 1";
    for (word, number, said) in cases {
        let bad = |file: &mut Vec<u8>| {
            file[13..17].copy_from_slice(&u32::to_be_bytes(word));
            file[17] = 255;
        };
        told(bad, number, &format!("word 2 (the first is 0), bytes 13 to 16, {word:#010x}: {said}\n{ahead}"));
    }
}

#[test]
fn unmerged_siblings() {
    let words = [(12 << 10) | 9, (13 << 10) | 9, (14 << 10) | 9, (15 << 10) | 9u32];
    let file = |bytes: &mut Vec<u8>| {
        for (at, word) in words.iter().enumerate() {
            bytes[5 + 4 * at..9 + 4 * at].copy_from_slice(&word.to_be_bytes());
        }
    };
    let (number, said) = changed(file);
    assert_eq!(number, 16);
    assert!(said.starts_with("word 3 (the first is 0), bytes 17 to 20"), "{said}");
}

#[test]
fn rosters() {
    let begins = "the roster begins at byte 21\n";
    let wrong = "entry 1 (the first is 0), byte 27: account 9 has 7 pixels here, and 6 by the tiles";
    told(|file| file[31] = 7, 43, &format!("{begins}{wrong}"));
    let missing = "no entry: account 9 has 6 pixels by the tiles";
    let strange = "entry 1 (the first is 0), byte 27: account 200 has no tile";
    told(|file| file[27] = 200, 43, &format!("{begins}{strange}\n{missing}"));
    let shorter = |file: &mut Vec<u8>| {
        file[21] = 1;
        file.truncate(27);
    };
    told(shorter, 43, &format!("{begins}{missing}"));
    let nobodys = |file: &mut Vec<u8>| {
        file[21] = 3;
        file.splice(22..22, [0; 5]);
    };
    told(nobodys, 43, &format!("{begins}entry 0 (the first is 0), byte 22: account 0 has no tile"));
}

/// The roster of bed M, from its count on, becomes another.
fn roster(file: &mut Vec<u8>, bytes: &[u8]) {
    file.truncate(21);
    file.extend(bytes);
}

/// The first entry that does not rise is told, whatever comes behind it.
#[test]
fn unsorted_rosters() {
    let rule = "the account of each entry must be above that of the entry ahead of it";
    let falls = |file: &mut Vec<u8>| roster(file, &[2, 9, 0, 0, 0, 6, 5, 0, 0, 0, 4]);
    let below = "entry 1 (the first is 0), byte 27: account 5 is below account 9 of entry 0, byte 22";
    told(falls, 54, &format!("{below}\n{rule}"));
    let again = "entry 1 (the first is 0), byte 27: account 5 again, as in entry 0, byte 22";
    told(|file| file[27] = 5, 54, &format!("{again}\n{rule}"));
    let later = |file: &mut Vec<u8>| roster(file, &[4, 5, 0, 0, 0, 4, 9, 0, 0, 0, 6, 0, 0, 0, 0, 0, 0, 0, 0]);
    let second = "entry 2 (the first is 0), byte 32: account 0 is below account 9 of entry 1, byte 27";
    told(later, 54, &format!("{second}\n{rule}"));
    let longer = |file: &mut Vec<u8>| {
        falls(file);
        file.push(7);
    };
    told(longer, 54, &format!("{below}\n{rule}"));
}

/// Whatever byte is changed, and wherever the file is cut: what is refused is told with at least one line.
#[test]
fn every_change_is_told() {
    let mut slots = [0; 16];
    let mut told = |bytes: &[u8]| {
        if let Err(refusal) = Bed::read(bytes, &mut slots[..]) {
            assert!(!locate(bytes, refusal).is_empty(), "{refusal:?} of {bytes:?}");
        }
    };
    for at in 0..BED.len() {
        told(&BED[..at]);
        for byte in 0..=u8::MAX {
            let mut bytes = BED;
            bytes[at] = byte;
            told(&bytes);
        }
    }
}
