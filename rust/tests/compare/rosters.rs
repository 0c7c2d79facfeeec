//! Every roster of up to three entries out of ten, behind the tiles of bed M: with the right count, one less and one
//! more, whole and with its last entry cut at each byte.

use crate::pair::Count;

/// Bed M's file up to its roster, and the entries of that.
const HEAD: [u8; 21] = [2, 0, 0, 0, 4, 0, 0, 0, 69, 0, 0, 28, 9, 0, 0, 32, 9, 0, 0, 48, 73];
const OWN: [u8; 10] = [5, 0, 0, 0, 4, 9, 0, 0, 0, 6];

/// The entries to choose from: M's own, the same accounts with other pixels, and accounts that have none.
const ENTRIES: [[u8; 5]; 10] = [
    [0, 0, 0, 0, 0],
    [0, 0, 0, 0, 6],
    [5, 0, 0, 0, 4],
    [5, 0, 0, 0, 6],
    [7, 0, 0, 0, 0],
    [9, 0, 0, 0, 6],
    [9, 1, 0, 0, 6],
    [63, 0, 0, 0, 0],
    [64, 0, 0, 0, 0],
    [255, 0, 0, 0, 4],
];

pub fn all(count: &mut Count) {
    longer(count, &[], 3);
}

/// The entries so far, and those with up to so many more behind them.
fn longer(count: &mut Count, entries: &[u8], more: usize) {
    let whole = entries.len() / 5;
    for announced in whole.saturating_sub(1)..=whole + 1 {
        for cut in 0..5.min(entries.len() + 1) {
            reading(count, announced, &entries[..entries.len() - cut]);
        }
    }
    if more > 0 {
        ENTRIES.iter().for_each(|entry| longer(count, &[entries, entry].concat(), more - 1));
    }
}

/// Reads M's tiles with a roster. 54 is met just if an entry that is there in full is not above the one ahead of it,
/// and only M's own roster is accepted.
fn reading(count: &mut Count, announced: usize, entries: &[u8]) {
    let mut slots = vec![7; 5];
    let file = [&HEAD, &[announced as u8][..], entries].concat();
    let (number, ..) = count.read(&file, &mut slots);
    let accounts: Vec<u8> = entries.chunks_exact(5).take(announced).map(|entry| entry[0]).collect();
    assert_eq!(number == 54, !accounts.windows(2).all(|pair| pair[0] < pair[1]), "{number} for {file:?}");
    assert_eq!(number == 0, announced == 2 && *entries == OWN, "{number} for {file:?}");
    assert_eq!(slots, if number == 0 { [69, 7177, 8201, 12361, 0] } else { [7; 5] });
}
