//! Where in a map file a refusal stands, in words.

use crate::layout::Layout;
use crate::words;
use kingletbed::{raw, Account, Block, Refusal, Tile, HIGHEST_ORDER};

/// The byte or the word that a file was refused for, if that can be told: a few lines for people.
pub fn locate(bytes: &[u8], refusal: Refusal) -> Vec<String> {
    let file = Layout { bytes };
    match refusal {
        Refusal::OrderTooLarge => vec![format!("byte 0: the order is {}", file.order())],
        Refusal::SlotsExceeded => vec![too_many_tiles(file)],
        Refusal::FileCutShort => vec![cut_short(file)],
        Refusal::TrailingBytes => {
            let end = file.entry_begins(file.entries().unwrap_or(0));
            let rest = bytes.len().saturating_sub(end);
            let follow = if rest == 1 { "follows" } else { "follow" };
            vec![format!("byte {end}: the file should end here, and {} {follow}", words::count(rest, "byte"))]
        }
        Refusal::RosterUnsorted => unsorted_roster(file),
        Refusal::RosterWrong => wrong_roster(file),
        _ => bad_word(file),
    }
}

/// Slots for the largest bed are lent, so that the count alone can be too large.
fn too_many_tiles(file: Layout) -> String {
    let (tiles, most) = (file.tiles().unwrap_or(0), raw::extent(HIGHEST_ORDER).pixels);
    format!("bytes 1 to 4: the tile count is {tiles}, and no bed has more than {most} tiles")
}

/// The item that the file ends ahead of, or in.
fn cut_short(file: Layout) -> String {
    let length = file.bytes.len();
    let needed = match (file.bytes.is_empty(), file.tiles(), file.entries()) {
        (true, ..) => return "the file is empty".to_owned(),
        (_, None, _) => "its tile count takes bytes 1 to 4".to_owned(),
        (_, Some(tiles), None) => {
            format!("with {} its roster begins at byte {}", words::count(tiles, "tile"), file.roster_begins())
        }
        (_, _, Some(1)) => format!("with 1 roster entry it takes {}", file.entry_begins(1)),
        (_, _, Some(entries)) => format!("with {entries} roster entries it takes {}", file.entry_begins(entries)),
    };
    format!("the file has {}; {needed}", words::count(length, "byte"))
}

/// The first word that is refused: the last one of the shortest list that is.
fn bad_word(file: Layout) -> Vec<String> {
    let (order, words) = (file.order(), file.words());
    let refused = |tiles: usize| raw::check(order, tiles, &words[..tiles]) != 0;
    let (mut good, mut bad) = (0, words.len());
    if !refused(bad) {
        return Vec::new();
    }
    while bad - good > 1 {
        let middle = good + (bad - good) / 2;
        if refused(middle) {
            bad = middle;
        } else {
            good = middle;
        }
    }
    let (first, last) = (file.word_begins(good), file.word_begins(bad) - 1);
    let word = words[good];
    let here = format!("word {good} (the first is 0), bytes {first} to {last}, {word:#010x}: {}", tile(order, word));
    let ahead = good.checked_sub(1).map(|ahead| format!("word {ahead}, ahead of it: {}", tile(order, words[ahead])));
    [Some(here), ahead].into_iter().flatten().collect()
}

/// What a word says; columns and rows only if its block is one of the bed's.
fn tile(order: u32, word: u32) -> String {
    let tile = Tile::of_word(word);
    let block = tile.block();
    let around = block.pixel().and_then(|pixel| Block::around(order, pixel, block.size));
    let numbers = format!("account {}, corner {}, size {}", tile.account().0, block.corner, block.size);
    match words::span(block) {
        Some(span) if around == Ok(block) => format!("{numbers}: {span}"),
        _ => numbers,
    }
}

/// The pixels of each account, by the file's tiles. The words are good: only then is the roster looked at.
fn totals(file: Layout) -> Vec<u32> {
    let mut totals = vec![0; usize::from(u8::MAX) + 1];
    for tile in file.words().into_iter().map(Tile::of_word) {
        totals[usize::from(tile.account().0)] += raw::extent(tile.size()).pixels;
    }
    totals
}

/// "entry 1 (the first is 0), byte 27: account 9".
fn entry_of(file: Layout, entry: usize, account: Account) -> String {
    format!("entry {entry} (the first is 0), byte {}: account {}", file.entry_begins(entry), account.0)
}

/// The first entry whose account is not above that of the entry ahead of it.
fn unsorted_roster(file: Layout) -> Vec<String> {
    let accounts: Vec<Account> = file.roster().into_iter().map(|(account, _)| account).collect();
    let Some(ahead) = accounts.windows(2).position(|pair| pair[1] <= pair[0]) else { return Vec::new() };
    let (account, earlier) = (accounts[ahead + 1], accounts[ahead]);
    let wrong = match account == earlier {
        true => "again, as in".to_owned(),
        false => format!("is below account {} of", earlier.0),
    };
    let (here, begins) = (entry_of(file, ahead + 1, account), file.entry_begins(ahead));
    vec![
        format!("{here} {wrong} entry {ahead}, byte {begins}"),
        "the account of each entry must be above that of the entry ahead of it".to_owned(),
    ]
}

/// What is wrong with a roster whose accounts rise, entry by entry.
fn wrong_roster(file: Layout) -> Vec<String> {
    let (roster, totals) = (file.roster(), totals(file));
    let mut lines = vec![format!("the roster begins at byte {}", file.roster_begins())];
    for (entry, &(account, pixels)) in roster.iter().enumerate() {
        let total = totals[usize::from(account.0)];
        let wrong = match total {
            0 => "has no tile".to_owned(),
            _ if total != pixels => format!("has {pixels} pixels here, and {total} by the tiles"),
            _ => continue,
        };
        lines.push(format!("{} {wrong}", entry_of(file, entry, account)));
    }
    let listed = |number: usize| roster.iter().any(|&(Account(account), _)| usize::from(account) == number);
    let missing = (0..totals.len()).filter(|&number| totals[number] != 0 && !listed(number));
    lines
        .extend(missing.map(|number| format!("no entry: account {number} has {} pixels by the tiles", totals[number])));
    lines
}

#[cfg(test)]
mod tests;
