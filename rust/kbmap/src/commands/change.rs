//! `claim` and `release`: a block changes hands; `preview`: what that would come to.

use super::{apart, pixel, tell, whose};
use crate::args::{Claim, Corner, Place};
use crate::failure::Failure;
use crate::input::Source;
use crate::lock::{same_file, Locked};
use crate::map::{self, Map};
use crate::output::{print, Target, Writing};
use crate::words::{count, span};
use kingletbed::{raw, Account, Block, Pixel, Refusal};
use std::collections::BTreeMap;

/// Tells what a claim would do, and does nothing.
pub fn preview(file: Source, claim: &Claim<Place>) -> Result<(), Failure> {
    let map = Map::open(file)?;
    let claim = &placed(&map, claim)?;
    let foreseen = wanted(&map, claim).and_then(|(block, account)| {
        let after = map.bed.preview(block, account)?;
        Ok((block, account, after, held(&map, block)?))
    });
    let (block, account, after, held) = foreseen.map_err(|refusal| map.refused(refusal, asked(claim, &map)))?;
    let (name, span, who) = (map.source.name(), span(block).unwrap_or_default(), whose(account));
    let tiles = format!("{} now, {after} after", map.bed.words().len());
    print(&format!("{name}: {span}: would be {who}\n  holds now: {held}\n  tiles: {tiles}\n"))
}

/// Gives a block to an account, or to nobody, and writes the changed map.
pub fn claim(file: Source, out: Option<Target>, claim: &Claim<Place>) -> Result<(), Failure> {
    let out = match out {
        Some(out) => out,
        None => itself(&file)?,
    };
    let locked = lock(&file, &out)?;
    let mut map = match &locked {
        Some(locked) => Map::of(file.clone(), file.read_locked(locked)?)?,
        None => Map::open(file)?,
    };
    let claim = &placed(&map, claim)?;
    let before = map.bed.words().len();
    let changed = change(&mut map, claim).and_then(|done| Ok((done, map::file_of(&map.bed)?)));
    let ((block, account, held), file) = changed.map_err(|refusal| map.refused(refusal, asked(claim, &map)))?;
    let writing: &Writing = &|writer| writer.write_all(&file);
    match locked {
        Some(locked) => locked.replace(writing).map_err(|error| Failure::trouble(out.name(), &error))?,
        None => out.write_bytes(writing)?,
    }
    let (span, who) = (span(block).unwrap_or_default(), whose(account));
    let after = map.bed.words().len();
    let tiles = format!("{before} before, {after} after");
    tell(&out, &format!("{}: {span}: now {who}\n  held before: {held}\n  tiles: {tiles}", out.name()))
}

/// Where the result goes if nothing is said: it replaces the file itself; what came from standard input goes to
/// standard output. A device or a pipe cannot be replaced.
fn itself(file: &Source) -> Result<Target, Failure> {
    match file {
        Source::Standard => Ok(Target::Standard),
        Source::File(path) if path.is_file() || !path.exists() => Ok(Target::File(path.clone())),
        Source::File(_) => {
            Err(Failure::usage(format!("{} is no file to replace: name another behind -o", file.name())))
        }
    }
}

/// Locks a file that the result replaces, so that from reading it on nobody else changes it. One that comes as standard
/// input as well was opened before it could be locked.
fn lock(file: &Source, out: &Target) -> Result<Option<Locked>, Failure> {
    match (file, out) {
        (Source::File(path), Target::File(to)) if path.is_file() && same_file(path, to) => {
            Locked::open_to_change(path).map(Some).map_err(|error| Failure::trouble(file.name(), &error))
        }
        _ => apart(file, out).map(|()| None),
    }
}

/// A claim with the pixel that its place is.
fn placed(map: &Map, claim: &Claim<Place>) -> Result<Claim<Pixel>, Failure> {
    let corner = match &claim.corner {
        Corner::Morton(corner) => Corner::Morton(*corner),
        Corner::In(place) => Corner::In(pixel(map, place)?),
    };
    Ok(Claim { corner, size: claim.size, account: claim.account })
}

/// The block, and its new account.
fn wanted(map: &Map, claim: &Claim<Pixel>) -> Result<(Block, Account), Refusal> {
    let block = match claim.corner {
        Corner::Morton(corner) => Block { corner, size: claim.size },
        Corner::In(pixel) => Block::around(map.bed.order(), pixel, claim.size)?,
    };
    let number = claim.account.unwrap_or(u32::from(Account::NOBODY.0));
    let account = u8::try_from(number).map(Account).map_err(|_| Refusal::AccountTooLarge)?;
    Ok((block, account))
}

/// The block, its new account, and what the block held before.
fn change(map: &mut Map, claim: &Claim<Pixel>) -> Result<(Block, Account, String), Refusal> {
    let (block, account) = wanted(map, claim)?;
    let held = held(map, block);
    match claim.account {
        None => map.bed.release(block)?,
        Some(_) => map.bed.claim(block, account)?,
    }
    Ok((block, account, held?))
}

/// "account 5 (4 pixels), nobody's (12 pixels)", by rising accounts. A map that was read is wholly scanned: what no
/// account has is nobody's.
fn held(map: &Map, block: Block) -> Result<String, Refusal> {
    let pixels = |size| raw::extent(size).pixels;
    let mut accounts = BTreeMap::new();
    for tile in map.bed.shown(block)? {
        *accounts.entry(tile.account()).or_insert(0) += pixels(tile.size());
    }
    let free = pixels(block.size) - accounts.values().sum::<u32>();
    let mut words: Vec<(String, u32)> =
        accounts.into_iter().map(|(Account(number), held)| (format!("account {number}"), held)).collect();
    if free > 0 {
        words.push(("nobody's".to_owned(), free));
    }
    let words: Vec<String> =
        words.into_iter().map(|(who, held)| format!("{who} ({})", count(held as usize, "pixel"))).collect();
    Ok(words.join(", "))
}

/// What was refused.
fn asked(claim: &Claim<Pixel>, map: &Map) -> String {
    let block = match claim.corner {
        Corner::Morton(corner) => format!("corner {corner}"),
        Corner::In(pixel) => format!("the block around column {}, row {}", pixel.column, pixel.row),
    };
    let account = claim.account.map(|account| format!(", account {account}")).unwrap_or_default();
    let tiles = count(map.bed.words().len(), "tile");
    format!("{block}, size {}{account}, on a bed of order {}, {}, {tiles}", claim.size, map.bed.order(), map.extent())
}
