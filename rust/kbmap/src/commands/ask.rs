//! `show` and `at`: what a map file says; `rights`: who may place there.

use super::{begins, pixel, whose};
use crate::args::Place;
use crate::failure::Failure;
use crate::input::Source;
use crate::map::{Holding, Map};
use crate::output::print;
use crate::table;
use crate::words::{class, count, share, span};
use kingletbed::{raw, Account, Block, Found, Pixel, Table};
use std::fmt::Write;

/// Order, tiles, and the accounts with what they have.
pub fn show(file: Source) -> Result<(), Failure> {
    let map = Map::open(file)?;
    let (bed, holdings, held) = (&map.bed, map.holdings(), map.held());
    let free = bed.pixels() - held;
    let noun = |pixels| if pixels == 1 { "pixel" } else { "pixels" };
    let head = [
        ("order", bed.order().to_string(), map.extent()),
        ("tiles", bed.words().len().to_string(), format!("by {}", count(holdings.len(), "account"))),
        ("held", held.to_string(), format!("{}, {}", noun(held), share(held, bed.pixels()))),
        ("free", free.to_string(), format!("{}, {}", noun(free), share(free, bed.pixels()))),
    ];
    let width = head.iter().map(|(_, number, _)| number.len()).max().unwrap_or(0);
    let mut text = format!("{}\n", map.source.name());
    for (name, number, more) in head {
        text.push_str(&format!("  {name:<5}  {number:>width$}  {more}\n"));
    }
    table(&mut text, &holdings, bed.pixels());
    print(&text)
}

/// The accounts in rows, numbers to the right.
fn table(text: &mut String, holdings: &[Holding], pixels: u32) {
    if holdings.is_empty() {
        return;
    }
    text.push_str("\n  account  class      tiles   pixels    share\n");
    for holding in holdings {
        let Holding { account: Account(account), class, tiles, pixels: held } = holding;
        let share = share(*held, pixels);
        let _ = writeln!(text, "  {account:>7}  {class:<7}  {tiles:>7}  {held:>7}  {share:>7}");
    }
}

/// Who has a pixel, by which tile, or the free block around it, and where the pixel begins in mils.
pub fn at(file: Source, place: &Place) -> Result<(), Failure> {
    let map = Map::open(file)?;
    let pixel = pixel(&map, place)?;
    let Pixel { column, row } = pixel;
    let refused = |refusal| map.refused(refusal, format!("column {column}, row {row}, on a bed of {}", map.extent()));
    let Found { account, block } = map.bed.lookup(pixel).map_err(refused)?;
    let begins = begins(&map, pixel).map_err(refused)?;
    let (who, what) = match account {
        Account::NOBODY => ("nobody's".to_owned(), "free block"),
        Account(number) => (format!("account {number}, {}", class(account)), "tile"),
    };
    let block = described(block);
    print(&format!("column {column}, row {row}: {who}\n  {what}: {block}\n  in mils: from {begins}\n"))
}

fn described(block: Block) -> String {
    let pixels = count(raw::extent(block.size).pixels as usize, "pixel");
    let span = span(block).unwrap_or_default();
    format!("corner {}, size {}: {span}, {pixels}", block.corner, block.size)
}

/// Whether an account may place at a pixel, by a table from its file or by the old one. An account that does not fit a
/// byte asks as nobody, who is refused alike.
pub fn rights(file: Source, place: &Place, account: u32, table: Option<&Source>) -> Result<(), Failure> {
    let map = Map::open(file)?;
    let (by, table) = match table {
        Some(source) => (source.name(), table::open(source)?),
        None => ("the old one".to_owned(), Table::OLD),
    };
    let at = pixel(&map, place)?;
    let Pixel { column, row } = at;
    let asking = u8::try_from(account).map_or(Account::NOBODY, Account);
    let asked = || format!("account {account} at column {column}, row {row}, on a bed of {}", map.extent());
    let answer = map.bed.rights(&table, at, asking).and_then(|yes| Ok((yes, map.bed.lookup(at)?.account)));
    let (yes, holder) = answer.map_err(|refusal| map.refused(refusal, asked()))?;
    let (said, may) = if yes { ("yes", "may") } else { ("no", "may not") };
    let (class, whose) = (class(asking), if holder == asking { "its own".to_owned() } else { whose(holder) });
    let line = format!("{said}: account {account}, {class}, {may} place at column {column}, row {row}");
    print(&format!("{line}\n  the pixel: {whose}\n  the table: {by}\n"))
}
