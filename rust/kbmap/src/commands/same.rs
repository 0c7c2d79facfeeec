//! `same`: are two files of one map, and if not, where do their beds differ first?

use super::{begins, whose};
use crate::failure::Failure;
use crate::input::Source;
use crate::map::{self, Map};
use crate::output::print;
use kingletbed::{Account, Pixel};
use std::io;

/// Two files that the library reads have the same bytes just where their beds have one order and the same accounts: so
/// the bytes tell, and what differs is looked for on the beds.
pub fn same(file: Source, other: Source) -> Result<(), Failure> {
    let (first, second) = (Map::open(file)?, Map::open(other)?);
    let names = format!("{} and {}", first.source.name(), second.source.name());
    if first.bytes == second.bytes {
        return print(&format!("{names}: the same map\n  {}\n", map::summary(&first.bed)));
    }
    let differ = if first.bed.order() == second.bed.order() {
        first_pixel(&first, &second)?
    } else {
        format!("  {}\n  {}\n", first.measured(), second.measured())
    };
    print(&format!("{names}: not the same map\n{differ}"))?;
    Err(Failure::told())
}

/// The first pixel, row after row from the north-west, that has another account on the second bed, and how many have.
fn first_pixel(first: &Map, second: &Map) -> Result<String, Failure> {
    let (here, there) = (first.raster()?, second.raster()?);
    let mut differ = (0..here.len()).filter(|&at| here[at] != there[at]);
    let Some(at) = differ.next() else {
        let misread = io::Error::other("other bytes, but the same bed: one was misread");
        return Err(Failure::trouble(format!("{} and {}", first.source.name(), second.source.name()), &misread));
    };
    let side = first.bed.side() as usize;
    let pixel = Pixel { column: (at % side) as u32, row: (at / side) as u32 };
    let place = format!("column {}, row {}", pixel.column, pixel.row);
    let begins = begins(first, pixel).map_err(|refusal| first.refused(refusal, place.clone()))?;
    let mut text = format!("  first at {place}, in mils from {begins}:\n");
    for (map, raster) in [(first, &here), (second, &there)] {
        text.push_str(&format!("    {}: {}\n", map.source.name(), whose(Account(raster[at]))));
    }
    let many = differ.count() + 1;
    Ok(format!("{text}  pixels that differ: {many} of {}\n", here.len()))
}
