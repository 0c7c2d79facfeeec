//! `inside` and `outside`: a third map of two.

use super::{apart, tell};
use crate::failure::Failure;
use crate::input::Source;
use crate::layout::Layout;
use crate::map::{self, Map};
use crate::output::Target;
use crate::words::count;
use kingletbed::{Bed, Choice, Refusal};

/// Makes a map file of a map's pixels where another is somebody's, or where it is nobody's.
pub fn combine(choice: Choice, file: Source, zones: Source, out: &Target) -> Result<(), Failure> {
    apart(&file, out)?;
    apart(&zones, out)?;
    let (first, second) = (Map::open(file)?, Map::open(zones)?);
    let third = Bed::combine(choice, &first.bed, &second.bed, map::slots());
    let made = third.and_then(|third| Ok((map::file_of(&third)?, third)));
    let (file, third) = made.map_err(|refusal| refused(refusal, [&first, &second]))?;
    out.write_bytes(&|writer| writer.write_all(&file))?;
    let (kept, held) = (Layout { bytes: &file }.held(), first.held());
    let kept = format!("{kept} of {}", count(held as usize, "held pixel"));
    tell(out, &format!("{}: {}\n  kept: {kept}", out.name(), map::summary(&third)))
}

/// The refusal of two maps, with the order of each.
fn refused(refusal: Refusal, maps: [&Map; 2]) -> Failure {
    let [first, second] = maps.map(|map| map.source.name());
    Failure::refusal(format!("{first} and {second}"), refusal, &maps.map(Map::measured))
}
