//! `scan` and `decode`: from a picture to a map file, and back.

use super::{apart, tell};
use crate::failure::Failure;
use crate::input::Source;
use crate::map::{self, Map};
use crate::output::Target;
use crate::pgm::{self, Picture};
use crate::progress::Progress;
use crate::words::count;
use kingletbed::{Account, Bed, Kind, Refusal};

/// Portions of a picture fed one after another. Each feed checks the list so far, so that there are few.
const PORTIONS: usize = 16;

/// Makes a map file of a picture whose grey values are accounts. One that ends early is a scan that is not finished,
/// which has no file: pixels that are not there are not free.
pub fn scan(image: &Source, out: &Target) -> Result<(), Failure> {
    apart(image, out)?;
    let picture = pgm::read(&image.read()?).map_err(|reason| Failure::refused(image.name(), reason))?;
    let bed = fed(&picture).map_err(|(refusal, detail)| Failure::refusal(image.name(), refusal, &[detail]))?;
    let file = map::file_of(&bed).map_err(|refusal| Failure::refusal(image.name(), refusal, &[reached(&bed)]))?;
    out.write_bytes(&|writer| writer.write_all(&file))?;
    let mut line = format!("{}: {}", out.name(), map::summary(&bed));
    if picture.maxval != u32::from(Account::HIGHEST.0) {
        let maxval = picture.maxval;
        line.push_str(&format!("\n  the picture's maxval is {maxval}; grey values were taken as they are, not scaled"));
    }
    tell(out, &line)
}

/// How far a picture has come.
fn reached(bed: &Bed<Vec<u32>>) -> String {
    let (scanned, pixels) = (bed.scanned() as usize, count(bed.pixels() as usize, "pixel"));
    format!("the picture ends before {}: {scanned} of {pixels} scanned", pgm::spot(scanned, bed.side() as usize))
}

/// The bed of a picture as far as that goes, or why a pixel of it was refused and which.
fn fed(picture: &Picture) -> Result<Bed<Vec<u32>>, (Refusal, String)> {
    let greys = &picture.greys;
    let fresh = Bed::fresh(Kind::Rows, picture.order, vec![0; greys.len()]);
    let mut bed = fresh.map_err(|refusal| (refusal, "a fresh scan".to_owned()))?;
    let mut progress = Progress::new("scanning", greys.len());
    for portion in greys.chunks(greys.len().div_ceil(PORTIONS).max(1)) {
        bed.feed(portion).map_err(|stopped| {
            let at = bed.scanned() as usize;
            (stopped.refusal, format!("{}: grey value {}", pgm::spot(at, bed.side() as usize), greys[at]))
        })?;
        progress.leap(portion.len());
    }
    Ok(bed)
}

/// Makes a picture of a map file.
pub fn decode(file: Source, out: &Target, plain: bool) -> Result<(), Failure> {
    apart(&file, out)?;
    let map = Map::open(file)?;
    let (raster, side) = (map.raster()?, map.bed.side());
    if plain {
        out.write(&|writer| pgm::write_plain(writer, side, &raster))?;
    } else {
        out.write_bytes(&|writer| pgm::write_raw(writer, side, &raster))?;
    }
    match out {
        Target::Standard => Ok(()),
        Target::File(_) => tell(out, &format!("{}: {}, grey value = account", out.name(), map.extent())),
    }
}
