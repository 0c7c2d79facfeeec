//! Equality of beds and of their files, against that of their orders and rasters.

use crate::pair::{bed_of, Count};
use crate::plain::area;
use crate::plain::bed::Bed as Plain;
use crate::random::{palette, Built, Random};
use kingletbed::{Bed, Kind};

/// A bed scanned to slots of its own, and what it was scanned from.
struct Scanned {
    raster: Vec<u8>,
    bed: Bed<Vec<u32>>,
}

impl Scanned {
    /// By a random kind, in more slots than are needed.
    fn of(random: &mut Random, order: u32, raster: Vec<u8>) -> Scanned {
        let kind = random.below(2) as u32;
        let plain = Plain::fresh(kind, order).expect("a small order");
        let accounts: Vec<u8> = (0..area(order)).map(|place| raster[plain.index_of_place(place)]).collect();
        let room = area(order) as usize + random.below(4);
        let kind = if kind == 0 { Kind::Rows } else { Kind::Morton };
        let mut bed = Bed::fresh(kind, order, vec![7; room]).expect("a small order");
        bed.feed(&accounts).expect("slots enough");
        Scanned { raster, bed }
    }

    fn file(&self) -> Vec<u8> {
        let mut file = vec![7; self.bed.file_room()];
        let length = self.bed.write(&mut file).expect("a finished scan");
        file.truncate(length);
        file
    }
}

/// Two beds that are the same, almost the same, or have the same words in another order.
pub fn case(random: &mut Random, count: &mut Count) {
    let order = random.pick(&[0, 1, 1, 2, 2, 3, 4]);
    let (accounts, splits) = (palette(random), random.between(0, 6));
    let built = Built::random(random, order, &accounts, splits);
    let one = Scanned::of(random, order, built.raster.clone());
    let (other_order, raster) = match random.below(4) {
        0 => (order, built.raster),
        1 => {
            let mut raster = built.raster;
            let at = random.below(raster.len());
            raster[at] = random.pick(&accounts);
            (order, raster)
        }
        2 => (order, Built::random(random, order, &accounts, splits).raster),
        _ => (order + 1, wider(order, &built.raster)),
    };
    let other = Scanned::of(random, other_order, raster);
    let expected = order == other_order && one.raster == other.raster;
    assert_eq!(one.bed == other.bed, expected, "{:?} and {:?}", one.bed, other.bed);
    assert_eq!(other.bed == one.bed, expected, "{:?} and {:?}", other.bed, one.bed);
    assert_eq!(one.file() == other.file(), expected, "files of {:?} and {:?}", one.bed, other.bed);
    // The same whatever the slots are and what stands behind the list.
    let mut slots = one.bed.words().to_vec();
    slots.extend((0..random.below(4)).map(|_| random.next() as u32));
    let made = Bed::from_slots(order, one.bed.words().len(), &slots).expect("a good list");
    assert_eq!(made == other.bed, expected, "{made:?} and {:?}", other.bed);
    assert_eq!(made, one.bed);
    assert_eq!(one.bed, made);
    assert_eq!(one.bed.clone(), one.bed);
    // Nor does it matter how far a scan is: what is not scanned compares as nobody's.
    let built = Built { order, words: one.bed.words().to_vec(), raster: one.raster.clone() };
    let (record, cut) = built.scan(random);
    let cut_short = bed_of(record, &cut.words).expect("a good record");
    assert_eq!(cut_short, Scanned::of(random, order, cut.raster.clone()).bed);
    assert_eq!(cut_short == one.bed, cut.raster == one.raster, "{cut_short:?} and {:?}", one.bed);
    count.add("equal", 0);
}

/// A bed of the next order with this one in its north-west, so that the words are the same.
fn wider(order: u32, raster: &[u8]) -> Vec<u8> {
    let side = 1usize << order;
    let mut wider = vec![0; 4 * raster.len()];
    for (row, accounts) in raster.chunks(side).enumerate() {
        wider[2 * side * row..2 * side * row + side].copy_from_slice(accounts);
    }
    wider
}
