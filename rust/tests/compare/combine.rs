//! Two maps and the third that is made of them.

use crate::lent::{Brief, Lent};
use crate::pair::{flat, record_of, same, some, At, Count};
use crate::plain::bed::Bed as Plain;
use crate::plain::{area, list, Record};
use crate::random::{palette, Built, Random};
use kingletbed::{raw, Bed, Choice};

/// Both choices, and numbers that would be choice 0 if they were cut down.
pub const CHOICES: [u32; 8] = [0, 1, 0, 1, 2, 256, 1 << 16, u32::MAX];

pub fn choice_of(number: u32) -> Choice {
    if number == 0 {
        Choice::Inside
    } else {
        Choice::Outside
    }
}

/// From `least` to `most` slots with anything in them.
pub fn garbage(random: &mut Random, least: usize, most: usize) -> Vec<u32> {
    (0..random.between(least, most)).map(|_| random.next() as u32).collect()
}

impl Count {
    /// The number and the tile count. Where both maps have the same slice, the library is lent one slice too. The scan
    /// of a third bed is that of the first.
    pub fn combine<'a>(
        &mut self,
        choice: u32,
        first: impl Into<At<'a>>,
        second: impl Into<At<'a>>,
        out: &mut Vec<u32>,
    ) -> (u32, usize) {
        let (first, second) = (first.into(), second.into());
        let before = out.clone();
        let given = (choice, first, second, Brief(&before));
        let map = |at: At<'a>| (at.record.order, at.record.tiles, at.slots);
        let ((order1, tiles1, _), (order2, tiles2, _)) = (map(first), map(second));
        let (number, tiles, after) = list::combine(choice, map(first), map(second), &before);
        let (one, apart) = (Lent::new(first.slots), Lent::new(second.slots));
        let two = if std::ptr::eq(first.slots, second.slots) { &one } else { &apart };
        let mut lent = Lent::new(&before);
        let (slots1, slots2) = (one.as_ref(), two.as_ref());
        let answer = raw::combine(choice, order1, tiles1, slots1, order2, tiles2, slots2, lent.as_mut());
        same("combine", &given, (answer.number, answer.tiles), (number, tiles));
        lent.must_be("combine", &given, &after);
        one.must_be("combine, the first map", &given, first.slots);
        two.must_be("combine, the second map", &given, second.slots);
        for (one, two) in first.lists().flat_map(|one| second.lists().map(move |two| (one.clone(), two))) {
            let mut lent = Lent::new(&before);
            let record = one.as_ref().map_or(first.record, |one| Record { tiles, ..record_of(one) });
            let combined = one.and_then(|one| Bed::combine(choice_of(choice), &one, &two?, lent.as_mut()));
            same("combine of beds", &given, flat(combined.map(|bed| record_of(&bed))), some(number, record));
            lent.must_be("combine of beds", &given, &after);
        }
        *out = after;
        self.add("combine", number);
        (number, tiles)
    }

    /// The third map of two good ones of an order, made in one slot too few, in just enough and in more, whatever these
    /// hold before.
    pub fn combine_rooms<'a>(
        &mut self,
        random: &mut Random,
        choice: u32,
        first: impl Into<At<'a>>,
        second: impl Into<At<'a>>,
    ) -> Vec<u32> {
        let (first, second) = (first.into(), second.into());
        let map = |at: At<'a>| (at.record.order, at.record.tiles, at.slots);
        let most = vec![0; area(first.record.order) as usize];
        let (number, tiles, _) = list::combine(choice, map(first), map(second), &most);
        assert_eq!(number, 0, "4^order slots always suffice");
        if tiles > 0 {
            let mut few = garbage(random, tiles - 1, tiles - 1);
            assert_eq!(self.combine(choice, first, second, &mut few), (25, 0), "one slot too few");
        }
        let mut enough = garbage(random, tiles, tiles);
        assert_eq!(self.combine(choice, first, second, &mut enough), (0, tiles), "just enough slots");
        let mut more = garbage(random, tiles + 1, tiles + 9);
        assert_eq!(self.combine(choice, first, second, &mut more), (0, tiles), "more than enough slots");
        assert_eq!(more[..tiles], enough, "the same list in more slots");
        enough
    }
}

/// The list of a raster.
pub fn words(order: u32, raster: &[u8]) -> Vec<u32> {
    Plain::whole(order, raster.to_vec()).blocks().iter().map(|tile| tile.word()).collect()
}

/// A second map for a first: of its own, the same ground with other accounts, the ground that the first leaves, the
/// first but for a few pixels, one account everywhere, or nothing.
pub fn second(random: &mut Random, order: u32, first: &[u8]) -> Vec<u32> {
    let accounts = palette(random);
    let held: Vec<u8> = accounts.iter().copied().filter(|&account| account != 0).collect();
    let mut raster = first.to_vec();
    match random.below(8) {
        // Where the accounts of a block differ here, the third map has to merge what lies inside it.
        0 | 1 => raster.iter_mut().filter(|account| **account != 0).for_each(|account| *account = random.pick(&held)),
        2 => raster.iter_mut().for_each(|account| *account = if *account == 0 { random.pick(&held) } else { 0 }),
        3 => {
            for _ in 0..random.between(1, 4) {
                let at = random.below(raster.len());
                raster[at] = random.pick(&accounts);
            }
        }
        4 => raster.fill(random.between(1, 63) as u8),
        5 => raster.fill(0),
        _ => {
            let splits = random.between(1, 7);
            return Built::random(random, order, &accounts, splits).words;
        }
    }
    words(order, &raster)
}

/// Good maps of one order, either way round, and a slice with itself, its tiles counted in full or in part. The scan of
/// the first may be unfinished.
pub fn case(random: &mut Random, count: &mut Count) {
    let order = random.pick(&[0, 1, 1, 2, 2, 3, 3, 4, 5]);
    let (accounts, splits) = (palette(random), random.between(0, 7));
    let (record, built) = Built::random(random, order, &accounts, splits).scan(random);
    let (tiles1, mut slots1) = (built.words.len(), built.words.clone());
    let mut slots2 = second(random, order, &built.raster);
    let tiles2 = slots2.len();
    slots1.extend(garbage(random, 0, 3));
    slots2.extend(garbage(random, 0, 3));
    let (first, second) = ((record, &slots1), (order, tiles2, &slots2));
    let (either, other) = (random.pick(&CHOICES), random.pick(&CHOICES[4..]));
    let inside = count.combine_rooms(random, 0, first, second);
    let outside = count.combine_rooms(random, other, first, second);
    together(order, &built.raster, &inside, &outside);
    count.combine_rooms(random, either, second, first);
    // One slice for both: all of a map is inside itself, and nothing outside.
    assert_eq!(count.combine_rooms(random, 0, first, first), built.words);
    assert_eq!(count.combine_rooms(random, 1, first, first), []);
    let fewer = (order, random.below(tiles1 + 1), &slots1);
    count.combine_rooms(random, either, first, fewer);
    count.combine_rooms(random, either, fewer, first);
    // What was taken from inside the second map has nothing outside it.
    let within = (order, inside.len(), &inside[..]);
    assert_eq!(count.combine_rooms(random, 1, within, second), []);
}

/// A pixel that the first map has is in one of the two third maps, with its account, and not in both.
fn together(order: u32, raster: &[u8], inside: &[u32], outside: &[u32]) {
    let painted = |words: &[u32]| list::decode(order, words.len(), words, raster).1;
    for ((&account, inside), outside) in raster.iter().zip(painted(inside)).zip(painted(outside)) {
        assert!((inside, outside) == (account, 0) || (inside, outside) == (0, account), "the two parts of a map");
    }
}
