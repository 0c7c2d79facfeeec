//! What a bed promises beyond the comparison: it cannot go stale, a scan can be taken apart and made again, nothing is
//! given away that is not scanned, any slots will do, and slots that lie do no harm.

use kingletbed::{raw, Account, Bed, Block, Choice, Found, Kind, Pixel, Refusal, Table, Tile};
use std::cell::Cell;
use std::fmt::Debug;

/// Bed M, and its list.
const M: [u8; 16] = [5, 5, 0, 0, 5, 5, 0, 9, 9, 0, 9, 9, 0, 0, 9, 9];
const M_WORDS: [u32; 4] = [69, 7177, 8201, 12361];

/// The blocks NW and SE, account 3's.
const ZONES: [u32; 2] = [67, 12355];

/// A claim whose answer nobody looks at but for its refusal: the next question is answered from the list that it left.
#[test]
fn no_stale_bed() -> Result<(), Refusal> {
    let (student, other) = (Account(8), Account(9));
    let at = Pixel { column: 1, row: 1 };
    let mut bed = Bed::fresh(Kind::Rows, 1, [0; 4])?;
    bed.feed(&[8, 0, 0, 0])?;
    assert_eq!((bed.lookup(at)?.account, bed.rights(&Table::OLD, at, student)?), (Account::NOBODY, true));
    bed.claim(Block { corner: 3, size: 0 }, other)?;
    assert_eq!((bed.lookup(at)?.account, bed.rights(&Table::OLD, at, student)?), (other, false));
    // The raw calls with the count of before say otherwise, which is why a bed keeps its count to itself.
    let stale = raw::lookup(0, 1, 4, 1, bed.slots(), 1, 1);
    let right = raw::rights(Table::OLD.bytes(), 0, 1, 4, 1, bed.slots(), 1, 1, 8);
    assert_eq!((stale.number, stale.account, right.yes), (0, 0, 1));
    bed.release(Block::whole(1))?;
    assert_eq!(bed.lookup(at)?, Found { account: Account::NOBODY, block: Block::whole(1) });
    assert_eq!(bed.words(), []);
    Ok(())
}

/// A refused claim or preview, and a stopped feed, leave a bed that answers as before.
#[test]
fn refused_calls_leave_a_bed() -> Result<(), Refusal> {
    let mut bed = Bed::from_slots(2, 4, M_WORDS)?;
    let before = bed.clone();
    assert_eq!(bed.preview(Block { corner: 3, size: 0 }, Account::NOBODY), Err(Refusal::SlotsExceeded));
    assert_eq!(bed.release(Block { corner: 3, size: 0 }), Err(Refusal::SlotsExceeded));
    assert_eq!(bed.claim(Block { corner: 3, size: 1 }, Account(5)), Err(Refusal::BlockInvalid));
    assert_eq!(bed.claim(Block::whole(2), Account(64)), Err(Refusal::AccountTooLarge));
    assert_eq!(bed.feed(&[1]).map_err(|stopped| (stopped.refusal, stopped.taken)), Err((Refusal::ScanFull, 0)));
    assert_eq!(bed, before);
    assert_eq!(bed.slots(), before.slots());
    Ok(())
}

/// Bed M in the order of a scan.
fn seen(kind: Kind) -> Result<Vec<u8>, Refusal> {
    let place = |place: u32| match kind {
        Kind::Rows => Ok(place as usize),
        Kind::Morton => Pixel::of_morton(2, place).map(|pixel| (4 * pixel.row + pixel.column) as usize),
    };
    (0..16).map(|at| Ok(M[place(at)?])).collect()
}

/// Bed M scanned so far by a kind.
fn scanned(kind: Kind, pixels: usize) -> Result<Bed<Vec<u32>>, Refusal> {
    let mut bed = Bed::fresh(kind, 2, vec![0; 16])?;
    bed.feed(&seen(kind)?[..pixels])?;
    Ok(bed)
}

/// A scan taken apart and made again is the same scan, wherever it is, and comes to the same end.
#[test]
fn scans_made_again() -> Result<(), Refusal> {
    for (kind, pixels) in [Kind::Rows, Kind::Morton].into_iter().flat_map(|kind| (0..=16).map(move |at| (kind, at))) {
        let bed = scanned(kind, pixels)?;
        let (before, order, scanned, tiles) = (bed.clone(), bed.order(), bed.scanned(), bed.tiles().len());
        let mut again = Bed::from_scan(kind, order, scanned, tiles, bed.into_slots())?;
        assert_eq!(format!("{again:?}"), format!("{before:?}"));
        assert_eq!((again.kind(), again.scanned(), again.is_scanned()), (kind, pixels as u32, pixels == 16));
        again.feed(&seen(kind)?[pixels..])?;
        assert_eq!((again.words(), again.is_scanned()), (&M_WORDS[..], true));
    }
    Ok(())
}

/// What opens no feed makes no bed.
#[test]
fn scans_not_made() {
    let made = |order, pixels, tiles, slots| Bed::from_scan(Kind::Rows, order, pixels, tiles, slots).map(|_| ());
    for (order, pixels, tiles, slots, number) in [
        (11, 0, 0, &[][..], 1),
        (2, 0, 1, &[], 2),
        (2, 16, 1, &[1 << 31 | 69], 11),
        (1, 4, 1, &[133], 12),
        (2, 16, 1, &[1024 + 69], 13),
        (2, 16, 1, &[64], 14),
        (2, 16, 2, &[69, 69], 15),
        (1, 4, 4, &[7, 1031, 2055, 3079], 16),
        (2, 17, 1, &[69], 21),
        (2, u32::MAX, 1, &[69], 21),
        (2, 5, 1, &[69], 22),
    ] {
        assert_eq!(made(order, pixels, tiles, slots), Err(Refusal::from_number(number).expect("a refusal")));
    }
    assert_eq!(made(2, 6, 1, &[69]), Ok(()));
    assert_eq!(made(2, 0, 0, &[u32::MAX]), Ok(()));
}

/// Where the scan has not been nothing is answered and nothing is given away, whatever is asked.
#[test]
fn nothing_on_unscanned_ground() -> Result<(), Refusal> {
    for (kind, pixels) in [Kind::Rows, Kind::Morton].into_iter().flat_map(|kind| (0..16).map(move |at| (kind, at))) {
        let mut bed = scanned(kind, pixels)?;
        let before = bed.clone();
        let unscanned = (0..16).map(|morton| Pixel::of_morton(2, morton));
        let unscanned = unscanned.filter(|at| bed.lookup(at.expect("order 2")) == Err(Refusal::Unscanned));
        assert_eq!(unscanned.count(), 16 - pixels);
        assert_eq!(bed.write(&mut [0; 99]), Err(Refusal::Unscanned));
        for (corner, size) in [(15, 0), (12, 1), (0, 2)] {
            let block = Block { corner, size };
            assert_eq!(bed.is_block_scanned(block), Ok(false));
            assert_eq!(bed.account_of(block), Err(Refusal::Unscanned));
            assert_eq!(bed.preview(block, Account(9)), Err(Refusal::Unscanned));
            assert_eq!(bed.claim(block, Account(9)), Err(Refusal::Unscanned));
            assert_eq!(bed.release(block), Err(Refusal::Unscanned));
            assert!(bed.shown(block)?.eq(bed.part(block)?.iter().map(|&word| Tile::of_word(word))));
        }
        assert_eq!(bed.rights(&Table::OLD, Pixel { column: 3, row: 3 }, Account(1)), Err(Refusal::Unscanned));
        assert_eq!((bed.slots(), bed.scanned()), (before.slots(), before.scanned()));
    }
    Ok(())
}

/// What is no block is refused as such, also where its numbers would wrap.
#[test]
fn no_blocks() -> Result<(), Refusal> {
    let bed = Bed::fresh(Kind::Rows, 2, [0; 16])?;
    for corner in [0, 1, 3, 4, 15, 16, 17, 1 << 20, u32::MAX - 3, u32::MAX - 2, u32::MAX] {
        for size in [0, 1, 2, 3, 10, 11, 16, 31, 32, u32::MAX] {
            let (block, valid) = (Block { corner, size }, size <= 2 && corner < 16 && corner % (1 << (2 * size)) == 0);
            let whole = if valid { Ok(false) } else { Err(Refusal::BlockInvalid) };
            let account = if valid { Refusal::Unscanned } else { Refusal::BlockInvalid };
            assert_eq!((bed.is_block_scanned(block), bed.account_of(block)), (whole, Err(account)));
            assert_eq!(bed.shown(block).err(), whole.err());
        }
    }
    Ok(())
}

/// The same calls on a bed of any slots.
fn scan<S: AsRef<[u32]> + AsMut<[u32]>>(slots: S) -> Result<Bed<S>, Refusal> {
    let mut bed = Bed::fresh(Kind::Rows, 2, slots)?;
    bed.feed(&M[..7])?;
    bed.feed(&M[7..])?;
    bed.release(Block { corner: 3, size: 0 })?;
    bed.claim(Block { corner: 3, size: 0 }, Account(5))?;
    assert_eq!(bed.words(), M_WORDS);
    Ok(bed)
}

#[test]
fn slots_of_any_kind() -> Result<(), Refusal> {
    let mut lent = [0; 16];
    let mut list = vec![0; 16];
    let array = scan([0; 16])?;
    assert_eq!(scan(&mut lent[..])?, array);
    assert_eq!(scan(&mut lent)?, array);
    assert_eq!(scan(&mut list)?, array);
    assert_eq!(scan(vec![0; 16])?, array);
    assert_eq!(scan(vec![0; 16].into_boxed_slice())?, array);
    // Only to be asked.
    assert_eq!(Bed::from_slots(2, 4, &lent[..])?, array);
    assert_eq!(Bed::from_slots(2, 4, &lent)?, array);
    assert_eq!(Bed::from_slots(2, 4, std::sync::Arc::<[u32]>::from(lent))?, array);
    assert_eq!(array.view(), array);
    // The slots are free again when the bed has ended.
    lent[0] = 0;
    assert_eq!(Bed::from_slots(2, 4, lent), Err(Refusal::AccountZero));
    Ok(())
}

/// A third bed is scanned as the first is; what the second has not scanned counts as nobody's.
#[test]
fn third_beds() -> Result<(), Refusal> {
    let mut first = Bed::fresh(Kind::Morton, 2, [0; 16])?;
    first.feed(&[5, 5, 5, 5, 9])?;
    let mut second = Bed::fresh(Kind::Rows, 2, vec![0; 16])?;
    second.feed(&[0, 3, 3])?;
    let inside = Bed::combine(Choice::Inside, &first, &second, vec![7; 16])?;
    assert_eq!((inside.kind(), inside.order(), inside.scanned(), inside.is_scanned()), (Kind::Morton, 2, 5, false));
    assert_eq!((inside.words(), &inside.slots()[2..]), (&[1029, 4105][..], &[0; 14][..]));
    assert_eq!(inside.lookup(Pixel { column: 3, row: 0 }), Err(Refusal::Unscanned));
    let mut outside = Bed::combine(Choice::Outside, &first, &second, [7; 4])?;
    assert_eq!((outside.kind(), outside.scanned(), outside.slots()), (Kind::Morton, 5, &[5, 2053, 3077, 0][..]));
    // The third is a bed like any other, and the two go on as they were.
    outside.claim(Block { corner: 1, size: 0 }, Account(5))?;
    assert_eq!((outside.words(), inside.words().len()), (&[69][..], 2));
    outside.feed(&[9, 9, 9])?;
    assert_eq!((outside.scanned(), outside.words()), (8, &[69, 5129, 6153, 7177][..]));
    first.feed(&[9, 9, 9])?;
    assert_eq!((first.scanned(), second.scanned(), first.words()), (8, 3, &[69, 4169][..]));
    // Of a finished first bed the third is finished, however far the second is.
    let whole = Bed::combine(Choice::Outside, &Bed::from_slots(2, 4, M_WORDS)?, &second, [7; 16])?;
    assert_eq!((whole.kind(), whole.is_scanned(), whole.words().len()), (Kind::Rows, true, 6));
    Ok(())
}

#[test]
fn third_beds_of_any_slots() -> Result<(), Refusal> {
    let (bed, zones) = (Bed::from_slots(2, 4, M_WORDS)?, Bed::from_slots(2, 2, &ZONES[..])?);
    let inside = Bed::from_slots(2, 2, [69, 12361])?;
    let (mut lent, mut list) = ([7; 2], vec![7; 9]);
    assert_eq!(Bed::combine(Choice::Inside, &bed, &zones, &mut lent)?, inside);
    assert_eq!(Bed::combine(Choice::Inside, &bed, &zones, &mut list[..])?, inside);
    assert_eq!(Bed::combine(Choice::Inside, &bed.view(), &zones, vec![7; 9])?, inside);
    assert_eq!(Bed::combine(Choice::Inside, &bed, &zones.view(), vec![7; 9].into_boxed_slice())?, inside);
    assert_eq!((lent, list), ([69, 12361], vec![69, 12361, 0, 0, 0, 0, 0, 0, 0]));
    // A bed inside itself is itself, and outside itself nothing.
    assert_eq!(Bed::combine(Choice::Inside, &bed, &bed, [7; 4])?, bed);
    assert_eq!(Bed::combine(Choice::Outside, &bed, &bed, [7; 4])?.slots(), [0; 4]);
    assert_eq!(Bed::combine(Choice::Outside, &bed, &bed, [])?.words(), []);
    Ok(())
}

/// Slots that were lent to a refused combining are as they were.
#[test]
fn refused_third_beds() -> Result<(), Refusal> {
    let (bed, zones) = (Bed::from_slots(2, 4, M_WORDS)?, Bed::from_slots(2, 2, ZONES)?);
    let (larger, empty) = (Bed::from_slots(3, 2, ZONES)?, Bed::from_slots(1, 0, [])?);
    let mut slots = [7, 8];
    for (choice, words) in [(Choice::Inside, [69, 12361]), (Choice::Outside, [7177, 8201])] {
        assert_eq!(Bed::combine(choice, &bed, &zones, &mut slots[..1]), Err(Refusal::SlotsExceeded));
        assert_eq!(Bed::combine(choice, &bed, &larger, &mut slots), Err(Refusal::OrdersDiffer));
        assert_eq!(Bed::combine(choice, &larger, &bed, &mut slots), Err(Refusal::OrdersDiffer));
        assert_eq!(Bed::combine(choice, &bed, &empty, &mut slots), Err(Refusal::OrdersDiffer));
        assert_eq!(slots, [7, 8]);
        assert_eq!(Bed::combine(choice, &bed, &zones, slots)?.words(), words);
    }
    Ok(())
}

#[test]
fn prints() -> Result<(), Refusal> {
    let bed = Bed::from_slots(1, 2, [7, 1032, 0])?;
    let tiles = "[Tile { corner: 0, size: 0, account: 7 }, Tile { corner: 1, size: 0, account: 8 }]";
    assert_eq!(format!("{bed:?}"), format!("Bed {{ kind: Rows, order: 1, scanned: 4, tiles: {tiles} }}"));
    Ok(())
}

#[test]
fn iterators() -> Result<(), Refusal> {
    let bed = Bed::from_slots(2, 4, M_WORDS)?;
    let corners: Vec<u32> = bed.tiles().map(|tile| tile.corner()).collect();
    assert_eq!(corners, [0, 7, 8, 12]);
    assert!(bed.tiles().rev().map(|tile| tile.corner()).eq(corners.iter().copied().rev()));
    assert_eq!(
        (bed.tiles().len(), bed.tiles().nth(2).map(|tile| tile.corner()), bed.tiles().nth(4)),
        (4, Some(8), None)
    );
    let under = Block { corner: 13, size: 0 };
    let (mut shown, mut back) = (bed.shown(under)?, bed.shown(under)?);
    assert_eq!((shown.len(), shown.next(), shown.len(), shown.next()), (1, back.next_back(), 0, None));
    assert_eq!(back.next_back(), None);
    assert!(bed.shown(Block::whole(2))?.eq(bed.tiles()));
    assert_eq!(bed.shown(Block { corner: 13, size: 1 }).err(), Some(Refusal::BlockInvalid));
    Ok(())
}

/// Slots that give other words each time they are asked.
struct Turning {
    turn: Cell<usize>,
    lists: [Vec<u32>; 5],
}

impl Turning {
    fn new(turn: usize) -> Turning {
        let stripes = (0..16).map(|corner| corner << 10 | (1 + corner % 2)).collect();
        Turning { turn: Cell::new(turn), lists: [M_WORDS.to_vec(), vec![], vec![u32::MAX; 9], vec![133, 0], stripes] }
    }

    /// The next turn, by no rule that a call could keep pace with.
    fn next(&self) -> usize {
        self.turn.set(self.turn.get().wrapping_mul(0x5851_f42d_4c95_7f2d).wrapping_add(0x1405_7b7e_f767_814f));
        (self.turn.get() >> 33) % self.lists.len()
    }
}

impl AsRef<[u32]> for Turning {
    fn as_ref(&self) -> &[u32] {
        &self.lists[self.next()]
    }
}

impl AsMut<[u32]> for Turning {
    fn as_mut(&mut self) -> &mut [u32] {
        let next = self.next();
        &mut self.lists[next]
    }
}

fn answered<T: Debug, E: Debug>(answer: Result<T, E>, counts: &mut [usize; 2]) {
    counts[usize::from(answer.is_err())] += 1;
    assert!(!format!("{answer:?}").is_empty());
}

/// Every call on a bed whose slots lie: it answers or refuses, and does not panic.
fn ask(bed: &mut Bed<Turning>, seed: usize, counts: &mut [usize; 2]) {
    let block = Block { corner: (seed % 4 * 4) as u32, size: (seed % 3) as u32 };
    let at = Pixel { column: (seed % 4) as u32, row: (seed / 4 % 4) as u32 };
    answered(bed.lookup(at), counts);
    answered(bed.rights(&Table::OLD, at, Account(9)), counts);
    answered(bed.part(block), counts);
    answered(bed.account_of(block), counts);
    answered(bed.is_block_scanned(block), counts);
    answered(bed.shown(block).map(|shown| shown.map(|tile| (tile.pixel(), tile.side())).collect::<Vec<_>>()), counts);
    answered(bed.decode(&mut [0; 16]), counts);
    answered(bed.write(&mut vec![0; bed.file_room()]), counts);
    answered(bed.preview(block, Account(7)), counts);
    answered(bed.feed(&[9, 9]), counts);
    answered(bed.claim(block, Account(7)), counts);
    answered(bed.release(block), counts);
    let choice = if seed % 2 == 0 { Choice::Inside } else { Choice::Outside };
    answered(Bed::combine(choice, bed, &bed.view(), Turning::new(seed)), counts);
    answered(Bed::combine(choice, bed, bed, [0; 16]), counts);
    assert!(bed.words().len() <= 16 && bed.tiles().all(|tile| tile.size() < 16) && bed.file_room() <= 6 + 9 * 16);
    assert!(!format!("{bed:?} {:?} {}", bed.view(), *bed == bed.view()).is_empty());
}

#[test]
fn slots_that_lie() {
    let mut counts = [0, 0];
    for seed in 0..5000 {
        let kind = if seed % 2 == 0 { Kind::Rows } else { Kind::Morton };
        let made = [
            Bed::from_slots(2, seed % 6, Turning::new(seed)),
            Bed::from_scan(kind, 2, (seed % 18) as u32, seed % 6, Turning::new(seed)),
            Bed::fresh(kind, 2, Turning::new(seed)),
        ];
        for mut bed in made.into_iter().flatten() {
            (0..4).for_each(|turn| ask(&mut bed, seed + turn, &mut counts));
        }
    }
    assert!(counts[0] > 10_000 && counts[1] > 10_000, "{counts:?}");
}
