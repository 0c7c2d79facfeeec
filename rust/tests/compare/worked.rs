//! The worked lines of the scope paper, those that are proved as well, and those of lookups, previews, unfinished
//! scans, positions and tables. The numbers are the papers', computed by the checker or by hand, not the plain
//! implementation's.

use crate::living::Living;
use crate::pair::Count;
use crate::plain::{Record, Tile};
use crate::tables::{file_of, OLD, WORKSHOP};

/// Bed M, order 2, row after row, and its list.
const M: [u8; 16] = [5, 5, 0, 0, 5, 5, 0, 9, 9, 0, 9, 9, 0, 0, 9, 9];
const M_WORDS: [u32; 4] = [69, 7177, 8201, 12361];

fn word(corner: u32, size: u32, account: u32) -> u32 {
    corner * 1024 + size * 64 + account
}

/// Scans accounts with m slots: the number, the count taken, the record and the slots.
fn scanned(count: &mut Count, kind: u32, order: u32, m: usize, accounts: &[u8]) -> (u32, usize, Record, Vec<u32>) {
    let mut living = Living::unmade(Record { kind, order, pixels: 0, tiles: 0 }, vec![u32::MAX; m]);
    assert_eq!(living.fresh(count, kind, order), 0);
    let (number, taken) = living.feed(count, accounts);
    (number, taken, living.record, living.slots)
}

pub fn lines(count: &mut Count) {
    bed_m(count);
    small_beds(count);
    limits(count);
    rosters(count);
    rights(count);
    loads(count);
    places(count);
    zones(count);
    halfway(count);
    nobodys(count);
    positions(count);
}

fn bed_m(count: &mut Count) {
    assert_eq!(M_WORDS, [word(0, 1, 5), word(7, 0, 9), word(8, 0, 9), word(12, 1, 9)]);
    let (number, taken, record, slots) = scanned(count, 0, 2, 6, &M);
    assert_eq!((number, taken, record.tiles), (0, 16, 4));
    assert_eq!(slots, [69, 7177, 8201, 12361, 0, 0]);
    let (number, taken, ..) = scanned(count, 0, 2, 5, &M);
    assert_eq!((number, taken), (25, 14));

    let at = (2, 4, &M_WORDS[..]);
    assert_eq!(count.decode(at, &[0; 16]), (0, M.to_vec()));
    let (number, file) = count.write(at, &[0xee; 40]);
    assert_eq!((number, file.len()), (0, 32));
    assert_eq!(file[21..], [2, 5, 0, 0, 0, 4, 9, 0, 0, 0, 6]);
    let mut slots = vec![1; 7];
    assert_eq!(count.read(&file, &mut slots), (0, 2, 4));
    assert_eq!(slots, [69, 7177, 8201, 12361, 0, 0, 0]);
    assert_eq!(count.write(at, &[0; 31]).0, 26);

    assert_eq!(count.part(at, 4, 1), (0, 1, 1));
    assert_eq!(count.part(at, 12, 0), (0, 3, 0));
    assert_eq!(count.shown(at, 12, 0), (0, vec![Tile { corner: 12, size: 0, account: 9 }]));
    assert_eq!(count.lookup(at, 3, 1), (0, Tile { corner: 7, size: 0, account: 9 }));
    assert_eq!(count.lookup(at, 3, 2), (0, Tile { corner: 12, size: 1, account: 9 }));
    assert_eq!(count.lookup(at, 2, 0), (0, Tile { corner: 4, size: 0, account: 0 }));
    assert_eq!(count.lookup((2, 3, &[69, 8201, 12361]), 2, 0), (0, Tile { corner: 4, size: 1, account: 0 }));
    assert_eq!(count.lookup((2, 2, &[69, 4101]), 3, 0), (0, Tile { corner: 5, size: 0, account: 0 }));
    assert_eq!(count.lookup((2, 2, &[69, 4101]), 0, 2), (0, Tile { corner: 8, size: 1, account: 0 }));
    assert_eq!(count.lookup((3, 2, &[5, 64521]), 6, 3), (0, Tile { corner: 16, size: 2, account: 0 }));
    assert_eq!(count.lookup((3, 0, &[0; 0]), 5, 6), (0, Tile { corner: 0, size: 3, account: 0 }));
    assert_eq!(count.lookup((2, 1, &[64]), 4, 1), (14, Tile { corner: 0, size: 0, account: 0 }));
    assert_eq!(count.lookup(at, 4, 1), (31, Tile { corner: 0, size: 0, account: 0 }));

    let mut slots = M_WORDS.to_vec();
    slots.resize(6, 0);
    let mut living = Living::of_scan(Record::whole(2, 4), &slots);
    assert_eq!(count.preview(living.at(), 3, 0, 9), (25, 0));
    assert_eq!(count.preview(living.at(), 3, 0, 0), (0, 6));
    assert_eq!((living.claim(count, 3, 0, 0), living.record.tiles), (0, 6));
    assert_eq!(living.slots, [word(0, 0, 5), word(1, 0, 5), word(2, 0, 5), 7177, 8201, 12361]);
}

fn small_beds(count: &mut Count) {
    let (number, taken, record, slots) = scanned(count, 0, 1, 3, &[7; 4]);
    assert_eq!((number, taken, record.tiles, slots[0]), (0, 4, 1, word(0, 1, 7)));
    let (number, taken, ..) = scanned(count, 0, 1, 2, &[7; 4]);
    assert_eq!((number, taken), (25, 2));
    let (number, taken, record, _) = scanned(count, 0, 0, 0, &[0]);
    assert_eq!((number, taken, record.tiles), (0, 1, 0));
    // The listing program's example.
    let (number, taken, record, slots) = scanned(count, 0, 1, 4096, &[7, 7, 0, 7]);
    assert_eq!((number, taken, record.tiles), (0, 4, 3));
    assert_eq!(slots[..3], [word(0, 0, 7), word(1, 0, 7), word(3, 0, 7)]);
}

fn limits(count: &mut Count) {
    assert_eq!(count.check((10, 1, &[703])), 0);
    assert_eq!(count.check((10, 1, &[703 + 64])), 12);
    assert_eq!(scanned(count, 0, 2, 16, &[63]).0, 0);
    assert_eq!(scanned(count, 0, 2, 16, &[64]).0, 24);
    let mut slots = M_WORDS.to_vec();
    slots.resize(16, 0);
    assert_eq!(count.claim(Record::whole(2, 4), &mut slots.clone(), 4, 0, 63).0, 0);
    assert_eq!(count.claim(Record::whole(2, 4), &mut slots, 4, 0, 64).0, 24);
    assert_eq!(count.read(&[], &mut slots).0, 41);
    // A file's tile count that four times over would be small.
    assert_eq!(count.read(&[2, 0x40, 0, 0, 0, 0], &mut slots).0, 25);
    assert_eq!(count.read(&[11], &mut slots).0, 1);
}

/// M's file with other rosters: the number of entries, the entries, and what the reader answers.
fn rosters(count: &mut Count) {
    let head = [2, 0, 0, 0, 4, 0, 0, 0, 69, 0, 0, 28, 9, 0, 0, 32, 9, 0, 0, 48, 73];
    let rosters: [(u8, &[u8], u32); 19] = [
        (2, &[5, 0, 0, 0, 4, 9, 0, 0, 0, 6], 0),
        // An entry that does not rise, with more or less behind it than there should be.
        (2, &[9, 0, 0, 0, 6, 5, 0, 0, 0, 4], 54),
        (2, &[5, 0, 0, 0, 4, 5, 0, 0, 0, 4], 54),
        (3, &[5, 0, 0, 0, 4, 9, 0, 0, 0, 6, 9, 0, 0, 0, 6], 54),
        (2, &[9, 0, 0, 0, 6, 5, 0, 0, 0, 4, 0], 54),
        (3, &[9, 0, 0, 0, 6, 5, 0, 0, 0, 4], 54),
        (3, &[9, 0, 0, 0, 6, 5, 0, 0, 0, 4, 7, 0], 54),
        (2, &[9, 0, 0, 0, 7, 5, 0, 0, 0, 4], 54),
        (2, &[0, 0, 0, 0, 0, 0, 0, 0, 0, 0], 54),
        // Before its five bytes are there it is not looked at, nor is one that the count does not announce.
        (2, &[9, 0, 0, 0, 6, 5, 0, 0, 0], 41),
        (1, &[9, 0, 0, 0, 6, 5, 0, 0, 0, 4], 42),
        (2, &[5, 0, 0, 0, 5, 9, 0, 0, 0, 6, 0], 42),
        // Rising accounts that are not those of the tiles; the first entry has none ahead of it.
        (3, &[0, 0, 0, 0, 0, 5, 0, 0, 0, 4, 9, 0, 0, 0, 6], 43),
        (3, &[5, 0, 0, 0, 4, 7, 0, 0, 0, 0, 9, 0, 0, 0, 6], 43),
        (3, &[5, 0, 0, 0, 4, 9, 0, 0, 0, 6, 64, 0, 0, 0, 0], 43),
        (3, &[5, 0, 0, 0, 4, 9, 0, 0, 0, 6, 255, 0, 0, 0, 0], 43),
        (1, &[5, 0, 0, 0, 4], 43),
        (1, &[9, 0, 0, 0, 6], 43),
        (2, &[5, 0, 0, 0, 4, 9, 0, 0, 0, 7], 43),
    ];
    for (entries, bytes, number) in rosters {
        let mut slots = vec![1; 5];
        let answer = if number == 0 { (0, 2, 4) } else { (number, 0, 0) };
        assert_eq!(count.read(&[&head, &[entries][..], bytes].concat(), &mut slots), answer, "{entries}, {bytes:?}");
        assert_eq!(slots, if number == 0 { [69, 7177, 8201, 12361, 0] } else { [1; 5] });
    }
}

/// The old table of rights, handed in and where none is: askers and holders from each class, at the ends of each range.
fn rights(count: &mut Count) {
    let classes = [[1, 7], [8, 47], [48, 63]];
    // own, nobody's, another guest's, another student's, another staff member's
    let table = [[1, 1, 1, 1, 0], [1, 1, 0, 0, 0], [1, 0, 0, 0, 0]];
    for (class, askers) in classes.iter().enumerate() {
        for &asking in askers {
            for (kind, holders) in [vec![asking], vec![0], vec![48, 63], vec![8, 47], vec![1, 7]].iter().enumerate() {
                for &holder in holders {
                    if kind > 0 && holder == asking {
                        continue;
                    }
                    let slots = if holder == 0 { vec![] } else { vec![word(0, 0, u32::from(holder))] };
                    for handed in [&OLD[..], &[]] {
                        let answer = count.rights(handed, (0, slots.len(), &slots), 0, 0, asking);
                        assert_eq!(answer, (0, table[class][kind] == 1), "{asking} asks for a pixel of {holder}");
                    }
                }
            }
        }
    }
    for asking in [0, 64, 255] {
        assert_eq!(count.rights(&OLD, (2, 4, &M_WORDS), 3, 3, asking).0, 34);
        assert_eq!(count.rights(&OLD, (2, 4, &M_WORDS), 4, 0, asking).0, 31);
    }
}

/// The lab's table for workshops: a guest on nobody's pixels, before it is loaded, after, and once a load is refused.
fn loads(count: &mut Count) {
    let guest_at =
        |count: &mut Count, table: &[u8], column, row| count.rights(table, (2, 4, &M_WORDS), column, row, 50);
    let mut table = vec![0; 15];
    assert_eq!(guest_at(count, &table, 2, 0), (0, false));
    assert_eq!(count.load(&file_of(&OLD), &mut table), 0);
    assert_eq!((&table[..], guest_at(count, &table, 2, 0)), (&OLD[..], (0, false)));
    assert_eq!(count.load(&file_of(&WORKSHOP), &mut table), 0);
    assert_eq!((&table[..], guest_at(count, &table, 2, 0)), (&WORKSHOP[..], (0, true)));
    for (number, file) in [
        (55, [14, 1, 1, 1, 1, 0, 1, 1, 0, 0, 0, 1, 0, 0, 0, 0]),
        (55, [15, 1, 1, 1, 1, 0, 1, 1, 0, 2, 0, 1, 0, 0, 0, 0]),
        (55, [15, 2, 0, 0, 0, 0, 0, 0, 0, 0, 0, 0, 0, 0, 0, 0]),
        // own pixels; a guest's yes that a student lacks; a student's that staff lack
        (56, [15, 1, 1, 1, 1, 0, 1, 1, 0, 0, 0, 0, 0, 0, 0, 0]),
        (56, [15, 1, 1, 1, 1, 1, 1, 1, 0, 0, 0, 1, 0, 0, 0, 1]),
        (56, [15, 1, 1, 1, 0, 0, 1, 1, 0, 1, 0, 1, 0, 0, 0, 0]),
    ] {
        assert_eq!(count.load(&file, &mut table), number, "{file:?}");
        assert_eq!((&table[..], guest_at(count, &table, 2, 0)), (&WORKSHOP[..], (0, true)));
    }
    // Only the cell that the lab has changed answers otherwise, and a table with a byte more or less counts as the old.
    assert_eq!((guest_at(count, &table, 3, 3), guest_at(count, &table, 0, 0)), ((0, false), (0, false)));
    assert_eq!(guest_at(count, &table[..14], 2, 0), (0, false));
    assert_eq!(guest_at(count, &file_of(&table), 2, 0), (0, false));
}

/// Morton numbers, through the corner of a single pixel fed by rows.
fn places(count: &mut Count) {
    for (column, row, corner) in [(2, 1, 6), (5, 0, 17)] {
        let mut accounts = vec![0; 64];
        accounts[row * 8 + column] = 9;
        assert_eq!(scanned(count, 0, 3, 1, &accounts).3, [word(corner, 0, 9)]);
        let named = Tile { corner: corner.into(), size: 0, account: 9 };
        assert_eq!(count.lookup((3, 1, &[word(corner, 0, 9)]), column as u32, row as u32), (0, named));
    }
}

/// Bed M inside the zones NW and SE, and outside them; the zones inside M; and zones of another order.
fn zones(count: &mut Count) {
    let (bed, zones) = ((2, 4, &M_WORDS[..]), (2, 2, &[word(0, 1, 3), word(12, 1, 3)][..]));
    let mut slots = vec![u32::MAX; 3];
    assert_eq!(count.combine(0, bed, zones, &mut slots), (0, 2));
    assert_eq!(slots, [word(0, 1, 5), word(12, 1, 9), 0]);
    assert_eq!(count.combine(1, bed, zones, &mut slots), (0, 2));
    assert_eq!(slots, [word(7, 0, 9), word(8, 0, 9), 0]);
    assert_eq!(count.combine(0, zones, bed, &mut slots), (0, 2));
    assert_eq!(slots, [word(0, 1, 3), word(12, 1, 3), 0]);
    assert_eq!(count.combine(0, bed, zones, &mut vec![1; 2]), (0, 2));
    assert_eq!(count.combine(0, bed, zones, &mut vec![1]), (25, 0));
    assert_eq!(count.combine(0, bed, (3, 2, zones.2), &mut vec![1]), (51, 0));
    assert_eq!(count.combine(0, bed, (11, 2, zones.2), &mut slots), (1, 0));
    assert_eq!(count.combine(0, (2, 5, bed.2), (11, 2, zones.2), &mut slots), (2, 0));
    // Four zones of two accounts over one tile: the third map has the tile, not its quarters.
    let quarters = [3, 4, 3, 4].iter().zip(0..).map(|(&account, corner)| word(corner, 0, account)).collect::<Vec<_>>();
    assert_eq!(count.combine(0, bed, (2, 4, &quarters[..]), &mut slots), (0, 1));
    assert_eq!(slots, [word(0, 1, 5), 0, 0]);
}

/// M's first two rows: what is scanned of it is asked and claimed as ever, the rest is refused; then the scan goes on.
fn halfway(count: &mut Count) {
    let record = Record { kind: 0, order: 2, pixels: 8, tiles: 2 };
    let slots = [&M_WORDS[..2], &[1; 5]].concat();
    let at = (record, &slots);
    assert_eq!(count.lookup(at, 0, 1), (0, Tile { corner: 0, size: 1, account: 5 }));
    assert_eq!(count.lookup(at, 4, 3).0, 31);
    assert_eq!(count.lookup(at, 0, 2).0, 52);
    for asking in [9, 0] {
        assert_eq!(count.rights(&WORKSHOP, at, 0, 2, asking).0, 52);
    }
    assert_eq!(count.lookup((Record { pixels: 17, ..record }, &slots), 4, 1).0, 21);
    assert_eq!(count.lookup((Record { pixels: 7, ..record }, &slots), 4, 1).0, 22);
    for (corner, size, account, answer) in [
        (4, 0, 5, (0, 3)),
        (0, 1, 0, (0, 1)),
        (8, 1, 0, (52, 0)),
        (0, 2, 0, (52, 0)),
        (8, 1, 64, (52, 0)),
        (5, 1, 64, (32, 0)),
    ] {
        assert_eq!(count.preview(at, corner, size, account), answer);
        assert_eq!(count.claim(record, &mut slots.clone(), corner, size, account), answer);
    }
    assert_eq!(count.write((Record { pixels: 15, tiles: 3, ..record }, &M_WORDS), &[]).0, 52);
    assert_eq!(count.write((Record { kind: 1, pixels: 16, tiles: 4, ..record }, &M_WORDS), &[0; 32]).0, 0);

    let mut living = Living::of_scan(record, &slots);
    assert_eq!((living.claim(count, 4, 0, 5), living.claim(count, 15, 0, 5)), (0, 52));
    assert_eq!(living.feed(count, &M[8..]), (0, 8));
    assert_eq!(living.slots, [69, word(4, 0, 5), 7177, 8201, 12361, 0, 0]);
}

/// Scans of order 2 and 3 on which nothing is held: a free block is wholly scanned.
fn nobodys(count: &mut Count) {
    let none: [u32; 0] = [];
    let record = |kind, order, pixels| Record { kind, order, pixels, tiles: 0 };
    for (record, column, row, (corner, size)) in [
        (record(0, 2, 10), 1, 0, (0, 1)),
        (record(0, 2, 10), 1, 2, (9, 0)),
        (record(1, 2, 10), 2, 0, (4, 1)),
        (record(1, 2, 10), 1, 2, (9, 0)),
        (record(0, 3, 32), 5, 2, (16, 2)),
        (record(0, 3, 31), 5, 2, (24, 1)),
        (record(1, 3, 31), 5, 2, (24, 1)),
        (record(1, 3, 64), 5, 2, (0, 3)),
    ] {
        assert_eq!(count.lookup((record, &none), column, row), (0, Tile { corner, size, account: 0 }));
    }
    for (record, column, row) in [(record(0, 2, 10), 2, 2), (record(1, 2, 10), 0, 3), (record(0, 0, 0), 0, 0)] {
        assert_eq!(count.lookup((record, &none), column, row), (52, Tile { corner: 0, size: 0, account: 0 }));
        assert_eq!(count.write((record, &none), &[0; 6]).0, 52);
    }
    for (record, corner, size, number) in [
        (record(0, 2, 6), 0, 1, 0),
        (record(0, 2, 5), 0, 1, 52),
        (record(1, 2, 6), 4, 0, 0),
        (record(1, 2, 6), 4, 1, 52),
    ] {
        assert_eq!(count.claim(record, &mut vec![0; 6], corner, size, 5).0, number);
    }
}

/// Positions in mils: the last one, the step from a pixel to the next, the form, and the way back.
fn positions(count: &mut Count) {
    for (order, text, pixel) in [
        (10, "16125.98", 1023),
        (3, "123.45", 7),
        (1, "15.74", 0),
        (1, "15.75", 1),
        (0, "0.45", 0),
        (0, "0.00", 0),
        (10, "16110.24", 1023),
        (10, "16110.23", 1022),
    ] {
        assert_eq!(count.mils_pixel(order, text.as_bytes()), (0, pixel), "{text}");
    }
    for (order, text) in [(10, "16125.99"), (2, "123.45"), (0, "15.75"), (10, "99999.99")] {
        assert_eq!(count.mils_pixel(order, text.as_bytes()), (53, 0), "{text}");
    }
    for text in [".45", "00.45", "01.00", "100000.00", "12.0", "12.000", "12345", "1.", ".", "1.00.00", "1,00", ""] {
        assert_eq!(count.mils_pixel(10, text.as_bytes()), (53, 0), "{text}");
    }
    for text in [" 1.00", "1.00 ", "+1.00", "-1.00", "1.00\n", "1.00\r\n", "1.00\0", "1e.00", "\u{661}.00"] {
        assert_eq!(count.mils_pixel(10, text.as_bytes()), (53, 0), "{text}");
    }
    for (order, pixel, hundredths, text) in
        [(10, 1023, 1_611_024, "16110.24"), (0, 0, 0, "0.00"), (1, 1, 1575, "15.75"), (2, 3, 4725, "47.25")]
    {
        assert_eq!(count.mils_h(order, pixel), (0, hundredths));
        assert_eq!(count.mils_text(order, pixel, &[7; 9]), (0, text.as_bytes().to_vec()));
        assert_eq!(count.mils_text(order, pixel, &vec![7; text.len() - 1]), (26, vec![]));
    }
    assert_eq!(count.mils_h(9, 1023), (31, 0));
}
