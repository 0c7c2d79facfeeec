//! Tables of rights: every load, and rights by every table that a load accepts and by such as none does.

use crate::lent::{Brief, Lent};
use crate::pair::{flat, same, some, Count};
use crate::plain::table::{self, Table as Plain};
use crate::random::Random;
use kingletbed::{raw, Table};

/// The old table, and the lab's for workshops, with guests on nobody's pixels.
pub const OLD: [u8; 15] = [1, 1, 1, 1, 0, 1, 1, 0, 0, 0, 1, 0, 0, 0, 0];
pub const WORKSHOP: [u8; 15] = [1, 1, 1, 1, 0, 1, 1, 0, 0, 0, 1, 1, 0, 0, 0];
/// Yes to own pixels alone: no load accepts a table with less.
const OWNS: [u8; 15] = [1, 0, 0, 0, 0, 1, 0, 0, 0, 0, 1, 0, 0, 0, 0];

/// No table, and such as no load would accept.
pub const UNLOADABLE: [&[u8]; 10] = [
    &[],
    &[0; 15],
    &[255; 15],
    &[1; 14],
    &[1; 16],
    &[1],
    &[15, 1, 1, 1, 1, 0, 1, 1, 0, 0, 0, 1, 1, 0, 0, 0],
    &[1, 1, 1, 1, 0, 1, 1, 0, 0, 0, 1, 1, 0, 0, 2],
    &[1, 1, 1, 1, 0, 1, 1, 0, 0, 0, 0, 1, 0, 0, 0],
    &[1, 1, 1, 1, 0, 1, 0, 0, 0, 0, 1, 1, 0, 0, 0],
];

/// The file of a table's bytes.
pub fn file_of(bytes: &[u8]) -> Vec<u8> {
    [&[15], bytes].concat()
}

/// The wrapper's table for bytes that a caller hands in: the one that counts.
pub fn table_of(bytes: &[u8]) -> Table {
    Table::from_file(&file_of(&Plain::in_force(bytes).bytes())).expect("a table that counts")
}

impl Count {
    pub fn load(&mut self, file: &[u8], table: &mut Vec<u8>) -> u32 {
        let before = table.clone();
        let given = (Brief(file), Brief(&before));
        let (number, after) = table::load(file, table);
        let (from, mut lent) = (Lent::new(file), Lent::new(table));
        same("load", &given, raw::load(from.as_ref(), lent.as_mut()), number);
        lent.must_be("load", &given, &after);
        from.must_be("load, the file", &given, file);
        // The wrapper's table has fifteen bytes of its own, and never those of a table that no load accepts.
        let mut held = table_of(&before);
        let (number_held, after_held) = table::load(file, held.bytes());
        same("load of a table", &given, flat(held.load(file)), some(number_held, ()));
        same("a table after a load", &given, &held.bytes()[..], &after_held);
        same("from_file", &given, flat(Table::from_file(file)), some(number_held, held));
        if number_held == 0 {
            same("a table's file", &given, &held.file()[..], file);
        }
        *table = after;
        self.add("load", number);
        number
    }
}

/// The table in force, kept through loads: its bytes, as a C host has them, the plain one, and the wrapper's.
pub struct InForce {
    pub bytes: Vec<u8>,
    plain: Plain,
    held: Table,
}

impl InForce {
    /// What the bytes hold before the first accepted load is arbitrary.
    pub fn of(bytes: Vec<u8>) -> InForce {
        InForce { plain: Plain::in_force(&bytes), held: table_of(&bytes), bytes }
    }

    pub fn load(&mut self, count: &mut Count, file: &[u8]) -> u32 {
        let number = count.load(file, &mut self.bytes);
        match table::read(file) {
            Ok(loaded) => self.plain = loaded,
            Err(refused) => assert_eq!(number, refused, "load: the plain table refuses"),
        }
        same("a load of a table that lives", &file, flat(self.held.load(file)), some(number, ()));
        assert_eq!(Plain::in_force(&self.bytes), self.plain, "the table in force");
        assert_eq!(self.held.bytes()[..], self.plain.bytes(), "the table that lives");
        number
    }
}

pub fn all(count: &mut Count) {
    for bytes in every_table(count) {
        every_byte(count, &bytes);
        rights(count, &bytes, 0..=63);
    }
    every_length(count);
    for bytes in UNLOADABLE {
        as_the_old(count, bytes);
    }
    for (at, byte) in (0..15).flat_map(|at| [0, 1, 2, 128, 255].map(|byte| (at, byte))) {
        let mut bytes = WORKSHOP;
        bytes[at] = byte;
        if Plain::of_bytes(&bytes).is_err() {
            as_the_old(count, &bytes);
        }
    }
    for number in [0, 55, 56] {
        assert!(count.met.contains_key(&("load", number)), "load never answered {number}");
    }
}

/// Every table of bits behind the right count, to a table in force of any kind. Gives those that are accepted: in each
/// column but the first no row says yes, or staff's does, or the students' too, or the guests' too.
fn every_table(count: &mut Count) -> Vec<Vec<u8>> {
    let before = [&OLD[..], &WORKSHOP, &[0; 15], &[255; 15], &[1, 0, 1, 0, 1, 0, 1, 0, 1, 0, 1, 0, 1, 0, 1]];
    let mut sound = Vec::new();
    for bits in 0..1usize << 15 {
        let bytes: Vec<u8> = (0..15).map(|at| (bits >> at & 1) as u8).collect();
        let mut table = before[bits % before.len()].to_vec();
        let number = count.load(&file_of(&bytes), &mut table);
        let [staff, student, guest] = [bits & 31, bits >> 5 & 31, bits >> 10];
        let accepted = staff & student & guest & 1 == 1 && guest & !student == 0 && student & !staff == 0;
        assert_eq!(number, if accepted { 0 } else { 56 }, "{bytes:?}");
        assert_eq!(table, if accepted { &bytes } else { before[bits % before.len()] }, "{bytes:?}");
        if accepted {
            sound.push(bytes);
        }
    }
    assert_eq!(sound.len(), 256);
    sound
}

/// The file of a good table with each of its bytes replaced by every other.
fn every_byte(count: &mut Count, bytes: &[u8]) {
    for (at, byte) in (0..16).flat_map(|at| (0..=255).map(move |byte| (at, byte))) {
        let mut file = file_of(bytes);
        file[at] = byte;
        let number = count.load(&file, &mut vec![9; 15]);
        let malformed = if at == 0 { byte != 15 } else { byte > 1 };
        assert_eq!(number == 55, malformed, "{file:?}");
    }
}

/// Files and tables of every length up to 40, with a count of 15 and with one that goes with the length.
fn every_length(count: &mut Count) {
    for (length, lent) in (0..=40).flat_map(|length| (0..=40).map(move |lent| (length, lent))) {
        for (first, byte) in [(15, 1), (15, 0), (length as u8, 1), (length as u8, 0)] {
            let file: Vec<u8> = [first].into_iter().chain([byte; 40]).take(length).collect();
            let fits = first == 15 && length == 16 && lent == 15;
            let expected = if !fits {
                55
            } else if byte == 1 {
                0
            } else {
                56
            };
            for filled in [0, 1, 255] {
                assert_eq!(count.load(&file, &mut vec![filled; lent]), expected, "{file:?}, {lent}");
            }
        }
        let file: Vec<u8> = file_of(&[&WORKSHOP[..], &WORKSHOP, &WORKSHOP].concat()).into_iter().take(length).collect();
        count.load(&file, &mut vec![0; lent]);
    }
}

/// Nobody, and the first and the last account of each class.
const HOLDERS: [u8; 7] = [0, 1, 7, 8, 47, 48, 63];

/// Rights at a pixel of a holder.
fn ask(count: &mut Count, table: &[u8], asking: u8, holder: u8) -> (u32, bool) {
    let slots = [u32::from(holder)];
    count.rights(table, (0, usize::from(holder != 0), &slots), 0, 0, asking)
}

/// Every account asks at pixels of some holders, and at its own: there it may by every table; and where a guest may on
/// a pixel that is not its own, every student may, and where a student may, all staff.
fn rights(count: &mut Count, table: &[u8], holders: impl IntoIterator<Item = u8>) {
    for asking in 1..=63 {
        assert_eq!(ask(count, table, asking, asking), (0, true), "{table:?}: {asking} on its own pixel");
    }
    for holder in holders {
        let may: Vec<bool> = (1..=63).map(|asking| ask(count, table, asking, holder).1).collect();
        let who = |first: u8, last: u8| (first..=last).map(|asking| (asking, may[usize::from(asking) - 1]));
        let any = |first, last| who(first, last).any(|(asking, yes)| yes && asking != holder);
        let every = |first, last| who(first, last).all(|(_, yes)| yes);
        assert!(!any(48, 63) || every(8, 47), "{table:?}: a guest's yes at {holder}");
        assert!(!any(8, 47) || every(1, 7), "{table:?}: a student's yes at {holder}");
        for asking in [0, 64, 255] {
            assert_eq!(ask(count, table, asking, holder), (34, false));
        }
    }
}

/// A table that no load accepts, and whose rights are those of the old one.
fn as_the_old(count: &mut Count, table: &[u8]) {
    assert!(Plain::of_bytes(table).is_err(), "{table:?} could be loaded");
    rights(count, table, HOLDERS);
    for (asking, holder) in (1..=63).flat_map(|asking| HOLDERS.map(|holder| (asking, holder))) {
        assert_eq!(ask(count, table, asking, holder), ask(count, &OLD, asking, holder), "{table:?}");
    }
}

/// A table that a load accepts.
fn sound(random: &mut Random) -> Vec<u8> {
    let mut bytes = OWNS.to_vec();
    for column in 1..5 {
        (0..random.below(4)).for_each(|row| bytes[5 * row + column] = 1);
    }
    bytes
}

/// Any bytes that might be handed in as a table: none, good ones, and bad ones of every kind.
pub fn any(random: &mut Random) -> Vec<u8> {
    match random.below(12) {
        0 => Vec::new(),
        1 => vec![0; 15],
        2 => OLD.to_vec(),
        3 => WORKSHOP.to_vec(),
        4 => vec![1; 15],
        5 => (0..15).map(|_| random.below(2) as u8).collect(),
        6 => (0..random.below(40)).map(|_| random.below(2) as u8).collect(),
        7 => (0..15).map(|_| random.next() as u8).collect(),
        8 | 9 => {
            let mut bytes = sound(random);
            bytes[random.below(15)] = random.pick(&[0, 1, 2, 255]);
            bytes
        }
        _ => sound(random),
    }
}

/// A file to load: a table behind a count, good more often than not.
pub fn file(random: &mut Random) -> Vec<u8> {
    let mut file = file_of(&if random.once_in(3) { any(random) } else { sound(random) });
    let at = random.below(file.len());
    match random.below(10) {
        0 => file[0] = random.pick(&[0, 1, 14, 16, 31, 255]),
        1 => file[at] ^= 1 << random.below(8),
        2 => file.truncate(at),
        3 => file.extend([1; 3].iter().take(random.between(1, 3))),
        _ => {}
    }
    file
}

/// One table in force through several loads, asked after each; and any bytes in its place, which count as the old table
/// where no load accepts them.
pub fn case(random: &mut Random, count: &mut Count) {
    let mut in_force = InForce::of((0..15).map(|_| random.pick(&[0, 1, 1, 255])).collect());
    for _ in 0..random.between(2, 8) {
        in_force.load(count, &file(random));
        let (asking, holder) = (random.below(66) as u8, random.below(64) as u8);
        let answer = ask(count, &in_force.bytes, asking, holder);
        let yes = (1..=63).contains(&asking) && in_force.plain.may(asking, holder);
        assert_eq!(answer.1, yes, "the plain table in force says otherwise");
        let other = any(random);
        let answer = ask(count, &other, asking, holder);
        if Plain::of_bytes(&other).is_err() {
            assert_eq!(answer, ask(count, &OLD, asking, holder), "{other:?} does not count as the old table");
        }
    }
}
