//! The calls that write slots, each compared as in `pair.rs`. A bed is made for the call here; `living.rs` has those
//! that go through many calls.

use crate::lent::{Brief, Lent};
use crate::pair::{bed_of, flat, kind_of, record_of, same, some, Count};
use crate::plain::{list, Record};
use kingletbed::{raw, Account, Bed, Block};

impl Count {
    pub fn fresh(&mut self, kind: u32, order: u32, slots: &mut Vec<u32>) -> (u32, Record) {
        let before = slots.clone();
        let given = (kind, order, Brief(&before));
        let (number, record, after) = list::fresh(kind, order, slots);
        let mut lent = Lent::new(slots);
        let f = raw::fresh(kind, order, lent.as_mut());
        let got = Record { kind: f.kind, order: f.order, pixels: f.pixels, tiles: f.tiles };
        same("fresh", &given, (f.number, got), (number, record));
        lent.must_be("fresh", &given, &after);
        let mut lent = Lent::new(slots);
        let wrapped = Bed::fresh(kind_of(kind), order, lent.as_mut()).map(|bed| record_of(&bed));
        same("fresh of a bed", &given, flat(wrapped), some(number, record));
        lent.must_be("fresh of a bed", &given, &after);
        *slots = after;
        self.add("fresh", number);
        (number, record)
    }

    pub fn feed(&mut self, record: Record, slots: &mut Vec<u32>, accounts: &[u8]) -> (u32, usize, Record) {
        let before = slots.clone();
        let given = (record, Brief(&before), Brief(accounts));
        let (number, taken, next, after) = list::feed(record, slots, accounts);
        let mut lent = Lent::new(slots);
        let f = raw::feed(record.kind, record.order, record.pixels, record.tiles, lent.as_mut(), accounts);
        let got = Record { kind: f.kind, order: f.order, pixels: f.pixels, tiles: f.tiles };
        same("feed", &given, (f.number, f.taken, got), (number, taken, next));
        lent.must_be("feed", &given, &after);
        let mut lent = Lent::new(slots);
        let wrapped = match bed_of(record, lent.as_mut()) {
            // What opens no feed makes no bed.
            Err(refusal) => (refusal.number(), 0, Record { kind: record.kind.min(1), ..record }),
            Ok(mut bed) => {
                let (refused, counted) = stopped(bed.feed(accounts), accounts);
                (refused, counted, record_of(&bed))
            }
        };
        same("feed of a bed", &given, wrapped, (number, taken, next));
        lent.must_be("feed of a bed", &given, &after);
        *slots = after;
        self.add("feed", number);
        (number, taken, next)
    }

    /// The number and the tile count. Ahead of the claim a preview tells both.
    pub fn claim(&mut self, record: Record, slots: &mut Vec<u32>, corner: u32, size: u32, account: u8) -> (u32, usize) {
        let Record { kind, order, pixels, tiles } = record;
        let before = slots.clone();
        let given = (record, Brief(&before), corner, size, account);
        let (number, count, after) = list::claim(record, slots, corner, size, account);
        self.previewed((record, &before).into(), (corner, size, account), (number, count));
        let mut lent = Lent::new(slots);
        let answer = raw::claim(kind, order, pixels, tiles, lent.as_mut(), corner, size, account);
        same("claim", &given, (answer.number, answer.tiles), (number, count));
        lent.must_be("claim", &given, &after);
        let mut lent = Lent::new(slots);
        let wrapped = bed_of(record, lent.as_mut()).and_then(|mut bed| {
            bed.claim(Block { corner, size }, Account(account))?;
            Ok(record_of(&bed))
        });
        // The scanned pixels stay the same.
        let expected = Record { kind: kind.min(1), tiles: count, ..record };
        same("claim of a bed", &given, flat(wrapped), some(number, expected));
        lent.must_be("claim of a bed", &given, &after);
        *slots = after;
        self.add("claim", number);
        (number, count)
    }

    pub fn read(&mut self, bytes: &[u8], slots: &mut Vec<u32>) -> (u32, u32, usize) {
        let before = slots.clone();
        let given = (Brief(bytes), Brief(&before));
        let (number, order, tiles, after) = list::read(bytes, slots);
        let mut lent = Lent::new(slots);
        let answer = raw::read(bytes, lent.as_mut());
        same("read", &given, (answer.number, answer.order, answer.tiles), (number, order, tiles));
        lent.must_be("read", &given, &after);
        let mut lent = Lent::new(slots);
        let wrapped = Bed::read(bytes, lent.as_mut()).map(|bed| record_of(&bed));
        same("read of a bed", &given, flat(wrapped), some(number, Record::whole(order, tiles)));
        lent.must_be("read of a bed", &given, &after);
        *slots = after;
        self.add("read", number);
        (number, order, tiles)
    }
}

/// A bed's answer to a feed as the number and the count taken.
pub fn stopped(answer: Result<(), kingletbed::Stopped>, accounts: &[u8]) -> (u32, usize) {
    match answer {
        Ok(()) => (0, accounts.len()),
        Err(stopped) => (stopped.refusal.number(), stopped.taken),
    }
}
