//! A bed that lives through a sequence of calls, as its user holds it. Each call is also made as `pair.rs` has it, on
//! the record and the slots that the plain implementation left; after each the bed has the same record and the same
//! slots.

use crate::changing::stopped;
use crate::combine::choice_of;
use crate::lent::Lent;
use crate::pair::{bed_of, kind_of, record_of, same, At, Count};
use crate::plain::{area, Record};
use kingletbed::{Account, Bed, Block};

pub struct Living {
    pub record: Record,
    pub slots: Vec<u32>,
    /// None until a call has made one.
    bed: Option<Bed<Lent<u32>>>,
}

impl Living {
    /// Any record and slots; there is no bed yet.
    pub fn unmade(record: Record, slots: Vec<u32>) -> Living {
        Living { record, slots, bed: None }
    }

    /// A bed of a good record and its slots.
    pub fn of_scan(record: Record, slots: &[u32]) -> Living {
        let bed = bed_of(record, Lent::new(slots)).expect("a good record");
        Living { record: record_of(&bed), slots: slots.to_vec(), bed: Some(bed) }
    }

    pub fn at(&self) -> At<'_> {
        At { record: self.record, slots: &self.slots, held: self.bed.as_ref() }
    }

    /// The slots to make another bed in: those of the bed that lives, which ends.
    fn lent(&mut self, before: &[u32]) -> Lent<u32> {
        self.bed.take().map_or_else(|| Lent::new(before), Bed::into_slots)
    }

    fn alike(&self, call: &str) {
        let Some(bed) = &self.bed else { return };
        same(call, &"a sequence of calls", record_of(bed), self.record);
        same(call, &"a sequence of calls", bed.is_scanned(), u64::from(self.record.pixels) == area(self.record.order));
        assert!(
            bed.slots() == self.slots,
            "{call}: storage differs\n  library {:?}\n  plain   {:?}",
            bed.slots(),
            self.slots
        );
    }

    pub fn fresh(&mut self, count: &mut Count, kind: u32, order: u32) -> u32 {
        let before = self.slots.clone();
        let (number, record) = count.fresh(kind, order, &mut self.slots);
        if number == 0 {
            self.record = record;
            self.bed = Some(Bed::fresh(kind_of(kind), order, self.lent(&before)).expect("accepted before"));
        }
        self.alike("a fresh scan on the slots of a bed");
        number
    }

    pub fn read(&mut self, count: &mut Count, bytes: &[u8]) -> u32 {
        let before = self.slots.clone();
        let (number, order, tiles) = count.read(bytes, &mut self.slots);
        if number == 0 {
            self.record = Record::whole(order, tiles);
            self.bed = Some(Bed::read(bytes, self.lent(&before)).expect("accepted before"));
        }
        self.alike("a reading to the slots of a bed");
        number
    }

    /// The third map takes the slots; the first, which is in them, is lent elsewhere. Its scan is the first's.
    pub fn combine(&mut self, count: &mut Count, choice: u32, second: (u32, usize, &[u32])) -> u32 {
        let (record, before) = (self.record, self.slots.clone());
        let (number, tiles) = count.combine(choice, (record, &before), second, &mut self.slots);
        if number == 0 {
            self.record = Record { kind: record.kind.min(1), tiles, ..record };
            let zones = Bed::from_slots(second.0, second.1, second.2).expect("accepted before");
            // Before the first accepted call the record need not go with the list: then there is no bed.
            self.bed = bed_of(record, &before).ok().map(|first| {
                let third = Bed::combine(choice_of(choice), &first, &zones, self.lent(&before));
                third.expect("accepted before")
            });
        }
        self.alike("a third map in the slots of a bed");
        number
    }

    /// The record answered is the one to go on with, refused or not.
    pub fn feed(&mut self, count: &mut Count, accounts: &[u8]) -> (u32, usize) {
        let (number, taken, record) = count.feed(self.record, &mut self.slots, accounts);
        self.record = record;
        if let Some(bed) = &mut self.bed {
            same("a feed of a living bed", &accounts, stopped(bed.feed(accounts), accounts), (number, taken));
        }
        self.alike("a feed of a living bed");
        (number, taken)
    }

    pub fn claim(&mut self, count: &mut Count, corner: u32, size: u32, account: u8) -> u32 {
        let (number, tiles) = count.claim(self.record, &mut self.slots, corner, size, account);
        if number == 0 {
            self.record.tiles = tiles;
        }
        if let Some(bed) = &mut self.bed {
            let block = Block { corner, size };
            let answer = if account == 0 { bed.release(block) } else { bed.claim(block, Account(account)) };
            same(
                "a claim of a living bed",
                &(block, account),
                answer.map_or_else(|refusal| refusal.number(), |()| 0),
                number,
            );
        }
        self.alike("a claim of a living bed");
        number
    }
}
