//! The record under a key, live or expired, and the slot that a write takes.

use crate::table::{Record, Slot};

/// What stands under a key: a live record at a slot, an expired one, or none.
#[derive(Clone, Copy)]
pub enum Lookup<'a> {
    Live(usize, &'a Record),
    Expired(usize),
    Absent,
}

impl<'a> Lookup<'a> {
    /// The live record; one that is not live counts as absent.
    pub fn live_record(self) -> Option<&'a Record> {
        match self {
            Lookup::Live(_, record) => Some(record),
            _ => None,
        }
    }
}

/// A record is live if its expiry is 0 or greater than the call's time.
fn live(time: u64, record: &Record) -> bool {
    record.expiry == 0 || record.expiry > time
}

pub fn lookup<'a>(time: u64, key: &[u8], slots: &'a [Slot]) -> Lookup<'a> {
    for (at, slot) in slots.iter().enumerate() {
        match slot {
            Some(record) if record.key == key && live(time, record) => {
                return Lookup::Live(at, record);
            }
            Some(record) if record.key == key => return Lookup::Expired(at),
            _ => {}
        }
    }
    Lookup::Absent
}

/// The slot of the record with the key, live or not, else a free one.
pub fn slot_for(time: u64, slots: &[Slot], lookup: Lookup) -> Option<usize> {
    match lookup {
        Lookup::Live(at, _) | Lookup::Expired(at) => Some(at),
        Lookup::Absent => free_slot(time, slots),
    }
}

/// The lowest empty slot, else the lowest expired one.
fn free_slot(time: u64, slots: &[Slot]) -> Option<usize> {
    let is_expired = |slot: &Slot| slot.as_ref().is_some_and(|record| !live(time, record));
    slots.iter().position(Option::is_none).or_else(|| slots.iter().position(is_expired))
}
