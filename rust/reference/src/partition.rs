//! The parts of a table that two parties share: request E6 of document 02.

use crate::table::{distinct, Slot};
use std::ops::Range;

#[derive(Clone, Copy, Debug, PartialEq, Eq)]
pub enum Party {
    Owner,
    Installer,
}

/// Which part of a table a call means: the whole, or a party's part of a table
/// that is shared at a boundary, counted in records.
#[derive(Clone, Copy, Debug, PartialEq, Eq)]
pub enum View {
    Whole,
    SharedBy { party: Party, boundary: usize },
}

impl View {
    /// A boundary leaves at least one record to each party.
    pub fn boundary_ok(self, records: usize) -> bool {
        match self {
            View::Whole => true,
            View::SharedBy { boundary, .. } => boundary != 0 && boundary < records,
        }
    }

    /// Keys are distinct within each part, whichever party calls.
    pub fn keys_ok(self, slots: &[Slot]) -> bool {
        match self {
            View::Whole => distinct(slots),
            View::SharedBy { boundary, .. } => {
                let (owners, installers) = slots.split_at(boundary);
                distinct(owners) && distinct(installers)
            }
        }
    }

    /// The numbers of the slots in which a command looks for keys and takes
    /// records, of so many in the table.
    pub fn slots_in(self, records: usize) -> Range<usize> {
        match self {
            View::Whole => 0..records,
            View::SharedBy { party: Party::Owner, boundary } => 0..boundary,
            View::SharedBy { party: Party::Installer, boundary } => boundary..records,
        }
    }
}

#[cfg(test)]
mod tests {
    use super::*;
    use crate::table::Record;

    fn shared(party: Party, boundary: usize) -> View {
        View::SharedBy { party, boundary }
    }

    #[test]
    fn each_party_has_a_record() {
        for party in [Party::Owner, Party::Installer] {
            let good = |boundary, records| shared(party, boundary).boundary_ok(records);
            assert!(good(1, 2) && good(1, 256) && good(255, 256));
            assert!(!good(0, 2) && !good(2, 2) && !good(256, 256) && !good(usize::MAX, 256));
            assert!(!good(0, 1) && !good(1, 1));
        }
        assert!(View::Whole.boundary_ok(1));
    }

    #[test]
    fn the_parts_are_the_whole() {
        assert_eq!(shared(Party::Owner, 3).slots_in(7), 0..3);
        assert_eq!(shared(Party::Installer, 3).slots_in(7), 3..7);
        assert_eq!(View::Whole.slots_in(7), 0..7);
    }

    #[test]
    fn keys_are_distinct_within_a_part() {
        let with = |key: &[u8]| {
            let (key, value) = (key.to_vec(), Vec::new());
            Some(Record { key, value, flags: 0, version: 1, expiry: 0 })
        };
        let slots = [with(b"a"), with(b"b"), with(b"a"), None];
        assert!(!View::Whole.keys_ok(&slots));
        for party in [Party::Owner, Party::Installer] {
            assert!(shared(party, 1).keys_ok(&slots));
            assert!(shared(party, 2).keys_ok(&slots));
            assert!(!shared(party, 3).keys_ok(&slots));
            assert!(!shared(party, 1).keys_ok(&[None, with(b"a"), with(b"a")]));
        }
    }
}
