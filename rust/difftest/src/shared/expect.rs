//! What the rules ask of every call of a party: which test before those of the
//! command fails first, and that all else is a call on the party's part alone.

use super::{other, part_of, SharedCase};
use crate::compare::Outcome;
use crate::layout::{self, MAX_TIME, RECORD};
use crate::resp::decode;
use crate::Case;
use reference::Shown;

/// Which of the tests before those of the command fail. Equal keys are looked for
/// where the table has two parts.
#[derive(Clone, Copy, Debug, PartialEq, Eq)]
pub struct Failures {
    pub records: bool,
    pub boundary: bool,
    pub my_keys: bool,
    pub other_keys: bool,
    pub time: bool,
    pub room: bool,
    pub command: bool,
}

impl Failures {
    pub fn of(case: &SharedCase) -> Failures {
        let Case { table, time, command, reply } = &case.call;
        let records = !layout::has_good_records(table);
        let boundary = case.boundary == 0 || case.boundary >= table.len() / RECORD;
        let equal_keys = |party| {
            let has_parts = !records && !boundary;
            has_parts && !layout::is_good(&table[part_of(party, case.boundary, table.len())])
        };
        Failures {
            records,
            boundary,
            my_keys: equal_keys(case.party),
            other_keys: equal_keys(other(case.party)),
            time: *time > MAX_TIME,
            room: reply.len() < 128,
            command: decode(command).is_none(),
        }
    }

    /// The number of the first that fails.
    pub fn number(self) -> Option<u32> {
        let tests = [
            (self.records, 1),
            (self.boundary, 18),
            (self.my_keys || self.other_keys, 1),
            (self.time, 2),
            (self.room, 3),
            (self.command, 4),
        ];
        tests.into_iter().find(|(fails, _)| *fails).map(|(_, number)| number)
    }
}

impl SharedCase {
    /// The outcome by the rules: a refusal that touches nothing, or what the call on
    /// the part alone comes to, with the other part as it was.
    pub fn expected(&self) -> Outcome {
        if let Some(number) = Failures::of(self).number() {
            let untouched =
                |_: &mut [u8], _, _: &[u8], _: &mut [u8]| crate::Answer { number, len: 0 };
            return self.call.run(untouched);
        }
        let alone = self.alone().run(reference::call);
        let mut table = self.call.table.clone();
        table[self.part()].copy_from_slice(&alone.table);
        Outcome { table, ..alone }
    }

    /// The current value by the rules: that of the part alone, its place counted
    /// from the table's start.
    pub fn expected_current_value(&self) -> Option<Shown> {
        let failures = Failures { room: false, ..Failures::of(self) };
        if failures.number().is_some() {
            return None;
        }
        let alone = self.alone();
        let shown = reference::current_value(&alone.table, alone.time, &alone.command)?;
        let before = if shown.in_command { 0 } else { self.part().start };
        Some(Shown { start: before + shown.start, ..shown })
    }
}
