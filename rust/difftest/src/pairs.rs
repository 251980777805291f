//! Random pairs of table files, one from before a visit and one from after it.

use crate::layout::{Fields, MAX_EXPIRY, MAX_KEY, MAX_RECORDS, MAX_VALUE, RECORD};
use crate::{tables, words, Rng};
use std::collections::BTreeSet;

/// The bytes of a file; none where it is missing.
pub type File = Option<Vec<u8>>;

#[derive(Clone, Debug, PartialEq, Eq)]
pub struct Pair {
    pub before: File,
    pub after: File,
}

/// Mostly two good tables that have much in common.
pub fn pair(rng: &mut Rng) -> Pair {
    let visit = Visit::random(rng);
    let before = table(rng, visit.before);
    let after = table(rng, visit.after);
    let (first_bad, second_bad) = match rng.below(20) {
        0 | 1 => (true, false),
        2 | 3 => (false, true),
        4 => (true, true),
        _ => (false, false),
    };
    let mut file = |table, is_bad| if is_bad { bad(rng, table) } else { Some(table) };
    Pair { before: file(before, first_bad), after: file(after, second_bad) }
}

/// The records in use before and after.
#[derive(Default)]
struct Visit {
    before: Vec<Fields>,
    after: Vec<Fields>,
}

impl Visit {
    fn random(rng: &mut Rng) -> Visit {
        let count = match rng.below(20) {
            0..=9 => rng.between(0, 5),
            10..=15 => rng.between(6, 40),
            16 | 17 => rng.between(41, MAX_RECORDS),
            _ => 2 * MAX_RECORDS,
        };
        let now = words::time(rng);
        // what becomes of a record: gone, new, the same or changed
        let fates = rng.pick(&["01", "2", "3", "0123", "0123", "012222", "233", "22223"]);
        let mut visit = Visit::default();
        for key in keys(rng, count) {
            let is_live = rng.chance(60);
            let record = tables::fields(rng, key, now, is_live);
            match rng.pick(fates.as_bytes()) {
                b'0' => visit.add(Some(record), None),
                b'1' => visit.add(None, Some(record)),
                b'2' => visit.add(Some(record.clone()), Some(record)),
                _ => visit.add(Some(record.clone()), Some(changed(rng, record))),
            }
        }
        visit
    }

    /// A record before and after, where the tables have room for them.
    fn add(&mut self, old: Option<Fields>, new: Option<Fields>) {
        let has_room = |records: &Vec<Fields>| records.len() < MAX_RECORDS;
        self.before.extend(old.filter(|_| has_room(&self.before)));
        self.after.extend(new.filter(|_| has_room(&self.after)));
    }
}

/// So many keys, many of them alike.
fn keys(rng: &mut Rng, count: usize) -> Vec<Vec<u8>> {
    let mut keys: Vec<Vec<u8>> = Vec::new();
    let mut seen = BTreeSet::new();
    let mut stem = [0; MAX_KEY];
    let styles = rng.pick(&["w", "s", "p", "wsp"]);
    while keys.len() < count {
        let key = match rng.pick(styles.as_bytes()) {
            b's' if !keys.is_empty() => {
                let other = rng.pick(&keys);
                words::similar_key(rng, &other)
            }
            b'p' => prefix(rng, &mut stem),
            _ => words::key(rng),
        };
        if seen.insert(key.clone()) {
            keys.push(key);
        }
    }
    keys
}

/// The first bytes of a stem that changes now and then from some byte on.
fn prefix(rng: &mut Rng, stem: &mut [u8; MAX_KEY]) -> Vec<u8> {
    if rng.chance(20) {
        for byte in &mut stem[rng.below(MAX_KEY)..] {
            *byte = rng.pick(&[0, 1, b'a', 0x7f, 0x80, 0xff]);
        }
    }
    let len = if rng.chance(10) { MAX_KEY } else { rng.between(1, MAX_KEY) };
    stem[..len].to_vec()
}

/// The same key, with one or more of its fields changed, often by one bit.
fn changed(rng: &mut Rng, record: Fields) -> Fields {
    let mut new = record;
    let which = rng.pick(&[1, 2, 4, 8, 15, 0]);
    let which = if which == 0 { rng.between(1, 15) } else { which };
    if which & 1 != 0 {
        change_value(rng, &mut new.value);
    }
    if which & 2 != 0 {
        new.version ^= 1 << rng.below(63);
    }
    if which & 4 != 0 {
        new.flags ^= 1 << rng.below(32);
    }
    if which & 8 != 0 {
        change_expiry(rng, &mut new.expiry);
    }
    new
}

fn change_value(rng: &mut Rng, value: &mut Vec<u8>) {
    match rng.below(4) {
        // what differs in its length alone
        0 if value.len() < MAX_VALUE => value.push(0),
        1 if !value.is_empty() => value.truncate(value.len() - 1),
        _ if !value.is_empty() => {
            let at = rng.below(value.len());
            value[at] ^= 1 << rng.below(8);
        }
        _ => *value = vec![b'v'; rng.between(1, MAX_VALUE)],
    }
}

fn change_expiry(rng: &mut Rng, expiry: &mut u64) {
    match *expiry {
        MAX_EXPIRY => *expiry = 0,
        0 if rng.chance(30) => *expiry = MAX_EXPIRY,
        _ => *expiry ^= 1 << rng.below(62),
    }
}

/// The records in some order, with empty ones among them or after them.
fn table(rng: &mut Rng, records: Vec<Fields>) -> Vec<u8> {
    let least = records.len().max(1);
    let count = match rng.below(4) {
        0 => MAX_RECORDS,
        1 => rng.between(least, MAX_RECORDS),
        _ => least,
    };
    let mut slots: Vec<[u8; RECORD]> = in_order(rng, records).iter().map(Fields::record).collect();
    slots.resize(count, [0; RECORD]);
    if rng.chance(50) {
        rng.shuffle(&mut slots);
    }
    slots.concat()
}

/// As they were made, or by their keys, rising or falling.
fn in_order(rng: &mut Rng, mut records: Vec<Fields>) -> Vec<Fields> {
    let order = rng.below(4);
    if order < 2 {
        records.sort_by(|a, b| a.key.cmp(&b.key));
    }
    if order == 0 {
        records.reverse();
    }
    records
}

/// A file that is missing, empty, cut, too long or damaged; now and then the
/// damage leaves a good table.
fn bad(rng: &mut Rng, mut table: Vec<u8>) -> File {
    match rng.below(9) {
        0 | 1 => return None,
        2 => table.clear(),
        3 => table.truncate(table.len() - rng.between(1, RECORD - 1)),
        // what comes after the 256th record is all that is wrong
        4 => {
            let more = rng.pick(&[1, 64, 127, 128, 129, 256, MAX_RECORDS * RECORD, 100_000]);
            table.resize(MAX_RECORDS * RECORD + more, 0);
        }
        _ => tables::damage(rng, &mut table),
    }
    Some(table)
}
