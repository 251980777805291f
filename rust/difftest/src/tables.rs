//! Random tables, good and damaged.

use crate::layout::{self, Fields, MAX_EXPIRY, MAX_RECORDS, MAX_VERSION, RECORD};
use crate::{words, Rng};
use std::collections::BTreeSet;

/// A good table of 1 to `most` records, mostly few.
pub fn good(rng: &mut Rng, most: usize, now: u64) -> Vec<u8> {
    let count = match rng.below(100) {
        0..=59 => rng.between(1, 3),
        60..=79 => rng.between(4, 16),
        80..=95 => rng.between(15, 40),
        96..=98 => rng.between(41, MAX_RECORDS),
        _ => MAX_RECORDS,
    };
    let count = if count > most { rng.between(1, most) } else { count };
    // How many of a hundred records are empty, and how many of those in use
    // are expired.
    let (empty, expired) = match rng.below(10) {
        0..=3 => (0, 0),
        4 | 5 => (0, 30),
        6 => (100, 0),
        7 => (50, 50),
        _ => (30, 20),
    };
    let mut keys = BTreeSet::new();
    let mut table = Vec::with_capacity(count * RECORD);
    for _ in 0..count {
        if rng.chance(empty) {
            table.extend([0; RECORD]);
            continue;
        }
        let key = new_key(rng, &keys);
        keys.insert(key.clone());
        let live = !rng.chance(expired);
        table.extend(fields(rng, key, now, live).record());
    }
    table
}

/// A key not yet there, but perhaps similar to one that is.
fn new_key(rng: &mut Rng, keys: &BTreeSet<Vec<u8>>) -> Vec<u8> {
    loop {
        let mut key = words::key(rng);
        if !keys.is_empty() && rng.chance(15) {
            let other = keys.iter().nth(rng.below(keys.len())).unwrap();
            key = words::similar_key(rng, other);
        }
        if !keys.contains(&key) {
            return key;
        }
    }
}

/// A record in use, live or expired at this time, if there can be such.
pub fn fields(rng: &mut Rng, key: Vec<u8>, now: u64, live: bool) -> Fields {
    Fields {
        key,
        value: words::value(rng),
        flags: match rng.below(4) {
            0 => rng.next_u64() as u32,
            1 => u32::MAX,
            _ => rng.below(3) as u32,
        },
        version: version(rng),
        expiry: if live { live_expiry(rng, now) } else { past_expiry(rng, now) },
    }
}

pub fn version(rng: &mut Rng) -> u64 {
    match rng.below(10) {
        0 => 0,
        1..=4 => rng.between(1, 100) as u64,
        5 | 6 => MAX_VERSION,
        7 => MAX_VERSION - rng.below(3) as u64,
        8 => (1 << rng.pick(&[31, 32, 62])) - rng.below(2) as u64,
        _ => rng.next_u64() >> 1,
    }
}

fn live_expiry(rng: &mut Rng, now: u64) -> u64 {
    let room = MAX_EXPIRY - now;
    if room == 0 {
        return 0;
    }
    match rng.below(6) {
        0 => now + 1,
        1 => now + 1 + rng.next_u64() % room.min(5000),
        2 => now + 1 + rng.next_u64() % room,
        3 => MAX_EXPIRY,
        _ => 0,
    }
}

fn past_expiry(rng: &mut Rng, now: u64) -> u64 {
    if now == 0 {
        return 0;
    }
    match rng.below(4) {
        0 => now,
        1 => 1,
        _ => 1 + rng.next_u64() % now,
    }
}

/// Gives many records a value of zeros, ones or random bits.
pub fn fill_with_bits(rng: &mut Rng, table: &mut [u8]) {
    for record in layout::records_mut(table).iter_mut().filter(|record| layout::in_use(record)) {
        let len = match rng.below(4) {
            0 => rng.below(3),
            1 => rng.between(62, layout::MAX_VALUE),
            _ => rng.between(0, layout::MAX_VALUE),
        };
        let value = match rng.below(5) {
            0 => vec![0; len],
            1 => vec![0xff; len],
            2 | 3 => rng.bytes(len),
            _ => continue,
        };
        layout::store(record, &value, layout::version(record));
    }
}

/// Breaks a good table, in one of many ways. Some ways can leave it good: a
/// random bit, for one.
pub fn damage(rng: &mut Rng, table: &mut Vec<u8>) {
    match rng.below(12) {
        0 => wrong_length(rng, table),
        1 | 2 => equal_keys(rng, table),
        3 => {
            let at = rng.below(table.len());
            table[at] ^= 1 << rng.below(8);
        }
        4 => stray_byte(rng, table),
        _ => bad_field(rng, table),
    }
}

fn wrong_length(rng: &mut Rng, table: &mut Vec<u8>) {
    match rng.below(6) {
        0 => table.clear(),
        1 => table.push(0),
        2 => table.truncate(table.len() - 1),
        3 => table.truncate(rng.below(table.len())),
        4 => table.resize((MAX_RECORDS + 1) * RECORD, 0),
        _ => table.extend(vec![0; rng.between(1, RECORD - 1)]),
    }
}

/// Gives a record the key of another, or the last one if there is but one.
fn equal_keys(rng: &mut Rng, table: &mut [u8]) {
    let records = layout::records_mut(table);
    let used: Vec<usize> = (0..records.len()).filter(|i| layout::in_use(&records[*i])).collect();
    if used.is_empty() || records.len() < 2 {
        return bad_field(rng, table);
    }
    let from = rng.pick(&used);
    let mut to = rng.below(records.len());
    if to == from {
        to = (from + 1) % records.len();
    }
    let source = records[from];
    let target = &mut records[to];
    target[0] = 1;
    target[1] = source[1];
    target[24..48].copy_from_slice(&source[24..48]);
    if rng.chance(30) {
        // One of the two is expired: it counts too.
        target[16..24].copy_from_slice(&1u64.to_le_bytes());
    }
}

/// A byte in an empty record.
fn stray_byte(rng: &mut Rng, table: &mut [u8]) {
    let slot = rng.below(table.len() / RECORD);
    let record = &mut layout::records_mut(table)[slot];
    record.fill(0);
    record[rng.between(1, RECORD - 1)] = 1 << rng.below(8);
}

/// A field of a record in use, out of its range.
fn bad_field(rng: &mut Rng, table: &mut [u8]) {
    let slot = rng.below(table.len() / RECORD);
    let record = &mut layout::records_mut(table)[slot];
    if !layout::in_use(record) {
        let key = words::key(rng);
        *record = fields(rng, key, 0, true).record();
    }
    let (key_len, value_len) = (usize::from(record[1]), usize::from(record[2]));
    let bit = 1 << rng.below(8);
    match rng.below(12) {
        0 => record[0] = rng.pick(&[2, 3, 129, 255]),
        // in use, but its first byte says empty
        1 => record[0] = 0,
        2 => wrong_key_length(rng, record),
        3 => wrong_value_length(rng, record),
        4 => record[3] = bit,
        5 => record[15] |= 0x80,
        6 => record[16..24].copy_from_slice(&(MAX_EXPIRY + 1).to_le_bytes()),
        7 => record[16..24].copy_from_slice(&u64::MAX.to_le_bytes()),
        // the key's zeros, or if there are none, the last ones
        8 if key_len < 24 => record[rng.between(24 + key_len, 47)] |= bit,
        9 if value_len < 64 => record[rng.between(48 + value_len, 111)] |= bit,
        // the first byte past the value
        10 => record[48 + value_len] |= bit,
        _ => record[rng.between(112, 127)] |= bit,
    }
}

/// The bytes may fit the length, so that the length alone is wrong.
fn wrong_key_length(rng: &mut Rng, record: &mut layout::Record) {
    if rng.chance(50) {
        record[24..48].fill(0);
        record[1] = 0;
    } else {
        record[24..48].fill(b'k');
        record[1] = rng.pick(&[0, 25, 26, 48, 128, 255]);
    }
}

/// Likewise.
fn wrong_value_length(rng: &mut Rng, record: &mut layout::Record) {
    record[48..112].fill(b'v');
    record[2] = rng.pick(&[65, 66, 80, 128, 255]);
    if rng.chance(50) {
        record[112..].fill(b'v');
    }
}
