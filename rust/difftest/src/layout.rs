//! The table's layout and its rules, told the plain way: byte by byte, and
//! with a set of all keys. Made to judge a store, not to be fast.

use std::collections::BTreeSet;

pub const RECORD: usize = 128;
pub const MAX_RECORDS: usize = 256;
pub const MAX_KEY: usize = 24;
pub const MAX_VALUE: usize = 64;
pub const MAX_VERSION: u64 = (1 << 63) - 1;
pub const MAX_TIME: u64 = 1 << 62;
pub const MAX_EXPIRY: u64 = 1 << 62;

pub type Record = [u8; RECORD];

/// The table's whole records.
pub fn records(table: &[u8]) -> &[Record] {
    table.as_chunks().0
}

/// The table's whole records, for writing.
pub fn records_mut(table: &mut [u8]) -> &mut [Record] {
    table.as_chunks_mut().0
}

pub fn in_use(record: &Record) -> bool {
    record[0] == 1
}

pub fn key(record: &Record) -> &[u8] {
    &record[24..][..usize::from(record[1])]
}

pub fn value(record: &Record) -> &[u8] {
    &record[48..][..usize::from(record[2])]
}

pub fn version(record: &Record) -> u64 {
    number(&record[8..16])
}

pub fn expiry(record: &Record) -> u64 {
    number(&record[16..24])
}

pub fn is_live(record: &Record, time: u64) -> bool {
    in_use(record) && (expiry(record) == 0 || expiry(record) > time)
}

fn number(bytes: &[u8]) -> u64 {
    bytes.iter().rev().fold(0, |sum, byte| sum << 8 | u64::from(*byte))
}

/// The fields of a record in use.
#[derive(Clone, Debug, PartialEq, Eq)]
pub struct Fields {
    pub key: Vec<u8>,
    pub value: Vec<u8>,
    pub flags: u32,
    pub version: u64,
    pub expiry: u64,
}

impl Fields {
    pub fn record(&self) -> Record {
        let mut record = [0; RECORD];
        record[0] = 1;
        record[1] = self.key.len() as u8;
        record[4..8].copy_from_slice(&self.flags.to_le_bytes());
        record[16..24].copy_from_slice(&self.expiry.to_le_bytes());
        record[24..][..self.key.len()].copy_from_slice(&self.key);
        store(&mut record, &self.value, self.version);
        record
    }
}

/// Stores a value with zeros after it, its length, and a version.
pub fn store(record: &mut Record, value: &[u8], version: u64) {
    record[2] = value.len() as u8;
    record[8..16].copy_from_slice(&version.to_le_bytes());
    record[48..112].fill(0);
    record[48..][..value.len()].copy_from_slice(value);
}

/// The slot of the record in use with this key.
pub fn find(table: &[u8], wanted: &[u8]) -> Option<usize> {
    records(table).iter().position(|record| in_use(record) && key(record) == wanted)
}

/// Whether the table keeps all rules.
pub fn is_good(table: &[u8]) -> bool {
    has_good_records(table) && keys_are_distinct(records(table))
}

/// Whether the table keeps all rules but that of equal keys.
pub fn has_good_records(table: &[u8]) -> bool {
    let all = records(table);
    table.len().is_multiple_of(RECORD)
        && (1..=MAX_RECORDS).contains(&all.len())
        && all.iter().all(record_is_good)
}

fn keys_are_distinct(records: &[Record]) -> bool {
    let mut seen = BTreeSet::new();
    records.iter().filter(|record| in_use(record)).all(|record| seen.insert(key(record)))
}

fn record_is_good(record: &Record) -> bool {
    match record[0] {
        0 => record.iter().all(|byte| *byte == 0),
        1 => {
            let key_len = usize::from(record[1]);
            let value_len = usize::from(record[2]);
            (1..=MAX_KEY).contains(&key_len)
                && value_len <= MAX_VALUE
                && record[3] == 0
                && version(record) <= MAX_VERSION
                && expiry(record) <= MAX_EXPIRY
                && record[24 + key_len..48].iter().all(|byte| *byte == 0)
                && record[48 + value_len..].iter().all(|byte| *byte == 0)
        }
        _ => false,
    }
}
