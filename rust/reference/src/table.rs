//! The table: slots of 128 bytes, each empty or with one record.

/// The bytes of a record.
pub const RECORD: usize = 128;

/// The most records of a table.
const TABLE_LIMIT: usize = 256;

pub const KEY_LIMIT: usize = 24;
pub const VALUE_LIMIT: usize = 64;

/// The highest version, 2^63 - 1.
pub const HIGHEST_VERSION: u64 = (1 << 63) - 1;

/// The latest time and expiry, 2^62.
pub const TIME_LIMIT: u64 = 1 << 62;

/// Where in a record its value starts.
pub const VALUE_AT: usize = 48;

/// A record in use. An expiry of 0 is none.
#[derive(Clone, Debug, PartialEq, Eq)]
pub struct Record {
    pub key: Vec<u8>,
    pub value: Vec<u8>,
    pub flags: u32,
    pub version: u64,
    pub expiry: u64,
}

/// A record, or none where the slot is empty.
pub type Slot = Option<Record>;

/// The slots, if the table has 1 to 256 whole records and each keeps the rules.
pub fn read_table(table: &[u8]) -> Option<Vec<Slot>> {
    let (records, rest) = table.as_chunks::<RECORD>();
    if !rest.is_empty() || !(1..=TABLE_LIMIT).contains(&records.len()) {
        return None;
    }
    records.iter().map(read_slot).collect()
}

fn read_slot(bytes: &[u8; RECORD]) -> Option<Slot> {
    match bytes[0] {
        0 if all_zero(bytes) => Some(None),
        1 => read_record(bytes).map(Some),
        _ => None,
    }
}

/// The record, if every field is in its range and zeros stand where they must.
fn read_record(bytes: &[u8; RECORD]) -> Option<Record> {
    let key_length = usize::from(bytes[1]);
    let value_length = usize::from(bytes[2]);
    if !(1..=KEY_LIMIT).contains(&key_length) || value_length > VALUE_LIMIT || bytes[3] != 0 {
        return None;
    }
    let (key, after_key) = bytes[24..48].split_at(key_length);
    let (value, after_value) = bytes[48..112].split_at(value_length);
    if !all_zero(after_key) || !all_zero(after_value) || !all_zero(&bytes[112..128]) {
        return None;
    }
    let flags = little_endian(&bytes[4..8]) as u32;
    let version = little_endian(&bytes[8..16]);
    let expiry = little_endian(&bytes[16..24]);
    if version > HIGHEST_VERSION || expiry > TIME_LIMIT {
        return None;
    }
    Some(Record { key: key.to_vec(), value: value.to_vec(), flags, version, expiry })
}

fn all_zero(bytes: &[u8]) -> bool {
    bytes.iter().all(|byte| *byte == 0)
}

/// The number that bytes hold, low byte first.
fn little_endian(bytes: &[u8]) -> u64 {
    bytes.iter().rev().fold(0, |number, byte| 256 * number + u64::from(*byte))
}

/// Whether no two records in use have equal keys, expired ones counted.
pub fn distinct(slots: &[Slot]) -> bool {
    let records: Vec<&Record> = slots.iter().flatten().collect();
    for (i, record) in records.iter().enumerate() {
        for other in &records[i + 1..] {
            if record.key == other.key {
                return false;
            }
        }
    }
    true
}

/// The 128 bytes of a slot; all are zeros if it is empty.
pub fn slot_bytes(slot: &Slot) -> [u8; RECORD] {
    let mut bytes = [0; RECORD];
    if let Some(record) = slot {
        bytes[0] = 1;
        bytes[1] = record.key.len() as u8;
        bytes[2] = record.value.len() as u8;
        bytes[4..8].copy_from_slice(&record.flags.to_le_bytes());
        bytes[8..16].copy_from_slice(&record.version.to_le_bytes());
        bytes[16..24].copy_from_slice(&record.expiry.to_le_bytes());
        bytes[24..][..record.key.len()].copy_from_slice(&record.key);
        bytes[48..][..record.value.len()].copy_from_slice(&record.value);
    }
    bytes
}

#[cfg(test)]
mod tests {
    use super::*;

    fn record() -> Record {
        let (key, value) = (b"foo".to_vec(), b"100".to_vec());
        Record { key, value, flags: 0x0403_0201, version: 258, expiry: TIME_LIMIT }
    }

    #[test]
    fn reads_the_bytes_that_it_writes() {
        for slot in [None, Some(record())] {
            assert_eq!(read_slot(&slot_bytes(&slot)), Some(slot));
        }
    }

    #[test]
    fn every_field_has_its_place() {
        let bytes = slot_bytes(&Some(record()));
        assert_eq!(bytes[..12], [1, 3, 3, 0, 1, 2, 3, 4, 2, 1, 0, 0]);
        assert_eq!(bytes[16..24], TIME_LIMIT.to_le_bytes());
        assert_eq!(bytes[24..28], *b"foo\0");
        assert_eq!(bytes[48..52], *b"100\0");
    }

    #[test]
    fn bytes_out_of_range_are_no_record() {
        let good = slot_bytes(&Some(record()));
        let wrong = [
            (0, 2),
            (1, 0),
            (1, 25),
            (1, 2),
            (2, 65),
            (2, 2),
            (3, 1),
            (15, 0x80),
            (16, 1),
            (27, 1),
            (47, 1),
            (51, 1),
            (111, 1),
            (112, 1),
            (127, 1),
        ];
        for (at, byte) in wrong {
            let mut bytes = good;
            bytes[at] = byte;
            assert_eq!(read_slot(&bytes), None, "byte {at}");
        }
        let mut empty = [0; RECORD];
        empty[127] = 1;
        assert_eq!(read_slot(&empty), None);
    }

    #[test]
    fn keys_are_compared_with_their_lengths() {
        let with = |key: &[u8]| Some(Record { key: key.to_vec(), ..record() });
        assert!(distinct(&[with(b"a"), None, with(b"a\0"), None]));
        assert!(!distinct(&[with(b"a"), None, with(b"b"), with(b"a")]));
    }
}
