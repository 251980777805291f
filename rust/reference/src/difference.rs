//! What differs between two tables, key by key: request E1 of document 02.

use crate::table::{distinct, read_table, Record};
use std::collections::{BTreeMap, BTreeSet};

/// The records in use of a table, by their keys.
type Records = BTreeMap<Vec<u8>, Record>;

/// The whole output for the bytes of two files; `None` is a missing file. The
/// first is tested first, so two bad ones give the line of the first alone.
pub fn difference(before: Option<&[u8]>, after: Option<&[u8]>) -> String {
    let Some(before) = before.and_then(records) else {
        return "bad 1\n".to_string();
    };
    let Some(after) = after.and_then(records) else {
        return "bad 2\n".to_string();
    };
    // The order of the set is byte order, with a key before its extensions.
    let keys: BTreeSet<&Vec<u8>> = before.keys().chain(after.keys()).collect();
    keys.into_iter().filter_map(|key| line(key, before.get(key), after.get(key))).collect()
}

/// The records of a good table. Those that are expired count too.
fn records(table: &[u8]) -> Option<Records> {
    let slots = read_table(table)?;
    if !distinct(&slots) {
        return None;
    }
    Some(slots.into_iter().flatten().map(|record| (record.key.clone(), record)).collect())
}

/// The line of a key, if its records differ.
fn line(key: &[u8], before: Option<&Record>, after: Option<&Record>) -> Option<String> {
    let key = hex(key);
    match (before, after) {
        (Some(_), None) => Some(format!("- {key}\n")),
        (None, Some(_)) => Some(format!("+ {key}\n")),
        (Some(old), Some(new)) if old != new => {
            Some(format!("~ {key} {}\n", changed(old, new).join(" ")))
        }
        _ => None,
    }
}

/// The names of the fields that differ.
fn changed(old: &Record, new: &Record) -> Vec<&'static str> {
    let fields = [
        ("value", old.value != new.value),
        ("version", old.version != new.version),
        ("flags", old.flags != new.flags),
        ("expiry", old.expiry != new.expiry),
    ];
    fields.into_iter().filter(|(_, differs)| *differs).map(|(name, _)| name).collect()
}

/// Two lower-case digits for each byte.
fn hex(bytes: &[u8]) -> String {
    bytes.iter().map(|byte| format!("{byte:02x}")).collect()
}

#[cfg(test)]
mod tests {
    use super::*;
    use crate::table::{slot_bytes, Slot, RECORD, TIME_LIMIT};

    fn record(key: &[u8], value: &str, version: u64) -> Record {
        let (key, value) = (key.to_vec(), value.as_bytes().to_vec());
        Record { key, value, flags: 0, version, expiry: 0 }
    }

    fn with_keys(keys: &[&[u8]]) -> Vec<u8> {
        table(&keys.iter().map(|key| Some(record(key, "", 1))).collect::<Vec<Slot>>())
    }

    fn table(slots: &[Slot]) -> Vec<u8> {
        slots.iter().flat_map(slot_bytes).collect()
    }

    fn between(before: &[u8], after: &[u8]) -> String {
        difference(Some(before), Some(after))
    }

    #[test]
    fn the_example_of_document_02() {
        let before = table(&[Some(record(b"foo", "100", 1))]);
        let after = table(&[Some(record(b"foo", "200", 2)), Some(record(b"bar", "x", 1))]);
        assert_eq!(between(&before, &after), "+ 626172\n~ 666f6f value version\n");
        assert_eq!(between(&after, &before), "- 626172\n~ 666f6f value version\n");
    }

    #[test]
    fn each_field_is_named_and_in_this_order() {
        let old = record(b"k", "1", 1);
        let new = |change: fn(&mut Record)| {
            let mut new = old.clone();
            change(&mut new);
            between(&table(&[Some(old.clone())]), &table(&[Some(new)]))
        };
        assert_eq!(new(|record| record.value.push(0)), "~ 6b value\n");
        assert_eq!(new(|record| record.version = 0), "~ 6b version\n");
        assert_eq!(new(|record| record.flags = 1 << 31), "~ 6b flags\n");
        assert_eq!(new(|record| record.expiry = TIME_LIMIT), "~ 6b expiry\n");
        let all = new(|old| *old = Record { flags: 1, expiry: 1, ..record(b"k", "", 2) });
        assert_eq!(all, "~ 6b value version flags expiry\n");
    }

    #[test]
    fn keys_stand_in_byte_order() {
        let keys: [&[u8]; 8] = [&[255], b"a", b"a\0", b"a\0\0", &[0], b"ab", &[128], b"b"];
        let lines = ["00", "61", "6100", "610000", "6162", "62", "80", "ff"];
        let output: String = lines.iter().map(|key| format!("+ {key}\n")).collect();
        assert_eq!(between(&[0; RECORD], &with_keys(&keys)), output);
    }

    /// A key of 24 bytes is printed whole.
    #[test]
    fn the_longest_key() {
        let output = format!("- {}\n", "7a".repeat(24));
        assert_eq!(between(&with_keys(&[&[b'z'; 24]]), &[0; RECORD]), output);
    }

    #[test]
    fn expired_records_count() {
        let expired = Record { expiry: 1, ..record(b"k", "", 1) };
        let (live, expired) = (with_keys(&[b"k"]), table(&[Some(expired)]));
        assert_eq!(between(&expired, &expired), "");
        assert_eq!(between(&expired, &[0; RECORD]), "- 6b\n");
        assert_eq!(between(&live, &expired), "~ 6b expiry\n");
    }

    /// Neither a record's slot nor the number of slots is a difference.
    #[test]
    fn slots_do_not_count() {
        let (a, b) = (Some(record(b"a", "1", 1)), Some(record(b"b", "2", 2)));
        let before = table(&[a.clone(), b.clone()]);
        let after = table(&[None, b, None, a]);
        assert_eq!(between(&before, &before), "");
        assert_eq!(between(&before, &after), "");
        assert_eq!(between(&[0; RECORD], &[0; 256 * RECORD]), "");
    }

    /// Missing, empty, half a record, one byte or one record too many, a rule
    /// broken, equal keys.
    #[test]
    fn bad_files_and_the_first_of_two() {
        let good = with_keys(&[b"k"]);
        let mut broken = good.clone();
        broken[3] = 1;
        let twins = with_keys(&[b"k", b"k"]);
        let sized = |len| vec![0; len];
        let (empty, half, odd, long) = (sized(0), sized(64), sized(32_769), sized(32_896));
        let files = [&empty, &half, &odd, &long, &broken, &twins].map(|file| Some(&file[..]));
        for bad in [&[None], &files[..]].concat() {
            assert_eq!(difference(bad, Some(&good)), "bad 1\n");
            assert_eq!(difference(Some(&good), bad), "bad 2\n");
            for other in files {
                assert_eq!(difference(bad, other), "bad 1\n");
            }
        }
    }
}
