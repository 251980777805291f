//! Which tables are refused, and which record a write takes.

use super::*;

/// The number of a plain read on this table.
fn number(table: &[u8]) -> u32 {
    let mut copy = table.to_vec();
    let mut reply = [7; 128];
    let answer = call(&mut copy, 0, &line("EXGET nothing"), &mut reply);
    assert_eq!(copy, table);
    if answer.number == 1 {
        assert_eq!((answer.len, reply), (0, [7; 128]));
    }
    answer.number
}

fn foo() -> [u8; 128] {
    record(&[(0, &[1, 3, 3]), (8, &[1]), (24, b"foo"), (48, b"bar")])
}

#[test]
fn one_to_256_records_and_no_other_length() {
    for records in [1, 2, 16, 17, 255, 256] {
        assert_eq!(number(&vec![0; 128 * records]), 0, "{records}");
    }
    for len in [0, 1, 127, 129, 255, 257, 128 * 256 - 1, 128 * 256 + 1, 128 * 257] {
        assert_eq!(number(&vec![0; len]), 1, "{len}");
    }
}

#[test]
fn an_empty_record_is_all_zeros() {
    for at in 1..128 {
        for bit in 0..8 {
            let mut table = [0; 256];
            table[128 + at] = 1 << bit;
            assert_eq!(number(&table), 1, "{at}");
        }
    }
}

#[test]
fn every_byte_of_a_record_in_use_has_its_range() {
    // A record of one key byte and one value byte: each other byte, changed.
    let base = record(&[(0, &[1, 1, 1]), (24, b"k"), (48, b"v")]);
    for at in 0..128 {
        for byte in 0..=255u8 {
            let mut record = base;
            record[at] = byte;
            let good = match at {
                0 => byte == 1,
                1 => (1..=24).contains(&byte),
                2 => (1..=64).contains(&byte), // 0 would leave a stray byte
                3 => byte == 0,
                4..=7 => true,  // flags
                8..=14 => true, // version
                15 => byte < 128,
                16..=22 => true,  // expiry
                23 => byte <= 64, // 64 alone is 2^62
                24 | 48 => true,
                _ => byte == 0,
            };
            assert_eq!(number(&record), u32::from(!good), "byte {at} is {byte}");
        }
    }
}

#[test]
fn limits_of_each_field() {
    let full = record(&[
        (0, &[1, 24, 64, 0]),
        (4, &[0xff; 4]),
        (8, &[0xff, 0xff, 0xff, 0xff, 0xff, 0xff, 0xff, 0x7f]),
        (23, &[0x40]),
        (24, &[0xff; 24]),
        (48, &[0xff; 64]),
    ]);
    assert_eq!(number(&full), 0);
    let bad: [(usize, u8); 7] = [(1, 25), (2, 65), (3, 1), (15, 0x80), (16, 1), (112, 1), (127, 1)];
    for (at, byte) in bad {
        let mut record = full;
        record[at] = byte;
        assert_eq!(number(&record), 1, "byte {at}");
    }
    // A length below the last byte that is not zero
    for len in 0..24 {
        let mut record = full;
        record[1] = len;
        assert_eq!(number(&record), 1);
    }
    for len in 0..64 {
        let mut record = full;
        record[2] = len;
        assert_eq!(number(&record), 1);
    }
}

#[test]
fn every_length_with_its_last_byte_and_with_one_past_it() {
    for len in 1..=24u8 {
        let mut record = record(&[(0, &[1, len]), (24, &vec![0xaa; len.into()])]);
        assert_eq!(number(&record), 0);
        record[24 + usize::from(len)] = 1;
        // Past 24 it is the value's first byte, with value length 0.
        assert_eq!(number(&record), 1);
    }
    for len in 0..=64u8 {
        let mut record = record(&[(0, &[1, 1, len]), (24, b"k"), (48, &vec![0xaa; len.into()])]);
        assert_eq!(number(&record), 0);
        record[48 + usize::from(len)] = 1;
        assert_eq!(number(&record), 1);
    }
}

#[test]
fn equal_keys_are_damage_wherever_they_stand() {
    for records in [2, 3, 16, 17, 100, 256] {
        let mut table = Vec::new();
        for slot in 0..records {
            let key = format!("key {slot}");
            let mut record = record(&[(0, &[1, key.len() as u8]), (24, key.as_bytes())]);
            // Expired ones count too.
            record[16] = (slot % 2) as u8;
            table.extend(record);
        }
        assert_eq!(number(&table), 0);
        for (a, b) in [(0, 1), (0, records - 1), (records - 2, records - 1), (records / 2, 0)] {
            if a == b {
                continue;
            }
            let mut equal = table.clone();
            let key = equal[128 * a..][..48].to_vec();
            equal[128 * b + 1] = key[1];
            equal[128 * b + 24..128 * b + 48].copy_from_slice(&key[24..]);
            assert_eq!(number(&equal), 1, "{a} {b} of {records}");
        }
    }
}

#[test]
fn keys_that_differ_in_one_byte_or_in_length_are_distinct() {
    let mut table = Vec::new();
    for at in 0..24 {
        let mut key = [b'k'; 24];
        key[at] = b'K';
        table.extend(record(&[(0, &[1, 24]), (24, &key)]));
    }
    for len in 1..=24u8 {
        // Zeros only: the padded bytes are the same, the lengths differ.
        table.extend(record(&[(0, &[1, len])]));
    }
    assert_eq!(number(&table), 0);
    let again = table[128 * 30..128 * 31].to_vec();
    table.extend(again);
    assert_eq!(number(&table), 1);
}

#[test]
fn keys_that_meet_in_the_filter_are_told_apart() {
    let keys = difftest::collisions::keys(256);
    let records = keys.iter().map(|key| record(&[(0, &[1, 24]), (24, key.as_bytes())]));
    let mut store = Store::with(&records.collect::<Vec<_>>());
    for slot in [0, 1, 77, 254, 255] {
        store.answer(&format!("EXSETVER {} 5", keys[slot]), ":1\r\n");
        assert_eq!(store.record(slot)[8], 5);
    }
    store.table.copy_within(128 * 77..128 * 78, 128 * 255);
    assert_eq!(number(&store.table), 1);
}

#[test]
fn a_write_takes_its_own_record_then_an_empty_then_an_expired_one() {
    let expired = |key: &[u8]| {
        record(&[
            (0, &[1, key.len() as u8, 1, 0, 9, 9]),
            (8, &[8]),
            (16, &[1]),
            (24, key),
            (48, b"x"),
        ])
    };
    let fresh = |key: &[u8]| record(&[(0, &[1, 3, 1]), (8, &[1]), (24, key), (48, b"v")]);

    // Its own expired record, though an empty one stands lower
    let mut store = Store::with(&[[0; 128], expired(b"aaa"), expired(b"foo")]);
    store.answer("EXSET foo v", "+OK\r\n");
    assert_eq!(store.table, [[0; 128], expired(b"aaa"), fresh(b"foo")].concat());

    // The lowest empty one, though an expired one stands lower
    let mut store = Store::with(&[expired(b"aaa"), [0; 128], [0; 128]]);
    store.answer("EXSET foo v", "+OK\r\n");
    assert_eq!(store.table, [expired(b"aaa"), fresh(b"foo"), [0; 128]].concat());

    // The lowest expired one
    let mut store = Store::with(&[fresh(b"bar"), expired(b"aaa"), expired(b"bbb")]);
    store.answer("EXSET foo v", "+OK\r\n");
    assert_eq!(store.table, [fresh(b"bar"), fresh(b"foo"), expired(b"bbb")].concat());

    // None
    let mut store = Store::with(&[fresh(b"bar"), fresh(b"baz")]);
    for text in ["EXSET foo v", "EXINCRBY foo 1", "EXAPPEND foo v", "EXPREPEND foo v"] {
        store.refuse(text, 17);
    }
}

#[test]
fn a_deleted_record_is_used_again() {
    let mut store = Store::with(&[foo(), record(&[(0, &[1, 1]), (24, b"k")])]);
    store.answer("DEL foo", ":1\r\n");
    assert_eq!(store.record(0), [0; 128]);
    store.answer("DEL foo", ":0\r\n");
    store.answer("EXSET bar v", "+OK\r\n");
    assert_eq!(store.record(0), record(&[(0, &[1, 3, 1]), (8, &[1]), (24, b"bar"), (48, b"v")]));
}

#[test]
fn times_up_to_2_to_the_62() {
    let mut reply = [0; 128];
    for (time, number) in [(0, 0), (TOP_TIME, 0), (TOP_TIME + 1, 2), (u64::MAX, 2)] {
        let mut table = foo();
        assert_eq!(call(&mut table, time, &line("EXGET foo"), &mut reply).number, number);
        assert_eq!(table, foo());
    }
    // The highest expiry is absent at that very time.
    let mut store = Store::new(1);
    store.answer("EXSET foo bar PXAT 4611686018427387904", "+OK\r\n");
    store.time = TOP_TIME - 1;
    store.answer("EXGET foo", "*2\r\n$3\r\nbar\r\n:1\r\n");
    store.time = TOP_TIME;
    store.answer("EXGET foo", "$-1\r\n");
}
