//! What each command does and answers, beyond the bench sheet.

use super::*;

#[test]
fn the_version_rises_also_if_the_text_is_the_same() {
    let mut store = Store::new(1);
    store.answer("EXSET k v", "+OK\r\n");
    store.answer("EXSET k v WITHVERSION", ":2\r\n");
    store.answer("EXCAS k v 2", "*3\r\n+OK\r\n+\r\n:3\r\n");
}

#[test]
fn ver_is_ignored_on_an_absent_key_and_tested_after_nx() {
    let mut store = Store::new(1);
    store.answer("EXSET k v VER 55 WITHVERSION", ":1\r\n");
    store.answer("EXSET k v NX VER 55", "$-1\r\n");
    store.refuse("EXSET k v XX VER 55", 12);
    store.answer("EXSET k v XX VER 1 WITHVERSION", ":2\r\n");
    store.answer("DEL k", ":1\r\n");
    store.answer("EXAPPEND k v VER 55", ":1\r\n");
    store.refuse("EXAPPEND k v VER 55", 12);
    store.answer("EXAPPEND k v VER 1", ":2\r\n");
    store.refuse("EXPREPEND k v VER 1", 12);
    store.answer("EXPREPEND k v VER 2", ":3\r\n");
}

#[test]
fn abs_stores_its_version_in_either_case() {
    let mut store = Store::new(1);
    store.answer("EXSET k 5 ABS 0 WITHVERSION", ":0\r\n");
    store.answer("EXSET k 5 ABS 9 WITHVERSION", ":9\r\n");
    store.answer("EXINCRBY k 1 ABS 3 WITHVERSION", "*2\r\n:6\r\n:3\r\n");
    store.answer("EXAPPEND k 1 ABS 2", ":2\r\n");
    store.answer("EXPREPEND k 1 ABS 9223372036854775807", ":9223372036854775807\r\n");
    store.refuse("EXSET k 5 ABS -1", 9);
    store.refuse("EXSET k 5 ABS 9223372036854775808", 9);
}

#[test]
fn options_in_any_order_and_case() {
    let mut store = Store::new(1);
    store.answer("exset k v withversion FLAGS 4294967295 abs 77 nx Px 500", ":77\r\n");
    let expected = record(&[
        (0, &[1, 1, 1, 0, 0xff, 0xff, 0xff, 0xff]),
        (8, &[77]),
        (16, &[0xdc, 5]),
        (24, b"k"),
        (48, b"v"),
    ]);
    assert_eq!(store.record(0), expected);
    store.answer("EXGET k WithFlags", "*3\r\n$1\r\nv\r\n:77\r\n:4294967295\r\n");
    store.refuse("EXSET k v FLAGS 4294967296", 9);
    store.refuse("EXSET k v FLAGS -1", 9);
}

/// The start of a command, and options that it refuses.
const REFUSED_OPTIONS: [(&str, &[&str]); 6] = [
    (
        "EXSET k v",
        &[
            "NX NX", "NX XX", "XX NX", "VER 1 ABS 1", "ABS 1 VER 1", "VER 1 VER 1", "EX 1 PX 1",
            "EXAT 1 EX 1", "PXAT 1 PXAT 1", "FLAGS 1 FLAGS 1", "WITHVERSION WITHVERSION",
            "WITHFLAGS", "MIN 1", "NONEGATIVE", "KEEPTTL", "VER", "NX VER", "5",
        ],
    ),
    (
        "EXINCRBY k 1",
        &["FLAGS 1", "KEEPTTL", "MIN 1 MIN 1", "MAX 1 MAX 1", "NONEGATIVE NONEGATIVE", "WITHFLAGS"],
    ),
    (
        "EXAPPEND k 1",
        &["EX 1", "FLAGS 1", "WITHVERSION", "KEEPTTL", "MIN 1", "NX XX", "VER 1 ABS 1"],
    ),
    (
        "EXPREPEND k 1",
        &["EX 1", "FLAGS 1", "WITHVERSION", "KEEPTTL", "MIN 1", "NX XX", "VER 1 ABS 1"],
    ),
    ("EXCAS k v 1", &["NX", "VER 1", "FLAGS 1", "WITHVERSION", "EX 1 PX 1"]),
    ("EXGAE k", &["", "KEEPTTL", "NX", "EX", "EX 1 EX 1", "EX 1 PXAT 1", "WITHFLAGS EX 1"]),
];

#[test]
fn options_that_are_refused() {
    let mut store = Store::new(1);
    for (start, all) in REFUSED_OPTIONS {
        for options in all {
            store.refuse(&format!("{start} {options}"), 8);
        }
    }
    store.refuse_words(&[b"EXSET", b"k", b"v", b""], 8);
}

#[test]
fn lengths_of_keys_and_values() {
    let mut store = Store::new(1);
    let (key, value) = ([b'k'; 24], [b'v'; 64]);
    assert_eq!(store.send(&command(&[b"EXSET", &key, &value])).0, 0);
    assert_eq!(store.record(0), record(&[(0, &[1, 24, 64]), (8, &[1]), (24, &key), (48, &value)]));
    assert_eq!(store.send(&command(&[b"EXCAS", &key, &[b'w'; 64], b"1"])).0, 0);
    for key in [&b""[..], &[b'k'; 25], &[b'k'; 200]] {
        store.refuse_words(&[b"EXSET", key, b"v"], 7);
        store.refuse_words(&[b"EXGET", key], 7);
        store.refuse_words(&[b"EXSETVER", key, b"x"], 7);
        store.refuse_words(&[b"EXINCRBY", key, b"x"], 7);
        store.refuse_words(&[b"EXCAS", key, b"v", b"x"], 7);
        store.refuse_words(&[b"EXCAD", key, b"x"], 7);
        store.refuse_words(&[b"EXAPPEND", key, b"v"], 7);
        store.refuse_words(&[b"EXPREPEND", key, b"v"], 7);
        store.refuse_words(&[b"EXGAE", key], 7);
        store.refuse_words(&[b"DEL", key], 7);
        store.refuse_words(&[b"BITFIELD", key], 7);
    }
    let long = [b'v'; 65];
    store.refuse_words(&[b"EXSET", b"k", &long], 7);
    store.refuse_words(&[b"EXCAS", b"k", &long, b"x"], 7);
    store.refuse_words(&[b"EXAPPEND", b"k", &long, b"NOPE"], 7);
    store.refuse_words(&[b"EXPREPEND", b"k", &long], 7);
}

#[test]
fn exincrby_counts() {
    let mut store = Store::new(1);
    store.answer("EXINCRBY n -5 NONEGATIVE", ":0\r\n");
    assert_eq!(store.record(0), record(&[(0, &[1, 1, 1]), (8, &[1]), (24, b"n"), (48, b"0")]));
    store.answer("EXINCRBY n -5", ":-5\r\n");
    store.answer("EXINCRBY n 100 WITHVERSION", "*2\r\n:95\r\n:3\r\n");
    // A shorter text leaves zeros.
    store.answer("EXINCRBY n -90", ":5\r\n");
    assert_eq!(store.record(0), record(&[(0, &[1, 1, 1]), (8, &[4]), (24, b"n"), (48, b"5")]));
    // NONEGATIVE replaces the sum before the bounds are tested.
    store.refuse("EXINCRBY n -10 MIN 0", 14);
    store.refuse("EXINCRBY n -10 MIN 1 NONEGATIVE", 14);
    store.refuse("EXINCRBY n -10 MAX -1 NONEGATIVE", 14);
    store.answer("EXINCRBY n -10 MIN 0 NONEGATIVE", ":0\r\n");
    store.answer("EXINCRBY n 0 MIN 0 MAX 0", ":0\r\n");
    store.refuse("EXINCRBY n 1 MAX 0", 14);
    // On an absent key, the bounds hold for the number itself, before 17.
    store.refuse("EXINCRBY other 1 MIN 2", 14);
    store.refuse("EXINCRBY other 2 MIN 2", 17);
    store.answer("EXINCRBY n -9223372036854775808", ":-9223372036854775808\r\n");
    assert_eq!(&store.record(0)[48..69], b"-9223372036854775808\0");
}

#[test]
fn expiry_is_stored_kept_or_cleared() {
    let expiry = |store: &Store| u64::from_le_bytes(store.record(0)[16..24].try_into().unwrap());
    let mut store = Store::new(1);
    for (options, expected) in
        [("EX 5", 6000), ("PX 5", 1005), ("EXAT 5", 5000), ("PXAT 5000", 5000), ("", 0)]
    {
        store.answer(&format!("EXSET k 1 {options}"), "+OK\r\n");
        assert_eq!(expiry(&store), expected, "EXSET {options}");
        store.answer("EXSET k 1 PXAT 2000", "+OK\r\n");
        store.send(&line(&format!("EXINCRBY k 1 {options}")));
        assert_eq!(expiry(&store), if options.is_empty() { 2000 } else { expected });
        store.answer("EXSET k 1 PXAT 2000 ABS 5", "+OK\r\n");
        store.send(&line(&format!("EXCAS k 1 5 {options}")));
        assert_eq!(expiry(&store), expected, "EXCAS {options}");
        if !options.is_empty() {
            store.send(&line(&format!("EXGAE k {options}")));
            assert_eq!(expiry(&store), expected, "EXGAE {options}");
        }
    }
    store.answer("EXSET k 1 PXAT 2000 FLAGS 6", "+OK\r\n");
    for text in
        ["EXAPPEND k 1", "EXPREPEND k 1", "EXSETVER k 9", "EXINCRBY k 1", "EXCAS k 1 10 KEEPTTL"]
    {
        assert_eq!(store.send(&line(text)).0, 0, "{text}");
        assert_eq!(expiry(&store), 2000, "{text}");
        assert_eq!(store.record(0)[4], 6, "{text}");
    }
}

#[test]
fn an_absolute_time_already_past_is_stored() {
    let mut store = Store::new(1);
    store.answer("EXSET k v PXAT 1", "+OK\r\n");
    assert_eq!(
        store.record(0),
        record(&[(0, &[1, 1, 1]), (8, &[1]), (16, &[1]), (24, b"k"), (48, b"v")])
    );
    store.answer("EXGET k", "$-1\r\n");
    store.time = 0;
    store.answer("EXGAE k EXAT 1", "*3\r\n$1\r\nv\r\n:1\r\n:0\r\n");
    store.time = 1000;
    store.answer("EXGET k", "$-1\r\n");
    store.answer("EXGAE k EX 1", "$-1\r\n");
    store.answer("EXSETVER k 1", ":0\r\n");
    store.answer("EXCAD k 1", ":-1\r\n");
    store.answer("EXCAS k v 1", ":-1\r\n");
    store.answer("DEL k", ":0\r\n");
    store.answer("EXSET k v XX", "$-1\r\n");
    // A new record on top of it starts afresh.
    store.answer("EXINCRBY k 5", ":5\r\n");
    assert_eq!(store.record(0), record(&[(0, &[1, 1, 1]), (8, &[1]), (24, b"k"), (48, b"5")]));
}

#[test]
fn joining() {
    let mut store = Store::new(1);
    store.answer("EXAPPEND k bc", ":1\r\n");
    store.answer("EXAPPEND k de", ":2\r\n");
    store.answer("EXPREPEND k a", ":3\r\n");
    let expected = record(&[(0, &[1, 1, 5]), (8, &[3]), (24, b"k"), (48, b"abcde")]);
    assert_eq!(store.record(0), expected);
    store.answer("EXAPPEND k x NX", "$-1\r\n");
    store.answer("EXPREPEND k x NX", "$-1\r\n");
    assert_eq!(store.record(0), expected);
    store.answer("DEL k", ":1\r\n");
    store.answer("EXAPPEND k x XX", "$-1\r\n");
    store.answer("EXPREPEND k x XX", "$-1\r\n");
    store.answer("EXPREPEND k x NX", ":1\r\n");
}

#[test]
fn only_the_chosen_record_changes() {
    let mut store = Store::new(20);
    for slot in 0..20 {
        store.answer(&format!("EXSET key{slot} {slot}"), "+OK\r\n");
    }
    let before = store.table.clone();
    store.answer("EXINCRBY key7 1000", ":1007\r\n");
    assert_eq!(store.table[..128 * 7], before[..128 * 7]);
    assert_eq!(store.table[128 * 8..], before[128 * 8..]);
    assert_eq!(
        store.record(7),
        record(&[(0, &[1, 4, 4]), (8, &[2]), (24, b"key7"), (48, b"1007")])
    );
}
