//! The bench sheet: rows P1 to P11 in sequence, then the "Also" lines.

use super::*;

/// A record of the key foo without flags or expiry.
fn foo(version: u8, value: &[u8]) -> [u8; 128] {
    let lengths = [1, 3, value.len() as u8, 0];
    record(&[(0, &lengths), (8, &[version]), (24, b"foo"), (48, value)])
}

#[test]
fn rows_p1_to_p11() {
    let stale = "*3\r\n+ERR update version is stale\r\n$3\r\n400\r\n:101\r\n";
    let min_max = "-ERR min or max is specified, but not valid\r\n";
    let empty = [0; 128];
    let mut store = Store::new(1);
    for (text, number, reply, after) in [
        ("EXSET foo 100", 0, "+OK\r\n", foo(1, b"100")),
        ("EXSET foo 200 VER 1", 0, "+OK\r\n", foo(2, b"200")),
        ("EXSET foo 300 VER 1", 12, "-ERR update version is stale\r\n", foo(2, b"200")),
        ("EXINCRBY foo 100", 0, ":300\r\n", foo(3, b"300")),
        ("EXSETVER foo 100", 0, ":1\r\n", foo(100, b"300")),
        ("EXCAS foo 400 100", 0, "*3\r\n+OK\r\n+\r\n:101\r\n", foo(101, b"400")),
        ("EXCAS foo 500 100", 0, stale, foo(101, b"400")),
        ("EXSET bar x", 17, "-ERR table is full\r\n", foo(101, b"400")),
        ("EXINCRBY foo 1 MIN 500 MAX 100", 11, min_max, foo(101, b"400")),
        ("EXCAD foo 101", 0, ":1\r\n", empty),
        ("EXSET foo x XX", 0, "$-1\r\n", empty),
    ] {
        store.expect(text, number, reply);
        assert_eq!(store.record(0), after, "{text}");
    }
}

#[test]
fn expiry_1000_is_live_at_999_and_absent_at_1000() {
    let foo =
        record(&[(0, &[1, 3, 3, 0]), (8, &[1]), (16, &[0xe8, 3]), (24, b"foo"), (48, b"bar")]);
    let mut store = Store::with(&[foo]);
    store.time = 999;
    store.answer("EXGET foo", "*2\r\n$3\r\nbar\r\n:1\r\n");
    store.time = 1000;
    store.answer("EXGET foo", "$-1\r\n");
    // Reading does not clear it: a clock set back shows it again.
    assert_eq!(store.record(0), foo);
    store.time = 999;
    store.answer("EXGET foo", "*2\r\n$3\r\nbar\r\n:1\r\n");
}

#[test]
fn the_largest_number_plus_one_is_14() {
    let mut store = Store::new(1);
    store.answer("EXSET foo 9223372036854775807", "+OK\r\n");
    store.expect("EXINCRBY foo 1", 14, "-ERR increment or decrement would overflow\r\n");
    store.answer("EXINCRBY foo 0", ":9223372036854775807\r\n");
    store.answer("EXINCRBY foo -1", ":9223372036854775806\r\n");
    store.answer("EXSET foo -9223372036854775808", "+OK\r\n");
    store.refuse("EXINCRBY foo -1", 14);
    store.answer("EXINCRBY foo 9223372036854775807", ":-1\r\n");
}

#[test]
fn at_the_top_version_exappend_is_15_but_abs_5_is_accepted() {
    let mut store = Store::new(1);
    store.answer("EXSET foo bar ABS 9223372036854775807", "+OK\r\n");
    store.expect("EXAPPEND foo x", 15, "-ERR version would overflow\r\n");
    store.answer("EXAPPEND foo x ABS 5", ":5\r\n");
    let after = record(&[(0, &[1, 3, 4, 0]), (8, &[5]), (24, b"foo"), (48, b"barx")]);
    assert_eq!(store.record(0), after);
}

#[test]
fn a_value_of_64_plus_one_is_16_and_plus_none_is_accepted() {
    let long = "v".repeat(64);
    let mut store = Store::new(1);
    store.answer(&format!("EXSET foo {long}"), "+OK\r\n");
    store.expect("EXAPPEND foo x", 16, "-ERR string exceeds maximum allowed size\r\n");
    store.expect("EXPREPEND foo x", 16, "-ERR string exceeds maximum allowed size\r\n");
    assert_eq!(store.send(&command(&[b"EXAPPEND", b"foo", b""])), (0, b":2\r\n".to_vec()));
    assert_eq!(store.send(&command(&[b"EXPREPEND", b"foo", b""])), (0, b":3\r\n".to_vec()));
    let after = record(&[(0, &[1, 3, 64, 0]), (8, &[3]), (24, b"foo"), (48, long.as_bytes())]);
    assert_eq!(store.record(0), after);
}

#[test]
fn min_5_max_5_is_valid() {
    let mut store = Store::new(1);
    store.answer("EXINCRBY foo 5 MIN 5 MAX 5", ":5\r\n");
    store.refuse("EXINCRBY foo 1 MIN 5 MAX 5", 14);
    store.refuse("EXINCRBY foo 1 MIN 6 MAX 5", 11);
}

/// Document 01 has 9 for both; document 02 lets them pass.
#[test]
fn minus_zero_and_leading_zeros_are_numbers() {
    let mut store = Store::new(1);
    store.answer("EXINCRBY foo -0", ":0\r\n");
    assert_eq!(store.record(0), foo(1, b"0"));
    store.answer("EXINCRBY foo 007", ":7\r\n");
    assert_eq!(store.record(0), foo(2, b"7"));
}

#[test]
fn p8_on_an_expired_foo_succeeds() {
    let foo =
        record(&[(0, &[1, 3, 3, 0, 7]), (8, &[101]), (16, &[0xe8, 3]), (24, b"foo"), (48, b"400")]);
    let mut store = Store::with(&[foo]);
    store.answer("EXSET bar x", "+OK\r\n");
    let bar = record(&[(0, &[1, 3, 1, 0]), (8, &[1]), (24, b"bar"), (48, b"x")]);
    assert_eq!(store.record(0), bar);
}
