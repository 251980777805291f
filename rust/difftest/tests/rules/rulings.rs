//! The rulings on points that the rules leave open, one test for each; the
//! ninth is about the current value and stands with its tests.

use super::*;

#[test]
fn ruling_1_a_long_increment_is_no_number_rather_than_a_long_value() {
    let mut store = Store::new(1);
    store.refuse(&format!("EXINCRBY k {}", "1".repeat(65)), 9);
    store.refuse(&format!("EXINCRBY k {}", "x".repeat(100)), 9);
    store.refuse(&format!("EXSETVER k {}", "1".repeat(65)), 9);
    store.refuse(&format!("EXCAS k v {}", "1".repeat(65)), 9);
    store.refuse(&format!("EXCAD k {}", "1".repeat(65)), 9);
    store.refuse(&format!("EXSET k {}", "1".repeat(65)), 7);
}

#[test]
fn ruling_2_a_time_number_is_a_signed_number() {
    let mut store = Store::new(1);
    for word in ["EX", "PX", "EXAT", "PXAT"] {
        store.refuse(&format!("EXSET k v {word} -5"), 10);
        store.refuse(&format!("EXSET k v {word} 0"), 10);
        store.refuse(&format!("EXSET k v {word} -9223372036854775808"), 10);
        store.refuse(&format!("EXSET k v {word} 9223372036854775807"), 10);
        store.refuse(&format!("EXSET k v {word} 9223372036854775808"), 9);
        store.refuse(&format!("EXSET k v {word} -9223372036854775809"), 9);
    }
}

#[test]
fn ruling_3_the_order_of_the_numbers_holds_over_the_whole_command() {
    let mut store = Store::new(1);
    // 8 before 9
    store.refuse("EXINCRBY k x NOPE", 8);
    store.refuse("EXINCRBY k x EX", 8);
    store.refuse("EXSET k v EX x FLAGS y NX XX", 8);
    store.refuse("EXCAS k v x KEEPTTL KEEPTTL", 8);
    // 9 before 10
    store.refuse("EXSET k v EX 0 FLAGS x", 9);
    store.refuse("EXSET k v FLAGS x EX 0", 9);
    store.refuse("EXINCRBY k x EX 0", 9);
    store.refuse("EXCAS k v x EX 0", 9);
    // 10 before 11
    store.refuse("EXINCRBY k 1 MIN 5 MAX 4 EX 0", 10);
    store.refuse("EXINCRBY k 1 MIN 5 MAX x EX 0", 9);
    // 10 and 11 before every answer on an absent key
    store.refuse("EXSET k v XX EX 0", 10);
    store.refuse("EXINCRBY k 1 XX MIN 5 MAX 4", 11);
    store.refuse("EXGAE k EX 0", 10);
    store.refuse("EXCAS k v 1 PX 0", 10);
    store.answer("EXSET k v XX", "$-1\r\n");
    store.answer("EXINCRBY k 1 XX MIN 4 MAX 5", "$-1\r\n");
    // and on a live one
    store.answer("EXSET k v", "+OK\r\n");
    store.refuse("EXSET k v NX EX 0", 10);
    store.refuse("EXINCRBY k 1 NX MIN 5 MAX 4", 11);
    store.refuse("EXCAS k w 7 PX 0", 10);
    // those answers before 12 and 13
    store.answer("EXSET k v NX VER 9", "$-1\r\n");
    store.answer("EXINCRBY k 1 NX VER 9", "$-1\r\n");
    // 12 before 13, 13 before 14 and 15
    store.refuse("EXINCRBY k 1 VER 9", 12);
    store.refuse("EXINCRBY k 1 MIN 5", 13);
    store.answer(&format!("EXSETVER k {TOP_VERSION}"), ":1\r\n");
    store.refuse("EXINCRBY k 1", 13);
}

#[test]
fn the_first_numbers_come_in_order() {
    let good = [0; 128];
    let bad = [2; 128];
    let late = TOP_TIME + 1;
    // A call with all faults from `first` on.
    let number = |first: u32| {
        let mut table = if first <= 1 { bad } else { good };
        let time = if first <= 2 { late } else { 0 };
        let mut reply = vec![0; if first <= 3 { 127 } else { 128 }];
        let text = match first {
            0..=4 => b"*1\r\n$3\r\nNO\r\n".to_vec(),
            5 => line("NOPE"),
            6 => line("DEL k k"),
            7 => line(&format!("EXSET {} v NOPE", "k".repeat(25))),
            8 => line("EXSET k v EX x NOPE"),
            _ => line("EXINCRBY k x EX 0 MIN 2 MAX 1 XX"),
        };
        let before = (table, reply.clone());
        let answer = call(&mut table, time, &text, &mut reply);
        if answer.number <= 4 {
            assert_eq!(answer.len, 0);
            assert_eq!((table, reply), before);
        }
        answer.number
    };
    for first in 1..=9 {
        assert_eq!(number(first), first);
    }
}

#[test]
fn ruling_4_fixed_words() {
    let mut store = Store::new(1);
    for (name, fixed) in [
        ("EXSET", 3),
        ("EXGET", 2),
        ("EXSETVER", 3),
        ("EXINCRBY", 3),
        ("EXCAS", 4),
        ("EXCAD", 3),
        ("EXAPPEND", 3),
        ("EXPREPEND", 3),
        ("EXGAE", 2),
        ("DEL", 2),
        ("BITFIELD", 2),
    ] {
        let exact = matches!(name, "EXSETVER" | "EXCAD" | "DEL");
        for count in 1..=16 {
            let words = [vec![name], vec!["1"; count - 1]].concat().join(" ");
            let (number, _) = store.send(&line(&words));
            let expected = match count {
                _ if count < fixed || (exact && count > fixed) => 6,
                // The key 1 is absent and stays so: every write is cleared below.
                _ if count == fixed && name != "EXGAE" => 0,
                _ => 8,
            };
            assert_eq!(number, expected, "{words}");
            store.table.fill(0);
        }
    }
    // 6 before 7
    store.refuse_words(&[b"EXSET", b""], 6);
    store.refuse_words(&[b"DEL", b"", b""], 6);
    store.refuse("EXGET k NOPE", 8);
    store.refuse("EXGET k WITHFLAGS WITHFLAGS", 8);
    store.refuse("EXCAS k v 1 KEEPTTL EX 5", 8);
    store.refuse("EXCAS k v 1 EX 5 KEEPTTL", 8);
    store.refuse("EXCAS k v 1 KEEPTTL KEEPTTL", 8);
    store.refuse("EXSET k v KEEPTTL", 8);
}

#[test]
fn ruling_5_the_word_after_a_numbered_option_is_its_number() {
    let mut store = Store::new(1);
    store.refuse("EXSET k v EX EX 5", 8);
    store.refuse("EXSET k v EX NX NX", 9);
    store.refuse("EXSET k v VER ABS", 9);
    store.refuse("EXSET k v FLAGS", 8);
    store.refuse("EXINCRBY k 1 MIN MAX", 9);
    store.refuse("EXINCRBY k 1 MIN 1 MAX", 8);
}

#[test]
fn ruling_6_nil_and_the_form_of_a_command() {
    let mut store = Store::new(1);
    store.answer("EXGET k", "$-1\r\n");
    store.answer("EXGAE k EX 1", "$-1\r\n");
    let forms: [&[u8]; 14] = [
        b"", b"*0\r\n", b"*-1\r\n", b"$-1\r\n", b"*1\r\n$-1\r\n", b"*2\r\n$5\r\nEXGET\r\n$-1\r\n",
        b"*02\r\n$5\r\nEXGET\r\n$1\r\nk\r\n", b"*2\r\n$05\r\nEXGET\r\n$1\r\nk\r\n",
        b"*+2\r\n$5\r\nEXGET\r\n$1\r\nk\r\n", b"*2\r\n$+5\r\nEXGET\r\n$1\r\nk\r\n",
        b"*2\r\n$5\r\nEXGET\r\n$00\r\n\r\n", b"*2\r\n$5\r\nEXGET\r\n$1\r\nk\r\n\r\n",
        b"EXGET k\r\n", b"*2\n$5\nEXGET\n$1\nk\n",
    ];
    for form in forms {
        assert_eq!(store.send(form), (4, vec![]), "{}", form.escape_ascii());
    }
}

#[test]
fn ruling_6_sizes_and_odd_words() {
    let mut store = Store::new(1);
    // 512 bytes are read, 513 are not.
    let long = |total: usize| {
        let bytes = command(&[b"EXGET", b"k", &vec![b'x'; total - 30]]);
        assert_eq!(bytes.len(), total);
        bytes
    };
    assert_eq!(store.send(&long(512)), (8, error(8).into()));
    assert_eq!(store.send(&long(513)), (4, vec![]));

    // 16 words are read, 17 are not.
    assert_eq!(store.send(&command(&[&b"EXGET"[..]; 16])).0, 8);
    assert_eq!(store.send(&command(&[&b"EXGET"[..]; 17])).0, 4);

    // An empty word and one with CR LF are words.
    assert_eq!(store.send(&command(&[b""])), (5, error(5).into()));
    assert_eq!(store.send(&command(&[b"", b"k"])), (5, error(5).into()));
    assert_eq!(store.send(&command(&[b"EXGET", b""])), (7, error(7).into()));
    assert_eq!(store.send(&command(&[b"EXSET", b"\r\n", b"$1\r\na\r\n"])).0, 0);
    assert_eq!(
        store.send(&command(&[b"EXGET", b"\r\n"])),
        (0, b"*2\r\n$7\r\n$1\r\na\r\n\r\n:1\r\n".to_vec())
    );
    assert_eq!(store.send(&command(&[b"EXSET", b"\r\n", b""])).0, 0);
    assert_eq!(store.send(&command(&[b"EXGET", b"\r\n"])), (0, b"*2\r\n$0\r\n\r\n:2\r\n".to_vec()));
}

#[test]
fn ruling_7_stored_values_that_are_no_number() {
    let mut store = Store::new(1);
    for value in [
        "9223372036854775808", "-9223372036854775809", "18446744073709551616",
        "000000000000000000007", "1x", "x", "-", "+", "+-5",
    ] {
        store.answer(&format!("EXSET k {value}"), "+OK\r\n");
        store.refuse("EXINCRBY k 1", 13);
    }
    assert_eq!(store.send(&command(&[b"EXSET", b"k", b""])).0, 0);
    store.refuse("EXINCRBY k 1", 13);
    store.answer(&format!("EXSET k {}", "1".repeat(64)), "+OK\r\n");
    store.refuse("EXINCRBY k 1", 13);
}

#[test]
fn ruling_8_where_15_arises() {
    let mut store = Store::new(1);
    store.answer(&format!("EXSET k 5 ABS {TOP_VERSION}"), "+OK\r\n");
    let writes = [
        "EXSET k 5", "EXINCRBY k 1", "EXAPPEND k x", "EXPREPEND k x",
        "EXCAS k 5 9223372036854775807", "EXCAS k 5 9223372036854775807 KEEPTTL",
        "EXSET k 5 VER 9223372036854775807", "EXINCRBY k 1 VER 9223372036854775807",
    ];
    for text in writes {
        store.refuse(text, 15);
    }
    // 14 before it, 16 after it
    store.refuse("EXINCRBY k 9223372036854775807", 14);
    store.refuse("EXINCRBY k 1 MIN 10", 14);
    let long = "v".repeat(64);
    store.refuse(&format!("EXAPPEND k {long}"), 15);
    store.refuse(&format!("EXAPPEND k {long} ABS 3"), 16);
    // never here
    store.answer(
        "EXCAS k 6 1",
        "*3\r\n+ERR update version is stale\r\n$1\r\n5\r\n:9223372036854775807\r\n",
    );
    store.answer("EXGAE k PXAT 5000", "*3\r\n$1\r\n5\r\n:9223372036854775807\r\n:0\r\n");
    store.answer(&format!("EXSETVER k {TOP_VERSION}"), ":1\r\n");
    store.answer("EXSET k 5 ABS 7", "+OK\r\n");
    store.answer(&format!("EXSETVER k {TOP_VERSION}"), ":1\r\n");
    store.answer("EXINCRBY k 1 ABS 7 WITHVERSION", "*2\r\n:6\r\n:7\r\n");
    store.answer(&format!("EXSET k 5 ABS {TOP_VERSION} PXAT 1"), "+OK\r\n");
    store.answer("EXSET k 5 WITHVERSION", ":1\r\n");
    // the last rise that is left
    store.answer("EXSETVER k 9223372036854775806", ":1\r\n");
    store.answer("EXSET k 5 WITHVERSION", ":9223372036854775807\r\n");
}

#[test]
fn ruling_10_keys_with_their_lengths_and_no_wrapping() {
    let mut store = Store::new(3);
    assert_eq!(store.send(&command(&[b"EXSET", b"a", b"1"])).0, 0);
    assert_eq!(store.send(&command(&[b"EXSET", b"a\0", b"2"])).0, 0);
    assert_eq!(store.send(&command(&[b"EXSET", b"a\0\0", b"3"])).0, 0);
    assert_eq!(store.send(&command(&[b"EXGET", b"a"])).1, b"*2\r\n$1\r\n1\r\n:1\r\n");
    assert_eq!(store.send(&command(&[b"EXGET", b"a\0"])).1, b"*2\r\n$1\r\n2\r\n:1\r\n");
    assert_eq!(store.send(&command(&[b"EXGET", b"a\0\0"])).1, b"*2\r\n$1\r\n3\r\n:1\r\n");

    // 2^64 + 3 and 2^32 + 3, as the length of a word of three bytes
    for length in ["18446744073709551619", "4294967299", "65539", "259"] {
        let text = format!("*2\r\n$5\r\nEXGET\r\n${length}\r\nfoo\r\n");
        assert_eq!(store.send(text.as_bytes()), (4, vec![]));
    }
    // 2^64 + 2 words
    assert_eq!(store.send(b"*18446744073709551618\r\n$5\r\nEXGET\r\n$1\r\na\r\n"), (4, vec![]));

    // 2^64 / 1000 seconds, rounded up, wrap to 384 milliseconds if unchecked.
    store.refuse("EXSET a v EXAT 18446744073709552", 10);
    store.refuse("EXSET a v EX 18446744073709552", 10);
    store.refuse("EXSET a v PX 9223372036854775807", 10);
    store.time = TOP_TIME;
    store.refuse("EXSET a v PX 9223372036854775807", 10);
    store.refuse("EXSET a v EX 9223372036854775807", 10);
    store.refuse("EXSET a v PX 1", 10);
    store.answer("EXSET a v PXAT 4611686018427387904", "+OK\r\n");
    store.answer("EXSET a v EXAT 4611686018427387", "+OK\r\n");
    store.refuse("EXSET a v EXAT 4611686018427388", 10);
    store.refuse("EXSET a v PXAT 4611686018427387905", 10);
}

#[test]
fn ruling_11_the_longest_reply_has_127_bytes() {
    let mut store = Store::new(1);
    let long = "v".repeat(64);
    store.answer(&format!("EXSET k {long} ABS {TOP_VERSION}"), "+OK\r\n");
    let text = line("EXCAS k v 0");
    let mut reply = [0xee; 128];
    let answer = call(&mut store.table, 0, &text, &mut reply);
    assert_eq!(answer, Answer { number: 0, len: 127 });
    let expected =
        format!("*3\r\n+ERR update version is stale\r\n$64\r\n{long}\r\n:9223372036854775807\r\n");
    assert_eq!(&reply[..127], expected.as_bytes());
    assert_eq!(reply[127], 0xee);
    // A byte less of room is refused, whatever the reply's length.
    assert_eq!(call(&mut store.table, 0, &text, &mut reply[..127]), Answer { number: 3, len: 0 });
    assert_eq!(
        call(&mut store.table, 0, &line("DEL x"), &mut reply[..127]),
        Answer { number: 3, len: 0 }
    );
}

#[test]
fn ruling_12_what_is_created_cleared_and_kept() {
    let mut store = Store::new(1);
    // EXSETVER creates nothing.
    store.answer("EXSETVER k 7", ":0\r\n");
    assert_eq!(store.record(0), [0; 128]);

    // EXAPPEND of no bytes is a write.
    assert_eq!(store.send(&command(&[b"EXAPPEND", b"k", b""])), (0, b":1\r\n".to_vec()));
    assert_eq!(store.record(0), record(&[(0, &[1, 1]), (8, &[1]), (24, b"k")]));
    assert_eq!(store.send(&command(&[b"EXAPPEND", b"k", b""])), (0, b":2\r\n".to_vec()));
    assert_eq!(store.record(0), record(&[(0, &[1, 1]), (8, &[2]), (24, b"k")]));

    // EXCAS keeps flags and, without KEEPTTL, clears the expiry.
    store.answer("EXSET k v FLAGS 258 PXAT 5000", "+OK\r\n");
    let set =
        record(&[(0, &[1, 1, 1, 0, 2, 1]), (8, &[3]), (16, &[0x88, 0x13]), (24, b"k"), (48, b"v")]);
    assert_eq!(store.record(0), set);
    store.answer("EXCAS k w 3 KEEPTTL", "*3\r\n+OK\r\n+\r\n:4\r\n");
    let kept =
        record(&[(0, &[1, 1, 1, 0, 2, 1]), (8, &[4]), (16, &[0x88, 0x13]), (24, b"k"), (48, b"w")]);
    assert_eq!(store.record(0), kept);
    store.answer("EXCAS k w 4", "*3\r\n+OK\r\n+\r\n:5\r\n");
    let cleared = record(&[(0, &[1, 1, 1, 0, 2, 1]), (8, &[5]), (24, b"k"), (48, b"w")]);
    assert_eq!(store.record(0), cleared);

    // EXSET clears flags and expiry that are not given.
    store.answer("EXGAE k PXAT 5000", "*3\r\n$1\r\nw\r\n:5\r\n:258\r\n");
    store.answer("EXSET k w", "+OK\r\n");
    assert_eq!(store.record(0), record(&[(0, &[1, 1, 1]), (8, &[6]), (24, b"k"), (48, b"w")]));
}
