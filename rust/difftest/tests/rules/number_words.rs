//! Numbers in commands and in stored texts: an optional plus or minus and one to
//! twenty digits. What is written has the short form.

use super::*;

/// Texts that say a number, and the number's short form.
const NUMBERS: [(&str, &str); 19] = [
    ("+5", "5"),
    ("007", "7"),
    ("+007", "7"),
    ("-007", "-7"),
    ("-0", "0"),
    ("+0", "0"),
    ("00", "0"),
    ("-000", "0"),
    ("010", "10"),
    ("+0255", "255"),
    ("00000000000000000005", "5"),
    ("+00000000000000000005", "5"),
    ("-00000000000000000005", "-5"),
    ("-00000000000000000000", "0"),
    ("00000000004294967295", "4294967295"),
    ("+00000000004294967296", "4294967296"),
    ("09223372036854775807", "9223372036854775807"),
    ("+9223372036854775807", "9223372036854775807"),
    ("-09223372036854775808", "-9223372036854775808"),
];

/// Texts that say none: a sign alone, two, or one elsewhere; no byte, or another;
/// a blank; twenty-one digits; twenty that do not fit, of which some would wrap to
/// 0, 5 and -1.
const NO_NUMBERS: [&str; 40] = [
    "+", "-", "+-5", "-+5", "--5", "++5", "+-", "--0", "5+", "5-", "0-", "", "5#", "0x5", "5.",
    "1_000", "5\0", " 5", "5 ", "+ 5", "- 5", " +5", "0 7", " ", "5\t", "000000000000000000005",
    "+000000000000000000005", "-000000000000000000005", "000000000000000000000",
    "-000000000000000000000", "99999999999999999999", "+99999999999999999999",
    "-99999999999999999999", "18446744073709551616", "18446744073709551621",
    "+18446744073709551621", "-18446744073709551621", "18446744073709551615",
    "09223372036854775808", "-09223372036854775809",
];

/// A command for each place of a number word, which is N here.
const COMMANDS: [&str; 48] = [
    "EXSETVER k N", "EXCAD k N", "EXCAS k v N", "EXCAS k v N KEEPTTL", "EXINCRBY k N",
    "EXINCRBY other N", "EXINCRBY k N NONEGATIVE WITHVERSION", "EXSET k v VER N",
    "EXSET k v ABS N WITHVERSION", "EXSET k v FLAGS N", "EXSET k v EX N", "EXSET k v PX N",
    "EXSET k v EXAT N", "EXSET k v PXAT N", "EXINCRBY k 1 VER N", "EXINCRBY k 1 ABS N",
    "EXINCRBY k 1 MIN N", "EXINCRBY k 1 MAX N", "EXINCRBY k 1 EX N", "EXINCRBY k 1 PX N",
    "EXINCRBY k 1 EXAT N", "EXINCRBY k 1 PXAT N", "EXAPPEND k v VER N", "EXAPPEND k v ABS N",
    "EXPREPEND k v VER N", "EXPREPEND k v ABS N", "EXCAS k v 7 EX N", "EXCAS k v 7 PX N",
    "EXCAS k v 7 EXAT N", "EXCAS k v 7 PXAT N", "EXGAE k EX N", "EXGAE k PX N", "EXGAE k EXAT N",
    "EXGAE k PXAT N", "BITFIELD k GET u8 N", "BITFIELD k GET u8 #N", "BITFIELD k SET u8 N 1",
    "BITFIELD k SET u8 #N 1", "BITFIELD k INCRBY u8 N 1", "BITFIELD k INCRBY u8 #N 1",
    "BITFIELD k SET u8 0 N", "BITFIELD k SET i8 0 N", "BITFIELD k SET i64 0 N",
    "BITFIELD k SET u63 0 N", "BITFIELD k INCRBY u8 0 N", "BITFIELD k INCRBY i64 0 N",
    "BITFIELD k OVERFLOW SAT INCRBY i8 0 N", "BITFIELD k OVERFLOW FAIL INCRBY u8 0 N",
];

/// The record of k with this version and value.
fn k(version: u8, value: &str) -> [u8; 128] {
    let head = [1, 1, value.len() as u8];
    record(&[(0, &head), (8, &[version]), (24, b"k"), (48, value.as_bytes())])
}

/// A table where k has the value 5 and version 7.
fn store() -> Store {
    Store::with(&[k(7, "5"), [0; 128]])
}

/// The command with this text in the place of its number.
fn with_number(line: &str, text: &str) -> Vec<u8> {
    let word = |word: &str| match word {
        "N" => text.to_string(),
        "#N" => format!("#{text}"),
        word => word.to_string(),
    };
    encode(&line.split(' ').map(word).collect::<Vec<_>>())
}

#[test]
fn every_form_says_its_number_in_every_place() {
    for line in COMMANDS {
        for (text, short) in NUMBERS {
            let (mut one, mut other) = (store(), store());
            let answer = one.send(&with_number(line, text));
            assert_eq!(answer, other.send(&with_number(line, short)), "{line}: {text}");
            assert_eq!(one.table, other.table, "{line}: {text}");
        }
    }
}

#[test]
fn other_texts_are_9_in_every_place() {
    let mut store = store();
    for line in COMMANDS {
        for text in NO_NUMBERS {
            let answer = store.send(&with_number(line, text));
            assert_eq!(answer, (9, error(9).into()), "{line}: {text:?}");
        }
    }
}

#[test]
fn exincrby_counts_by_every_form() {
    let mut store = Store::new(1);
    for (text, sum) in [
        ("+5", "5"),
        ("007", "12"),
        ("-0", "12"),
        ("-007", "5"),
        ("00000000000000000005", "10"),
        ("-00000000000000000006", "4"),
        ("+00000000000000000096", "100"),
        ("-0000", "100"),
    ] {
        store.answer(&format!("EXINCRBY k {text}"), &format!(":{sum}\r\n"));
        let version = store.record(0)[8];
        assert_eq!(store.record(0), k(version, sum), "{text}");
    }
    assert_eq!(store.record(0)[8], 8);
}

#[test]
fn a_time_of_0_is_10_in_every_form() {
    let mut store = store();
    for word in ["EX", "PX", "EXAT", "PXAT"] {
        for text in ["0", "-0", "+0", "00", "-00000000000000000000", "-007"] {
            store.refuse(&format!("EXSET k v {word} {text}"), 10);
            store.refuse(&format!("EXINCRBY k 1 {word} {text}"), 10);
            store.refuse(&format!("EXCAS k v 7 {word} {text}"), 10);
            store.refuse(&format!("EXGAE k {word} {text}"), 10);
        }
    }
    store.answer("EXSET k v PXAT +002000", "+OK\r\n");
    assert_eq!(store.record(0)[16..18], 2000u16.to_le_bytes());
}

#[test]
fn versions_and_flags() {
    let mut store = store();
    store.answer("EXSET k v ABS -0 FLAGS 007 WITHVERSION", ":0\r\n");
    store.answer("EXGET k WITHFLAGS", "*3\r\n$1\r\nv\r\n:0\r\n:7\r\n");
    store.answer("EXSET k v VER -0 FLAGS -0 WITHVERSION", ":1\r\n");
    store.refuse("EXSET k v VER +002", 12);
    store.answer("EXSETVER k +009", ":1\r\n");
    store.answer("EXCAS k w 008", "*3\r\n+ERR update version is stale\r\n$1\r\nv\r\n:9\r\n");
    store.answer("EXCAS k w 00000000000000000009", "*3\r\n+OK\r\n+\r\n:10\r\n");
    store.answer("EXSETVER k -0", ":1\r\n");
    store.answer("EXCAD k +1", ":0\r\n");
    store.answer("EXCAD k -0", ":1\r\n");
    for text in ["-1", "-007", "-00000000000000000001"] {
        store.refuse(&format!("EXCAS k v {text}"), 9);
        store.refuse(&format!("EXSET k v ABS {text}"), 9);
        store.refuse(&format!("EXSET k v FLAGS {text}"), 9);
    }
    store.refuse("EXSET k v FLAGS 00004294967296", 9);
}

/// A text with a sign or zeros is kept as it is until EXINCRBY writes its sum, in
/// the short form.
#[test]
fn stored_texts_of_every_form() {
    for (stored, by, sum) in [
        ("007", "1", "8"),
        ("+5", "-0", "5"),
        ("-0", "0", "0"),
        ("-007", "+7", "0"),
        ("+0", "-000", "0"),
        ("00000000000000000005", "+001", "6"),
        ("+00000000000000000005", "0", "5"),
        ("-00000000000000000005", "0", "-5"),
        ("09223372036854775807", "-0", "9223372036854775807"),
        ("-09223372036854775808", "+0", "-9223372036854775808"),
    ] {
        let mut store = Store::with(&[k(1, stored)]);
        let len = stored.len();
        store.answer("EXGET k", &format!("*2\r\n${len}\r\n{stored}\r\n:1\r\n"));
        store.answer(&format!("EXINCRBY k {by}"), &format!(":{sum}\r\n"));
        assert_eq!(store.record(0), k(2, sum), "{stored} {by}");
    }
    Store::with(&[k(1, "+9223372036854775807")]).refuse("EXINCRBY k +1", 14);
    Store::with(&[k(1, "-09223372036854775808")]).refuse("EXINCRBY k -01", 14);
}

#[test]
fn other_stored_texts_are_13() {
    for text in NO_NUMBERS {
        let mut store = Store::with(&[k(1, text)]);
        store.refuse("EXINCRBY k 0", 13);
        // 9 comes first.
        store.refuse("EXINCRBY k +", 9);
    }
}

/// Offsets after # have every form, and nothing stands before the #.
#[test]
fn offsets_in_fields() {
    let value: String = (b'a'..=b'p').map(char::from).collect();
    let mut store = Store::with(&[k(1, &value)]);
    for (offset, byte) in [
        ("#+5", b'f'),
        ("#007", b'h'),
        ("#-0", b'a'),
        ("#00000000000000000009", b'j'),
        ("#+00000000000000000000", b'a'),
        ("+8", b'b'),
        ("0016", b'c'),
        ("-0", b'a'),
    ] {
        store.answer(&format!("BITFIELD k GET u8 {offset}"), &format!("*1\r\n:{byte}\r\n"));
    }
    for offset in ["+#5", "-#0", "0#5", "#+", "#-", "#+-5", "#-1", "##5", "#000000000000000000005"]
    {
        store.refuse(&format!("BITFIELD k GET u8 {offset}"), 9);
    }
}

/// BITFIELD's types have neither sign nor zeros.
#[test]
fn types_stay_strict() {
    let mut store = store();
    for kind in ["u+8", "u08", "+u8", "i+8", "i08", "-i8", "u-8", "0u8", "u00000000000000000008"] {
        store.refuse(&format!("BITFIELD k GET {kind} 0"), 9);
        store.refuse(&format!("BITFIELD k SET {kind} 0 0"), 9);
        store.refuse(&format!("BITFIELD k INCRBY {kind} 0 0"), 9);
    }
}

/// Nor have the lengths and counts of RESP2.
#[test]
fn lengths_stay_strict() {
    let mut store = store();
    for length in ["+1", "01", "001", "-1", "00000000000000000001", "+01"] {
        let text = format!("*2\r\n$5\r\nEXGET\r\n${length}\r\nk\r\n");
        assert_eq!(store.send(text.as_bytes()), (4, vec![]), "{length}");
    }
    for length in ["$+3", "$003", "$03"] {
        let text = format!("*2\r\n{length}\r\nDEL\r\n$1\r\nk\r\n");
        assert_eq!(store.send(text.as_bytes()), (4, vec![]), "{length}");
    }
    for count in ["+2", "02", "002", "-2", "00000000000000000002"] {
        let text = format!("*{count}\r\n$5\r\nEXGET\r\n$1\r\nk\r\n");
        assert_eq!(store.send(text.as_bytes()), (4, vec![]), "{count}");
    }
    for length in ["-0", "+0", "00"] {
        let text = format!("*2\r\n$5\r\nEXGET\r\n${length}\r\n\r\n");
        assert_eq!(store.send(text.as_bytes()), (4, vec![]), "{length}");
        let text = format!("*{length}\r\n");
        assert_eq!(store.send(text.as_bytes()), (4, vec![]), "{length}");
    }
}
