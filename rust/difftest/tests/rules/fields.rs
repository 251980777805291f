//! BITFIELD: rows computed by hand.

use super::*;

/// The record of k with this version and value, with flags 6 and expiry 5000.
fn k(version: u8, value: &[u8]) -> [u8; 128] {
    let head = [1, 1, value.len() as u8, 0, 6];
    record(&[(0, &head), (8, &[version]), (16, &[0x88, 0x13]), (24, b"k"), (48, value)])
}

/// The array of these answers, numbers and nil.
fn array(answers: &str) -> String {
    let items: Vec<String> = answers
        .split_whitespace()
        .map(|answer| match answer {
            "nil" => "$-1\r\n".to_string(),
            number => format!(":{number}\r\n"),
        })
        .collect();
    format!("*{}\r\n{}", items.len(), items.concat())
}

impl Store {
    /// Sends subcommands for k and expects these answers.
    #[track_caller]
    fn fields(&mut self, text: &str, answers: &str) {
        self.answer(&format!("BITFIELD k {text}"), &array(answers));
    }

    /// Sends subcommands for k and expects this refusal.
    #[track_caller]
    fn refuse_fields(&mut self, text: &str, number: u32) {
        self.refuse(&format!("BITFIELD k {text}"), number);
    }
}

/// On a value the subcommands give these answers and leave another value.
#[track_caller]
fn writes(value: &[u8], text: &str, answers: &str, after: &[u8]) {
    let mut store = Store::with(&[k(4, value)]);
    store.fields(text, answers);
    assert_eq!(store.record(0), k(5, after), "{text}");
}

/// On a value the subcommands give these answers and write nothing.
#[track_caller]
fn keeps(value: &[u8], text: &str, answers: &str) {
    let mut store = Store::with(&[k(4, value)]);
    store.fields(text, answers);
    assert_eq!(store.record(0), k(4, value), "{text}");
}

#[test]
fn get() {
    // bits 1010 0110 1100 0000
    let value = [0xa6, 0xc0];
    keeps(&value, "GET u8 0 GET i8 0 GET u16 0 GET i16 0", "166 -90 42688 -22848");
    keeps(&value, "GET u3 0 GET i3 0 GET u8 4 GET i8 4", "5 -3 108 108");
    keeps(&value, "GET u5 5 GET i5 5 GET u1 0 GET i1 0", "27 -5 1 -1");
    keeps(&value, "GET u1 1 GET i1 1 GET u1 15 GET u4 #2", "0 0 0 12");
    keeps(b"", "", "");
    keeps(b"abc", "", "");
    keeps(b"abc", "get u8 #1", "98");
}

#[test]
fn get_past_the_end() {
    keeps(b"ab", "GET u8 12 GET u8 16 GET i8 15 GET u9 8", "32 0 0 196");
    keeps(&[0xff], "GET i8 4 GET u63 7 GET i64 7", "-16 4611686018427387904 -9223372036854775808");
    keeps(&[0xff; 64], "GET u8 505 GET u8 508 GET i8 511 GET i8 512", "254 240 -128 0");
    keeps(&[0xff; 64], "GET u8 4294967295 GET u8 #4294967295 GET i64 #4294967295", "0 0 0");
    // 2^32 / 64 fields of i64 begin at bit 2^32, not at bit 0.
    keeps(&[0xff; 64], "GET i64 #67108864 GET u1 4294967295 GET u32 #134217728", "0 0 0");
}

#[test]
fn set() {
    writes(b"", "SET u8 0 255", "0", &[255]);
    writes(&[255], "SET u4 2 0", "15", &[0xc3]);
    writes(&[0], "SET i4 0 -8", "0", &[0x80]);
    writes(&[0x80], "SET i4 0 7", "-8", &[0x70]);
    writes(&[0], "SET i1 7 -1", "0", &[1]);
    writes(&[1], "SET i1 7 0", "-1", &[0]);
    writes(b"abc", "set u8 #1 65", "98", b"aAc");
    writes(b"abc", "SET i12 6 -1", "1417", &[0x63, 0xff, 0xe3]);
    // The number that stands there is written too.
    writes(&[5], "SET u8 0 5", "5", &[5]);
}

#[test]
fn set_grows_with_zeros() {
    writes(b"", "SET u1 0 1", "0", &[0x80]);
    writes(b"", "SET u1 8 0", "0", &[0, 0]);
    writes(b"a", "SET u8 #3 7", "0", b"a\0\0\x07");
    writes(b"a", "SET u8 7 255", "128", &[0x61, 0xfe]);
    writes(b"", "SET u2 7 3", "0", &[1, 0x80]);
    let (mut zeros, mut ones) = ([0; 64], [0xff; 64]);
    zeros[63] = 9;
    writes(b"", "SET u8 504 9", "0", &zeros);
    zeros[63] = 1;
    writes(b"", "SET u1 511 1", "0", &zeros);
    // Never shorter
    ones[0] = 0x7f;
    writes(&[0xff; 64], "SET u1 0 0", "1", &ones);
}

/// A field of 64 bits that does not begin with a byte is in nine bytes.
#[test]
fn nine_bytes() {
    let (min, max) = ("-9223372036854775808", "9223372036854775807");
    let ones = [0xff; 9];
    let from_1 = [0x7f, 0xff, 0xff, 0xff, 0xff, 0xff, 0xff, 0xff, 0x80];
    writes(b"", "SET i64 1 -1", "0", &from_1);
    writes(&ones, "SET i64 1 0", "-1", &[0x80, 0, 0, 0, 0, 0, 0, 0, 0x7f]);
    writes(b"", &format!("SET i64 1 {min}"), "0", &[0x40, 0, 0, 0, 0, 0, 0, 0, 0]);
    writes(&[0x40], "INCRBY i64 1 -1", max, &[0x3f, 255, 255, 255, 255, 255, 255, 255, 0x80]);
    keeps(&[0x40], "GET i64 1 GET i64 7", &format!("{min} 0"));
    writes(&ones, "INCRBY i64 7 2", "1", &[0xfe, 0, 0, 0, 0, 0, 0, 0, 3]);
    writes(b"", "SET u63 2 1", "0", &[0, 0, 0, 0, 0, 0, 0, 0, 0x80]);
    writes(&ones, "INCRBY u63 7 1", "0", &[0xfe, 0, 0, 0, 0, 0, 0, 0, 3]);
}

#[test]
fn incrby_wraps() {
    writes(&[0x7f], "INCRBY i8 0 1", "-128", &[0x80]);
    writes(&[0x80], "INCRBY i8 0 -1", "127", &[0x7f]);
    writes(&[0xff], "INCRBY u8 0 1", "0", &[0]);
    writes(&[0], "INCRBY u8 0 -1", "255", &[0xff]);
    writes(&[0], "INCRBY u8 0 1000", "232", &[232]);
    writes(&[0], "INCRBY u8 0 -1000", "24", &[24]);
    writes(&[1], "INCRBY u8 0 9223372036854775807", "0", &[0]);
    writes(&[1], "INCRBY u8 0 -9223372036854775808", "1", &[1]);
    writes(&[0], "INCRBY i1 0 1", "-1", &[0x80]);
    writes(&[0x80], "INCRBY i1 0 -1", "0", &[0]);
    writes(&[0x80], "INCRBY u1 0 1", "0", &[0]);
    // Only the field's own bits change.
    writes(&[0xff, 0xff], "INCRBY u4 6 1", "0", &[0xfc, 0x3f]);
    writes(b"", "INCRBY u4 6 -1", "15", &[0x03, 0xc0]);
}

#[test]
fn incrby_by_0_writes() {
    writes(b"", "INCRBY u8 8 0", "0", &[0, 0]);
    writes(b"x", "OVERFLOW FAIL INCRBY i8 0 0", "120", b"x");
    writes(&[0xff], "OVERFLOW SAT INCRBY u8 0 1", "255", &[0xff]);
    writes(&[0xff], "OVERFLOW SAT INCRBY u8 0 0", "255", &[0xff]);
    writes(b"", "OVERFLOW SAT INCRBY u8 8 -1", "0", &[0, 0]);
}

#[test]
fn incrby_saturates() {
    writes(&[0x7f], "OVERFLOW SAT INCRBY i8 0 1", "127", &[0x7f]);
    writes(&[0x80], "OVERFLOW SAT INCRBY i8 0 -1", "-128", &[0x80]);
    writes(&[0x81], "OVERFLOW SAT INCRBY i8 0 -100", "-128", &[0x80]);
    writes(&[250], "OVERFLOW SAT INCRBY u8 0 10", "255", &[255]);
    writes(&[5], "OVERFLOW SAT INCRBY u8 0 -10", "0", &[0]);
    writes(&[5], "OVERFLOW SAT INCRBY u8 0 -9223372036854775808", "0", &[0]);
    writes(&[5], "OVERFLOW SAT INCRBY u8 0 -4", "1", &[1]);
    writes(&[0], "OVERFLOW SAT INCRBY i1 0 1", "0", &[0]);
    writes(&[0x80], "OVERFLOW SAT INCRBY i1 0 -1", "-1", &[0x80]);
    writes(&[0], "OVERFLOW SAT INCRBY i1 0 -5", "-1", &[0x80]);
    writes(&[0x80], "OVERFLOW SAT INCRBY i1 0 5", "0", &[0]);
}

#[test]
fn incrby_fails() {
    keeps(&[0x7f], "OVERFLOW FAIL INCRBY i8 0 1", "nil");
    keeps(&[0x80], "OVERFLOW FAIL INCRBY i8 0 -1", "nil");
    keeps(&[0xff], "OVERFLOW FAIL INCRBY u8 0 1", "nil");
    keeps(&[0], "OVERFLOW FAIL INCRBY u8 0 -1", "nil");
    keeps(&[0], "OVERFLOW FAIL INCRBY i1 0 1", "nil");
    keeps(b"", "OVERFLOW FAIL INCRBY u8 504 256 GET u8 504", "nil 0");
    writes(&[0x7e], "OVERFLOW FAIL INCRBY i8 0 1", "127", &[0x7f]);
    writes(&[0], "OVERFLOW FAIL INCRBY i1 0 -1", "-1", &[0x80]);
    writes(&[1], "OVERFLOW FAIL INCRBY u8 0 -1", "0", &[0]);
}

/// The bytes of a number in 64 bits.
fn bytes(number: u64) -> [u8; 8] {
    number.to_be_bytes()
}

/// i64, whose sums may leave 64 bits.
#[test]
fn i64_at_its_ends() {
    let (min, max) = ("-9223372036854775808", "9223372036854775807");
    let (low, high) = (bytes(1 << 63), bytes((1 << 63) - 1));
    writes(&high, "INCRBY i64 0 1", min, &low);
    writes(&low, "INCRBY i64 0 -1", max, &high);
    writes(&low, &format!("INCRBY i64 0 {min}"), "0", &[0; 8]);
    writes(&high, &format!("INCRBY i64 0 {max}"), "-2", &bytes(u64::MAX - 1));
    writes(&low, &format!("INCRBY i64 0 {max}"), "-1", &[0xff; 8]);
    for (value, end, ups) in [(low, min, ["-1", min]), (high, max, ["1", max])] {
        for by in ups {
            writes(&value, &format!("OVERFLOW SAT INCRBY i64 0 {by}"), end, &value);
            keeps(&value, &format!("OVERFLOW FAIL INCRBY i64 0 {by}"), "nil");
        }
    }
    writes(&high, &format!("OVERFLOW FAIL INCRBY i64 0 {min}"), "-1", &[0xff; 8]);
    writes(&low, &format!("OVERFLOW SAT INCRBY i64 0 {max}"), "-1", &[0xff; 8]);
}

/// u63 after a bit that is 1 and stays so.
#[test]
fn u63_at_its_ends() {
    let (min, max) = ("-9223372036854775808", "9223372036854775807");
    let (low, high) = (bytes(1 << 63), bytes(u64::MAX));
    writes(&high, "INCRBY u63 1 1", "0", &low);
    writes(&low, "INCRBY u63 1 -1", max, &high);
    writes(&high, &format!("INCRBY u63 1 {max}"), "9223372036854775806", &bytes(u64::MAX - 1));
    writes(&low, &format!("INCRBY u63 1 {min}"), "0", &low);
    writes(&high, &format!("INCRBY u63 1 {min}"), max, &high);
    for (value, end, steps) in [(low, "0", ["-1", min]), (high, max, ["1", max])] {
        for by in steps {
            writes(&value, &format!("OVERFLOW SAT INCRBY u63 1 {by}"), end, &value);
            keeps(&value, &format!("OVERFLOW FAIL INCRBY u63 1 {by}"), "nil");
        }
    }
    writes(&low, &format!("OVERFLOW FAIL INCRBY u63 1 {max}"), max, &high);
    writes(&high, "OVERFLOW FAIL INCRBY u63 1 -9223372036854775807", "0", &low);
    keeps(&high, &format!("OVERFLOW FAIL INCRBY u63 1 {min}"), "nil");
    writes(&high, &format!("OVERFLOW SAT INCRBY u63 1 {min}"), "0", &low);
}

/// OVERFLOW holds for every INCRBY up to the next one, and not for SET. (Three
/// INCRBY and two OVERFLOW would be 18 words.)
#[test]
fn overflow_holds_until_the_next() {
    writes(b"", "INCRBY u2 0 5 OVERFLOW SAT INCRBY u2 2 5 INCRBY u2 4 5", "1 3 3", &[0x7c]);
    keeps(b"", "OVERFLOW FAIL INCRBY u2 0 5 GET u2 0 INCRBY u2 2 5", "nil 0 nil");
    writes(b"", "OVERFLOW SAT INCRBY u2 0 5 SET u2 2 1 INCRBY u2 4 5", "3 0 3", &[0xdc]);
    writes(b"", "OVERFLOW FAIL INCRBY u2 0 5 OVERFLOW SAT INCRBY u2 2 5", "nil 3", &[0x30]);
    writes(b"", "OVERFLOW SAT INCRBY u2 0 5 OVERFLOW WRAP INCRBY u2 2 5", "3 1", &[0xd0]);
    writes(b"", "OVERFLOW SAT OVERFLOW FAIL OVERFLOW WRAP INCRBY u2 0 5", "1", &[0x40]);
    writes(b"", "INCRBY u2 0 5 OVERFLOW FAIL", "1", &[0x40]);
    keeps(b"", "OVERFLOW FAIL", "");
    keeps(b"", "OVERFLOW SAT OVERFLOW WRAP GET u8 0 OVERFLOW FAIL", "0");
    // It does not reach the next command.
    let mut store = Store::new(1);
    store.fields("OVERFLOW SAT INCRBY u2 0 5", "3");
    store.fields("INCRBY u2 0 1", "0");
}

#[test]
fn a_fail_beside_a_set_grows_nothing() {
    writes(b"", "SET u8 0 1 OVERFLOW FAIL INCRBY u8 504 -1", "0 nil", &[1]);
    writes(b"", "OVERFLOW FAIL INCRBY u8 504 -1 SET u8 8 1", "nil 0", &[0, 1]);
    writes(b"a", "OVERFLOW FAIL INCRBY u1 8 2 INCRBY u1 16 1", "nil 1", b"a\0\x80");
}

#[test]
fn each_runs_on_what_the_one_before_left() {
    writes(b"", "SET u8 0 200 GET i8 0 INCRBY u4 0 -1 GET u8 0", "0 -56 11 184", &[0xb8]);
    writes(b"", "INCRBY u8 0 1 INCRBY u8 0 1 INCRBY u8 0 1", "1 2 3", &[3]);
    writes(b"\x01", "SET u8 0 2 SET u8 0 3 SET u8 0 4", "1 2 3", &[4]);
    writes(b"", "GET u8 8 SET u4 12 9 GET u8 8", "0 0 9", &[0, 9]);
    // #n counts fields of the subcommand's own width.
    writes(b"", "SET u8 #1 1 INCRBY u4 #3 1 GET u16 #0", "0 2 2", &[0, 2]);
}

/// A field may end at bit 511; one that may write must not go past it, even if
/// it would not write.
#[test]
fn bit_511_is_the_last() {
    let mut store = Store::with(&[k(4, &[0xff; 64])]);
    for text in [
        "SET u8 505 0", "SET u1 512 0", "SET i64 449 0", "SET u8 #64 0", "SET i64 #8 0",
        "SET u1 4294967295 0", "SET i64 #4294967295 0", "SET u63 #8 0", "INCRBY u8 505 0",
        "INCRBY u1 512 1", "OVERFLOW FAIL INCRBY u8 505 255", "OVERFLOW FAIL INCRBY u1 512 -1",
        "GET u8 0 SET u8 505 0", "SET u8 505 0 GET u8 0", "SET u8 0 0 INCRBY u2 511 0",
        // 2^32 / 64 fields of i64 begin at bit 2^32.
        "SET i64 #67108864 0", "INCRBY u32 #134217728 0",
    ] {
        store.refuse_fields(text, 16);
    }
    store.fields("SET u8 504 7 SET u1 511 1 INCRBY i64 #7 0", "255 1 -249");
    store.fields("GET u8 505 GET u63 449 GET u8 504", "14 9223372036854775559 7");
    store.fields("SET u63 449 0 OVERFLOW FAIL INCRBY u8 504 -1", "9223372036854775559 nil");
}

#[test]
fn types_have_one_form() {
    let mut store = Store::new(1);
    for width in 1..=64 {
        store.fields(&format!("GET i{width} 0"), "0");
        match width {
            64 => store.refuse_fields("GET u64 0", 9),
            _ => store.fields(&format!("GET u{width} 0"), "0"),
        }
    }
    for kind in [
        "U8", "I8", "u08", "i08", "u0", "i0", "i65", "u65", "i", "u", "8", "u+8", "u-8", "i-8",
        "x8", "u8x", "u8.0", "uu8", "#8", "i100", "i18446744073709551617", "u4294967304", "u264",
        "+u8", "u008", "i+8",
    ] {
        store.refuse_fields(&format!("GET {kind} 0"), 9);
        store.refuse_fields(&format!("SET {kind} 0 0"), 9);
        store.refuse_fields(&format!("INCRBY {kind} 0 0"), 9);
    }
    for kind in [&b""[..], b"u8\0", b" u8", b"u8 ", b"\0", b"u\0"] {
        store.refuse_words(&[b"BITFIELD", b"k", b"GET", kind, b"0"], 9);
    }
    assert_eq!(store.record(0), [0; 128]);
}

#[test]
fn offsets_have_two_forms() {
    let mut store = Store::new(1);
    for offset in ["0", "#0", "7", "#7", "4294967295", "#4294967295", "-0", "#-0", "+5", "#007"] {
        store.fields(&format!("GET u8 {offset}"), "0");
    }
    for offset in [
        "#", "##1", "-1", "#-1", "+#5", "-#0", "1#", "4294967296", "#4294967296",
        "00000000004294967296", "9223372036854775808", "18446744073709551616", "1x", "x",
    ] {
        store.refuse_fields(&format!("GET u8 {offset}"), 9);
        store.refuse_fields(&format!("SET u8 {offset} 0"), 9);
        store.refuse_fields(&format!("INCRBY u8 {offset} 0"), 9);
    }
    store.refuse_words(&[b"BITFIELD", b"k", b"GET", b"u8", b""], 9);
    store.refuse_words(&[b"BITFIELD", b"k", b"GET", b"u8", b"0\0"], 9);
    assert_eq!(store.record(0), [0; 128]);
}

#[test]
fn set_takes_what_fits() {
    let mut store = Store::new(1);
    for (kind, least, greatest) in [
        ("u8", "0", "255"),
        ("i8", "-128", "127"),
        ("u1", "0", "1"),
        ("i1", "-1", "0"),
        ("i2", "-2", "1"),
        ("u32", "0", "4294967295"),
        ("i63", "-4611686018427387904", "4611686018427387903"),
        ("u62", "0", "4611686018427387903"),
        ("u63", "0", "9223372036854775807"),
        ("i64", "-9223372036854775808", "9223372036854775807"),
    ] {
        store.fields(
            &format!("SET {kind} 0 {least} SET {kind} 0 {greatest}"),
            &format!("0 {least}"),
        );
        store.fields(&format!("SET {kind} 0 0"), greatest);
    }
}

#[test]
fn numbers_that_do_not_fit_are_refused() {
    let mut store = Store::new(1);
    for text in [
        "u8 0 256", "u8 0 -1", "i8 0 128", "i8 0 -129", "u1 0 2", "u1 0 -1", "i1 0 1", "i1 0 -2",
        "u63 0 -1", "u63 0 9223372036854775808", "i64 0 9223372036854775808", "u32 0 4294967296",
        "i64 0 -9223372036854775809", "i63 0 4611686018427387904", "u62 0 4611686018427387904",
        "u8 0 -9223372036854775808", "u8 0 +256", "u8 0 0256", "u8 0 -007",
    ] {
        store.refuse_fields(&format!("SET {text}"), 9);
        // SET does not depend on OVERFLOW.
        for overflow in ["WRAP", "SAT", "FAIL"] {
            store.refuse_fields(&format!("OVERFLOW {overflow} SET {text}"), 9);
        }
    }
    for number in ["x", "+", "+-1", "1.0", "u8", "-", "18446744073709551616"] {
        store.refuse_fields(&format!("SET u8 0 {number}"), 9);
        store.refuse_fields(&format!("INCRBY u8 0 {number}"), 9);
    }
    store.refuse_fields("INCRBY u8 0 9223372036854775808", 9);
    store.refuse_fields("INCRBY i64 0 -9223372036854775809", 9);
    assert_eq!(store.record(0), [0; 128]);
}

#[test]
fn words_in_any_case_and_wrong_words() {
    let mut store = Store::new(1);
    store.answer("bitFIELD k gEt u8 0 set u8 0 1 oVERfLOW Sat iNCRBY u8 0 255", &array("0 0 255"));
    store.answer(
        "BITFIELD k overflow fail INCRBY u8 0 1 OVERFLOW wrap INCRBY u8 0 1",
        &array("nil 0"),
    );
    for text in [
        "NOPE", "GET", "GET u8", "SET u8 0", "INCRBY u8 0", "OVERFLOW", "OVERFLOW NOPE", "u8 0",
        "OVERFLOW WRAPS", "OVERFLOW 0", "OVERFLOW OVERFLOW", "OVERFLOW SAT FAIL", "SAT", "WRAP",
        "GET u8 0 0", "GET u8 0 NX", "SET u8 0 1 2", "SET u8 0 1 GET u8", "GET u8 0 SET",
        "INCRBY u8 0 1 WITHVERSION", "GETS u8 0", "GE u8 0", "INCRBYFLOAT u8 0 1", "NX", "XX",
        "VER 1", "ABS 5", "EX 5", "FLAGS 1", "KEEPTTL", "GET u8 0 EX 5", "SET GET u8",
    ] {
        store.refuse_fields(text, 8);
    }
    for word in [&b""[..], b"GET\0", b" GET", b"GE\xd4", b"\x07ET"] {
        store.refuse_words(&[b"BITFIELD", b"k", word, b"u8", b"0"], 8);
    }
    store.refuse_words(&[b"BITFIELD", b"k", b"OVERFLOW", b""], 8);
    store.refuse_words(&[b"BITFIELD", b"k", b"OVERFLOW", b"SAT\0"], 8);
}

/// A subcommand takes the words after it, also if they spell another.
#[test]
fn words_that_spell_subcommands() {
    let mut store = Store::new(1);
    store.answer("BITFIELD GET GET u8 0", &array("0"));
    store.refuse_fields("GET GET GET", 9);
    store.refuse_fields("GET u8 OVERFLOW", 9);
    store.refuse_fields("SET u8 0 GET", 9);
    store.refuse_fields("SET GET u8 0", 9);
    store.refuse_fields("INCRBY u8 0 OVERFLOW", 9);
    store.refuse_fields("INCRBY u8 0 OVERFLOW SAT", 8);
    store.refuse_fields("GET GET u8 0", 8);
    store.refuse_fields("OVERFLOW GET u8 0", 8);
}

/// All of 8 comes before any 9, all of 9 before 16, 16 before 15 and 17.
#[test]
fn the_order_of_tests() {
    let long = "k".repeat(25);
    let mut store = Store::with(&[k(4, b"v")]);
    store.refuse("BITFIELDS", 5);
    store.refuse("BITFIELD_RO k GET u8 0", 5);
    store.refuse("BITFIELD", 6);
    store.refuse(&format!("BITFIELD {long} NOPE"), 7);
    store.refuse(&format!("BITFIELD {long} GET u8 0"), 7);
    store.refuse_words(&[b"BITFIELD", b"", b"NOPE"], 7);
    store.answer(&format!("BITFIELD {}", "k".repeat(24)), "*0\r\n");
    for text in [
        "GET x y NOPE", "SET u8 505 256 OVERFLOW NOPE", "SET u8 505 0 GET u8", "GET U8 0 GET",
        "INCRBY u8 x y SET u8 0",
    ] {
        store.refuse_fields(text, 8);
    }
    for text in [
        "SET u8 505 0 GET u08 0", "SET u8 505 256", "INCRBY u8 505 x", "SET u64 505 0",
        "SET u8 505 0 SET u8 0 256", "SET u1 512 0 GET u8 -1",
    ] {
        store.refuse_fields(text, 9);
    }
}

#[test]
fn where_15_arises() {
    let mut at_top = k(0, b"v");
    at_top[8..16].copy_from_slice(&[255, 255, 255, 255, 255, 255, 255, 127]);
    let mut store = Store::with(&[at_top]);
    store.refuse_fields("SET u8 505 0", 16);
    store.refuse_fields("SET u8 0 256", 9);
    store.refuse_fields("SET u8 0 118", 15);
    store.refuse_fields("INCRBY u8 0 0", 15);
    store.refuse_fields("OVERFLOW SAT INCRBY u8 0 1000", 15);
    store.refuse_fields("GET u8 0 OVERFLOW FAIL INCRBY u8 0 1000 SET u8 0 0", 15);
    store.fields("", "");
    store.fields("GET u8 0", "118");
    store.fields("OVERFLOW FAIL INCRBY u8 0 1000 INCRBY u8 0 -1000", "nil nil");
    assert_eq!(store.record(0), at_top);
    // The last rise that is left
    store.answer("EXSETVER k 9223372036854775806", ":1\r\n");
    store.fields("SET u8 0 118", "118");
    assert_eq!(store.record(0), at_top);
    // An expired record has no version to rise.
    store.time = 5000;
    store.fields("SET u8 0 1", "0");
    assert_eq!(store.record(0), record(&[(0, &[1, 1, 1]), (8, &[1]), (24, b"k"), (48, &[1])]));
}

#[test]
fn where_17_arises() {
    let other = record(&[(0, &[1, 1, 1]), (8, &[1]), (24, b"o"), (48, b"v")]);
    let mut store = Store::with(&[other]);
    store.refuse_fields("SET u8 505 0", 16);
    store.refuse_fields("SET u8 0 0", 17);
    store.refuse_fields("INCRBY u8 0 0", 17);
    store.refuse_fields("OVERFLOW FAIL INCRBY u8 0 256 SET u8 0 0", 17);
    store.fields("", "");
    store.fields("GET u8 0", "0");
    store.fields("OVERFLOW FAIL INCRBY u8 0 256", "nil");
    assert_eq!(store.record(0), other);
}

/// A live record keeps flags and expiry; a new one has neither.
#[test]
fn the_record() {
    let new = |version: u8, value: &[u8]| {
        record(&[(0, &[1, 1, value.len() as u8]), (8, &[version]), (24, b"k"), (48, value)])
    };
    let other = record(&[(0, &[1, 1, 1]), (8, &[1]), (24, b"o"), (48, b"v")]);
    let mut store = Store::with(&[other, [0; 128], [0; 128]]);
    store.fields("GET u8 0", "0");
    assert_eq!(store.record(1), [0; 128]);
    store.fields("SET u8 8 7", "0");
    assert_eq!(store.record(1), new(1, &[0, 7]));
    // One version for a command, however often it writes
    store.fields("SET u8 0 1 INCRBY u8 8 1 SET u8 0 2", "0 8 1");
    assert_eq!(store.record(1), new(2, &[2, 8]));
    assert_eq!((store.record(0), store.record(2)), (other, [0; 128]));
    store.answer("EXSET k v FLAGS 6 PXAT 5000 ABS 4", "+OK\r\n");
    store.fields("INCRBY u8 0 1", "119");
    assert_eq!(store.record(1), k(5, b"w"));
    // Once expired it is taken over, and all of it is fresh.
    store.time = 5000;
    store.fields("GET u8 0 OVERFLOW FAIL INCRBY u8 0 -1", "0 nil");
    assert_eq!(store.record(1), k(5, b"w"));
    store.fields("INCRBY u8 8 3", "3");
    assert_eq!(store.record(1), new(1, &[0, 3]));
}

/// The record of the key, though expired; else the lowest empty one, else the
/// lowest expired one.
#[test]
fn the_slot_of_a_new_record() {
    let named = |key: &[u8], expiry: u8| {
        record(&[(0, &[1, 1, 1]), (8, &[9]), (16, &[expiry]), (24, key), (48, b"v")])
    };
    let new = record(&[(0, &[1, 1, 1]), (8, &[1]), (24, b"k"), (48, &[1])]);
    let (live, expired) = (named(b"a", 0), named(b"b", 5));
    for (records, slot) in [
        ([live, expired, [0; 128], named(b"k", 5)], 3),
        ([live, expired, [0; 128], [0; 128]], 2),
        ([live, expired, named(b"c", 0), named(b"d", 5)], 1),
    ] {
        let mut store = Store::with(&records);
        store.fields("SET u8 0 1", "0");
        let mut after = records;
        after[slot] = new;
        assert_eq!(store.table, after.concat());
    }
}

#[test]
fn the_longest_reply_has_96_bytes() {
    let mut store = Store::with(&[k(4, &[0x80])]);
    let text = line("BITFIELD k GET i64 0 GET i64 0 GET i64 0 GET i64 0");
    let (number, reply) = store.send(&text);
    assert_eq!((number, reply.len()), (0, 96));
    assert_eq!(reply, array(&"-9223372036854775808 ".repeat(4)).as_bytes());
}

/// 16 words are the most, so 14 after the key.
#[test]
fn sixteen_words() {
    let mut store = Store::new(1);
    store.fields("SET u8 0 1 SET u8 8 2 GET u8 0 GET u8 8", "0 0 1 2");
    store.fields("OVERFLOW SAT INCRBY u1 0 1 INCRBY u1 0 1 INCRBY u1 0 1", "1 1 1");
    let text = "BITFIELD k SET u8 0 1 SET u8 8 2 SET u8 0 1 GET u8 8";
    assert_eq!(store.send(&line(text)), (4, Vec::new()));
}

/// What source document 002 says of overflow, but for one thing: it has i8 go
/// from -128 to 127 by adding 1.
#[test]
fn the_overflows_of_document_002() {
    writes(&[0xc0], "INCRBY u2 0 1", "0", &[0]);
    writes(&[0x7f], "INCRBY i8 0 1 INCRBY i8 0 1", "-128 -127", &[0x81]);
    writes(&[120], "OVERFLOW SAT INCRBY i8 0 10 INCRBY i8 0 1", "127 127", &[127]);
    keeps(&[120], "OVERFLOW FAIL INCRBY i8 0 10", "nil");
}
