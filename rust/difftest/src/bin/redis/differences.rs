//! What Redis does otherwise, by rows: each must come out as it stands here, on
//! either side.

use crate::server::Server;
use crate::{call, stored, Store, KEY};
use difftest::expect::ERRORS;
use difftest::resp::encode;

/// A command on a value, or on none.
struct Row {
    line: &'static str,
    before: Option<&'static [u8]>,
    redis: Outcome,
    ours: Outcome,
}

/// A reply, and the value of the key after it.
#[derive(Debug, PartialEq, Eq)]
struct Outcome {
    reply: String,
    value: Option<Vec<u8>>,
}

fn outcome(reply: &str, value: Option<&[u8]>) -> Outcome {
    Outcome { reply: reply.to_string(), value: value.map(<[u8]>::to_vec) }
}

/// Refused with this number, so that the value stays; 4 has no reply.
fn refused(number: usize, value: Option<&[u8]>) -> Outcome {
    outcome(if number == 4 { "" } else { ERRORS[number - 5] }, value)
}

/// Refused here, on a key that is not there.
fn only_redis(line: &'static str, number: usize, reply: &str, value: Option<&[u8]>) -> Row {
    Row { line, before: None, redis: outcome(reply, value), ours: refused(number, None) }
}

/// Refused by both on a key that is not there, with texts that differ.
fn other_text(line: &'static str, number: usize, text: &str) -> Row {
    only_redis(line, number, &format!("-ERR {text}\r\n"), None)
}

const ZERO: &str = "*1\r\n:0\r\n";
const NIL: &str = "*1\r\n$-1\r\n";
const TYPE: &str = "Invalid bitfield type. Use something like i16 u8. Note that u64 is not \
                    supported but i64 is.";
const OFFSET: &str = "bit offset is not an integer or out of range";
const NUMBER: &str = "value is not an integer or out of range";

fn rows() -> Vec<Row> {
    [numbers_for_set(), number_words(), growth(), offsets(), words(), limits(), texts()]
        .into_iter()
        .flatten()
        .collect()
}

/// Redis takes any number for SET, and OVERFLOW holds for it too.
fn numbers_for_set() -> Vec<Row> {
    vec![
        only_redis("BITFIELD faults SET u8 0 257", 9, ZERO, Some(&[1])),
        only_redis("BITFIELD faults SET u8 0 -1", 9, ZERO, Some(&[255])),
        only_redis("BITFIELD faults SET i8 0 200", 9, ZERO, Some(&[200])),
        only_redis("BITFIELD faults OVERFLOW SAT SET u8 0 257", 9, ZERO, Some(&[255])),
        only_redis("BITFIELD faults OVERFLOW SAT SET u8 0 -1", 9, ZERO, Some(&[255])),
        only_redis("BITFIELD faults OVERFLOW SAT SET i8 0 -200", 9, ZERO, Some(&[128])),
        only_redis("BITFIELD faults OVERFLOW FAIL SET u8 0 257", 9, NIL, Some(&[0])),
    ]
}

/// Redis takes numbers in their short form alone.
fn number_words() -> Vec<Row> {
    let only_ours = |line, refusal: &str, value: Option<&[u8]>, reply: &str| Row {
        line,
        before: None,
        redis: outcome(&format!("-ERR {refusal}\r\n"), None),
        ours: outcome(reply, value),
    };
    vec![
        only_ours("BITFIELD faults GET u8 +5", OFFSET, None, ZERO),
        only_ours("BITFIELD faults GET u8 #007", OFFSET, None, ZERO),
        only_ours("BITFIELD faults GET u8 -0", OFFSET, None, ZERO),
        only_ours("BITFIELD faults SET u8 0 +5", NUMBER, Some(&[5]), ZERO),
        only_ours("BITFIELD faults SET u8 0 007", NUMBER, Some(&[7]), ZERO),
        only_ours("BITFIELD faults INCRBY u8 0 -0", NUMBER, Some(&[0]), ZERO),
    ]
}

/// Redis makes room for an INCRBY that fails, and a key for it.
fn growth() -> Vec<Row> {
    let both = "*2\r\n:97\r\n$-1\r\n";
    vec![
        Row {
            line: "BITFIELD faults OVERFLOW FAIL INCRBY u8 8 256",
            before: None,
            redis: outcome(NIL, Some(&[0, 0])),
            ours: outcome(NIL, None),
        },
        Row {
            line: "BITFIELD faults OVERFLOW FAIL INCRBY u8 8 256",
            before: Some(b"a"),
            redis: outcome(NIL, Some(b"a\0")),
            ours: outcome(NIL, Some(b"a")),
        },
        Row {
            line: "BITFIELD faults SET u8 0 98 OVERFLOW FAIL INCRBY u8 16 -1",
            before: Some(b"a"),
            redis: outcome(both, Some(b"b\0\0")),
            ours: outcome(both, Some(b"b")),
        },
    ]
}

/// Redis has no last bit but that of its longest string, and holds the product
/// after # to the range of offsets, once it has wrapped to 64 bits.
fn offsets() -> Vec<Row> {
    vec![
        only_redis("BITFIELD faults SET u8 505 0", 16, ZERO, Some(&[0; 65])),
        only_redis("BITFIELD faults OVERFLOW FAIL INCRBY u8 505 -1", 16, NIL, Some(&[0; 65])),
        Row {
            line: "BITFIELD faults GET u8 #536870912",
            before: None,
            redis: outcome(&format!("-ERR {OFFSET}\r\n"), None),
            ours: outcome(ZERO, None),
        },
        Row {
            line: "BITFIELD faults GET u4 #4611686018427387904",
            before: Some(&[0xf0]),
            redis: outcome("*1\r\n:15\r\n", Some(&[0xf0])),
            ours: refused(9, Some(&[0xf0])),
        },
    ]
}

/// Redis reads subcommands, OVERFLOW's words and types up to a zero byte.
fn words() -> Vec<Row> {
    vec![
        only_redis("BITFIELD faults GET\0x u8 0", 8, ZERO, None),
        only_redis("BITFIELD faults OVERFLOW SAT\0 GET u8 0", 8, ZERO, None),
        only_redis("BITFIELD faults GET u8\0x 0", 9, ZERO, None),
    ]
}

/// Redis has keys of any length, also none, and any number of words; and a
/// BITFIELD that only reads.
fn limits() -> Vec<Row> {
    let five = "*5\r\n:0\r\n:0\r\n:0\r\n:0\r\n:0\r\n";
    vec![
        only_redis("BITFIELD  GET u8 0", 7, ZERO, None),
        only_redis("BITFIELD a-key-of-more-than-24-bytes GET u8 0", 7, ZERO, None),
        only_redis("BITFIELD faults GET u8 0 GET u8 0 GET u8 0 GET u8 0 GET u8 0", 4, five, None),
        only_redis("BITFIELD_RO faults GET u8 0", 5, ZERO, None),
    ]
}

/// The texts of refusals; and Redis tells the first fault from the left, where
/// here all of 8 comes before any 9.
fn texts() -> Vec<Row> {
    vec![
        other_text("BITFIELD", 6, "wrong number of arguments for 'bitfield' command"),
        other_text("BITFIELD faults OVERFLOW NOPE", 8, "Invalid OVERFLOW type specified"),
        other_text("BITFIELD faults GET U8 0", 9, TYPE),
        other_text("BITFIELD faults GET u8 -1", 9, OFFSET),
        other_text("BITFIELD faults GET U8 0 NOPE", 8, TYPE),
        other_text("BITFIELD faults GET u8 -1 GET u8", 8, OFFSET),
    ]
}

/// Panics unless every row comes out as it stands; how many there are.
pub fn check(store: Store, server: &mut Server) -> usize {
    let rows = rows();
    for Row { line, before, redis, ours } in &rows {
        let command: Vec<&[u8]> = line.split(' ').map(str::as_bytes).collect();
        assert_eq!(on_redis(server, &command, *before), *redis, "Redis: {line}");
        assert_eq!(on_store(store, &command, *before), *ours, "{line}");
    }
    rows.len()
}

fn on_redis(server: &mut Server, command: &[&[u8]], before: Option<&[u8]>) -> Outcome {
    server.send(&["DEL".as_bytes(), KEY]);
    if let Some(value) = before {
        server.send(&["SET".as_bytes(), KEY, value]);
    }
    let reply = String::from_utf8(server.send(command).bytes).unwrap();
    Outcome { reply, value: server.value(KEY) }
}

fn on_store(store: Store, command: &[&[u8]], before: Option<&[u8]>) -> Outcome {
    let mut table = vec![0; 128];
    if let Some(value) = before {
        table = call(store, &table, &encode(&["EXSET".as_bytes(), KEY, value])).table;
    }
    let after = call(store, &table, &encode(command));
    let reply = String::from_utf8(after.reply().to_vec()).unwrap();
    Outcome { reply, value: stored(&after.table).map(<[u8]>::to_vec) }
}
