//! The rows: for each a table and commands that all take the same path.

use crate::keys::{long, Key};
use difftest::collisions;
use difftest::layout::{Fields, Record, RECORD};
use difftest::resp::encode;

/// The time of every call.
pub const TIME: u64 = 1_700_000_000_000;

/// The numbers of records.
pub const SIZES: [usize; 5] = [1, 16, 64, 200, 256];

pub const NAMES: [&str; 13] = [
    "EXGET hit", "EXGET miss", "EXSET live", "EXSET new", "EXCAS OK", "EXCAS stale", "EXINCRBY",
    "EXAPPEND", "options", "malformed", "damaged", "equal keys", "24-byte keys",
];

/// Rows on the table of EXINCRBY that stand apart, with a bar of their own:
/// BITFIELD of one field. They count neither for the mean nor for the worst.
pub const FIELDS: [&str; 2] = ["BITFIELD GET", "BITFIELD INCRBY"];

/// A row that stands apart, with no bar: EXGET of records whose versions have 19
/// digits, nearly all of them 9, so that their text takes longest to write.
pub const LONG_VERSION: &str = "EXGET 19 digits";

/// A row that stands apart, with a bar of its own: EXGET in a full table of keys
/// that share a bucket of the library's index.
pub const COLLIDING: &str = "colliding";

/// How many commands a row has, on slots all over the table.
const COMMANDS: usize = 16;

pub struct Row {
    pub name: &'static str,
    pub records: usize,
    pub table: Vec<u8>,
    /// Commands, each with the one slot that it may change.
    pub commands: Vec<(Vec<u8>, usize)>,
    /// The number that each call gives.
    pub number: u32,
}

/// All rows with all sizes, then those that stand apart. Two equal keys need two
/// records.
pub fn all(key: Key) -> Vec<Row> {
    let sizes = |name| SIZES.into_iter().filter(move |size| name != "equal keys" || *size > 1);
    let key_of = |name| if name == "24-byte keys" { long } else { key };
    let rows = |name| sizes(name).map(move |size| row(name, size, &key_of(name)));
    let sized = NAMES.into_iter().chain(FIELDS).chain([LONG_VERSION]);
    sized.flat_map(rows).chain([colliding()]).collect()
}

fn colliding() -> Row {
    let keys = collisions::keys(256);
    row(COLLIDING, keys.len(), &|number| keys[number].clone())
}

fn row(name: &'static str, records: usize, key: &dyn Fn(usize) -> String) -> Row {
    let mut table: Vec<u8> = (0..records).flat_map(|slot| record(name, &key(slot), slot)).collect();
    let last = RECORD * (records - 1);
    let middle = RECORD * (records / 2);
    match name {
        "EXSET new" => table[last..].fill(0),
        "damaged" => table[middle + RECORD - 1] = 1,
        "equal keys" => table.copy_within(..RECORD, last),
        _ => {}
    }
    let number = match name {
        "damaged" | "equal keys" => 1,
        "malformed" => 4,
        _ => 0,
    };
    let commands = (0..COMMANDS).map(|at| command(name, records, key, at)).collect();
    Row { name, records, table, commands, number }
}

fn value(name: &str, slot: usize) -> String {
    match name {
        "EXINCRBY" | "BITFIELD GET" | "BITFIELD INCRBY" => (1200 + slot).to_string(),
        _ => format!("v=2.9{slot:03};t=21;s=ok"),
    }
}

fn version(name: &str, slot: usize) -> u64 {
    match name {
        LONG_VERSION => 8_999_999_999_999_999_999 - slot as u64,
        _ => 1000 + slot as u64,
    }
}

/// A live record; every fourth has an expiry.
fn record(name: &str, key: &str, slot: usize) -> Record {
    let expiry = if slot % 4 == 1 { TIME + 1_000_000 } else { 0 };
    let (value, version) = (value(name, slot), version(name, slot));
    Fields { key: key.into(), value: value.into(), flags: 7, version, expiry }.record()
}

/// The command at this place of a row's list, and the slot that it may change.
fn command(
    name: &str,
    records: usize,
    key: &dyn Fn(usize) -> String,
    at: usize,
) -> (Vec<u8>, usize) {
    let slot = (at * 7 + 3) * records / COMMANDS % records;
    let there = &key(slot);
    let elsewhere = || key(1000 + at);
    let now = &version(name, slot).to_string();
    let before = &(version(name, slot) - 1).to_string();
    let text = "v=3.1;t=20;s=ok";
    let bytes = match name {
        "EXGET miss" => encode(&["EXGET", &elsewhere()]),
        "EXSET live" => encode(&["EXSET", there, text]),
        "EXSET new" => return (encode(&["EXSET", &elsewhere(), text]), records - 1),
        "EXCAS OK" => encode(&["EXCAS", there, text, now]),
        "EXCAS stale" => encode(&["EXCAS", there, text, before]),
        "EXINCRBY" => encode(&["EXINCRBY", there, "5"]),
        "options" => encode(&["EXSET", there, text, "EX", "3600", "FLAGS", "7", "XX"]),
        "EXAPPEND" => encode(&["EXAPPEND", there, ";x=1"]),
        "malformed" => [encode(&["EXGET", there]), b"\n".to_vec()].concat(),
        "BITFIELD GET" => encode(&["BITFIELD", there, "GET", "u8", "0"]),
        "BITFIELD INCRBY" => encode(&["BITFIELD", there, "INCRBY", "u8", "0", "1"]),
        _ => encode(&["EXGET", there]),
    };
    (bytes, slot)
}
