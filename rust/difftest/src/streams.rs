//! Random streams of commands, whole and malformed, in pieces.

use crate::commands::{self, Faults};
use crate::{layout, tables, words, Rng};

/// What a line hands over, and the table and time that it is for.
#[derive(Clone, Debug, PartialEq, Eq)]
pub struct Stream {
    pub table: Vec<u8>,
    pub time: u64,
    pub pieces: Vec<Vec<u8>>,
}

/// A stream of some commands on a table of at most 20 records, mostly few.
pub fn stream(rng: &mut Rng) -> Stream {
    let time = words::time(rng);
    let table = tables::good(rng, 20, time);
    let mut bytes = Vec::new();
    for _ in 0..rng.between(1, 8) {
        bytes.extend(command(rng, &table, time));
        if rng.chance(5) {
            bytes.extend(rng.pick(&["\r\n", "x", "\0", "*", "*1\r\n", "PING\r\n"]).bytes());
        }
    }
    Stream { table, time, pieces: pieces(rng, &bytes) }
}

/// A command, often with a fault.
fn command(rng: &mut Rng, table: &[u8], time: u64) -> Vec<u8> {
    let faults = Faults::random(rng);
    let name = commands::pick_name(rng, &faults);
    commands::command(rng, &faults, name, table, time)
}

/// The bytes cut into pieces, some of them empty.
fn pieces(rng: &mut Rng, mut bytes: &[u8]) -> Vec<Vec<u8>> {
    let lengths: &[usize] = match rng.below(10) {
        0 => &[0, 1, 2, 5],
        1..=3 => &[0, 1, 8, 30, 100],
        _ => &[0, 1, 100, 700],
    };
    let mut pieces = Vec::new();
    while !bytes.is_empty() {
        let longest = rng.pick(lengths);
        let len = rng.between(longest.min(1), longest);
        let (piece, rest) = bytes.split_at(len.min(bytes.len()));
        pieces.push(piece.to_vec());
        bytes = rest;
    }
    pieces
}

/// The table with damage, mostly.
pub fn damaged(rng: &mut Rng, table: &[u8]) -> Vec<u8> {
    let mut table = table.to_vec();
    tables::damage(rng, &mut table);
    table
}

/// A time that is out of range.
pub fn late(rng: &mut Rng) -> u64 {
    rng.pick(&[layout::MAX_TIME + 1, 1 << 63, u64::MAX])
}
