//! Random cases and histories, on which the library must agree with the
//! reference; so must the rival of the benchmark.
//!
//! `case` makes one call's table, time, command and reply buffer, `bitfield_case`
//! those of a BITFIELD, `number_case` those of a command with numbers. `compare`
//! runs it on two stores; `expect` and `bitfield` hold the outcome to plain rules.
//! `history` makes whole lists of calls on one record and checks their answers
//! against a serial execution. `streams` makes commands in pieces, and `feed` takes
//! one piece. `pairs` makes the files of two tables. `shared` makes and compares
//! calls of two parties on one table. `numerals` writes numbers in every form that is
//! read, and `number_words` finds them in a command.

#![forbid(unsafe_code)]

mod commands;
mod frames;
mod tables;
mod words;

pub mod bitfield;
pub mod collisions;
pub mod compare;
pub mod expect;
pub mod feed;
pub mod fields;
pub mod hex;
pub mod history;
pub mod layout;
pub mod number_words;
pub mod numerals;
pub mod pairs;
#[cfg(feature = "library")]
pub mod printed;
pub mod resp;
pub mod rng;
pub mod settings;
pub mod shared;
pub mod streams;

pub use commands::bitfield_words;
pub use reference::Answer;
pub use rng::Rng;

use commands::Faults;

/// The shortest reply buffer that a store takes.
const REPLY_ROOM: usize = 128;

/// The input of one call.
#[derive(Clone, Debug, PartialEq, Eq)]
pub struct Case {
    pub table: Vec<u8>,
    pub time: u64,
    pub command: Vec<u8>,
    pub reply: Vec<u8>,
}

/// A case of any command, with a table of 1 to 256 records, mostly few.
pub fn case(rng: &mut Rng) -> Case {
    let faults = Faults::random(rng);
    let name = commands::pick_name(rng, &faults);
    let now = words::time(rng);
    let table = tables::good(rng, layout::MAX_RECORDS, now);
    case_on(rng, &faults, name, table, now)
}

/// A case of BITFIELD, with a table of at most 40 records, many with values that
/// are no text.
pub fn bitfield_case(rng: &mut Rng) -> Case {
    let faults = Faults::of_words(rng);
    let now = words::time(rng);
    let mut table = tables::good(rng, 40, now);
    tables::fill_with_bits(rng, &mut table);
    case_on(rng, &faults, "BITFIELD", table, now)
}

/// A case of a command that has number words, one of which is often wrong, with a
/// table of at most 6 records.
pub fn number_case(rng: &mut Rng) -> Case {
    let faults = match rng.below(20) {
        0..=5 => Faults::only(9),
        6 => Faults::only(10),
        _ => Faults::NONE,
    };
    let name = commands::pick_name(rng, &Faults::only(9));
    let now = words::time(rng);
    let table = tables::good(rng, 6, now);
    case_on(rng, &faults, name, table, now)
}

/// A case of the command with this name, on a table that was made for a time.
fn case_on(
    rng: &mut Rng,
    faults: &Faults,
    name: &'static str,
    mut table: Vec<u8>,
    now: u64,
) -> Case {
    let time = case_time(rng, faults, now, &table);
    let command = commands::command(rng, faults, name, &table, time);
    if faults.has(1) {
        tables::damage(rng, &mut table);
    }
    let room = reply_room(rng, faults);
    Case { table, time, command, reply: rng.bytes(room) }
}

fn reply_room(rng: &mut Rng, faults: &Faults) -> usize {
    match (faults.has(3), rng.chance(50)) {
        (true, true) => rng.pick(&[0, 1, 64, 126, 127, 127]),
        (true, false) => rng.below(REPLY_ROOM),
        (false, true) => rng.pick(&[128, 128, 129, 256, 300]),
        (false, false) => rng.between(REPLY_ROOM, 300),
    }
}

/// Mostly the time that the table was made for, or one beside an expiry.
fn case_time(rng: &mut Rng, faults: &Faults, now: u64, table: &[u8]) -> u64 {
    if faults.has(2) {
        return match rng.below(4) {
            0 => layout::MAX_TIME + 1,
            1 => u64::MAX,
            2 => 1 << 63,
            _ => rng.next_u64() | (layout::MAX_TIME + 1),
        };
    }
    if rng.chance(25) {
        let slot = rng.below(layout::records(table).len());
        let expiry = layout::expiry(&layout::records(table)[slot]);
        return (expiry + rng.below(3) as u64).saturating_sub(1).min(layout::MAX_TIME);
    }
    now
}
