//! Safe calls of Pietrunel, a small verified store.
//!
//! The library keeps nothing: each call borrows a table and takes a time and one command, and
//! changes at most one record of the table. `include/pietrunel.h` gives the table's layout. This
//! crate needs no `std` and no heap.
//!
//! A [`Command`] is made of words, and its [`Reply`] is taken apart. Two tasks read a unit's record
//! and write it back under the version that they read; the second write is answered stale:
//!
//! ```
//! use pietrunel::{Command, Refusal, Reply};
//!
//! let mut table = [0; 4 * pietrunel::RECORD_SIZE];
//! let mut room = [0; pietrunel::REPLY_ROOM];
//! let now = 1_700_000_000_000;
//! let set = Command::new("EXSET").arg("unit-17").arg("3.1V");
//! assert_eq!(set.call(&mut table, now, &mut room)?, Reply::Ok);
//!
//! let get = Command::new("EXGET").arg("unit-17");
//! let Reply::Value { value, version, .. } = get.call(&mut table, now, &mut room)? else {
//!     panic!("the record is not there");
//! };
//! assert_eq!((value, version), (&b"3.1V"[..], 1));
//!
//! let write = |text| Command::new("EXCAS").arg("unit-17").arg(text).number(version).arg("KEEPTTL");
//! let rested = write("3.1V").call(&mut table, now, &mut room)?;
//! assert_eq!(rested, Reply::Swapped { version: 2 });
//! let sagged = write("2.2V").call(&mut table, now, &mut room)?;
//! assert_eq!(sagged, Reply::Stale { value: b"3.1V", version: 2 });
//! # Ok::<(), Refusal>(())
//! ```
//!
//! BITFIELD, which reads and writes numbers in the bits of a value, answers with [`Fields`].
//!
//! [`call`] takes and gives the bytes of RESP2 as they are:
//!
//! ```
//! use pietrunel::{call, Answer};
//!
//! let mut table = [0; 4 * pietrunel::RECORD_SIZE];
//! let mut reply = [0; pietrunel::REPLY_ROOM];
//! let set = b"*3\r\n$5\r\nEXSET\r\n$3\r\nfoo\r\n$3\r\n100\r\n";
//! assert_eq!(call(&mut table, 1000, set, &mut reply), Answer::Reply(b"+OK\r\n"));
//! ```
//!
//! An [`Assembler`] takes commands off a line that hands them over a few bytes at a time.
//!
//! A [`Party`] works on its part of a table that two share, by [`shared_call`].

#![no_std]
#![deny(unsafe_code)]

#[cfg(test)]
extern crate std;

mod answer;
mod assembler;
mod command;
mod decimal;
mod error;
#[allow(unsafe_code)]
mod ffi;
mod fields;
mod party;
mod refusal;
mod rejection;
mod reply;
mod resp;

pub use answer::Answer;
pub use assembler::{Assembler, Progress};
pub use command::{Command, CommandTooLong, Encoded};
pub use error::Error;
pub use fields::Fields;
pub use party::Party;
pub use refusal::Refusal;
pub use rejection::Rejection;
pub use reply::Reply;

/// The bytes of a record.
pub const RECORD_SIZE: usize = 128;

/// The most records in a table.
pub const MAX_RECORDS: usize = 256;

/// The longest key.
pub const MAX_KEY: usize = 24;

/// The longest value.
pub const MAX_VALUE: usize = 64;

/// The longest command.
pub const MAX_COMMAND: usize = 512;

/// The most words of a command.
pub const MAX_WORDS: usize = 16;

/// The most answers of a BITFIELD: each takes at least three of the words after name and key.
pub const MAX_FIELDS: usize = (MAX_WORDS - 2) / 3;

/// The shortest reply buffer that is taken. Every reply fits in it.
pub const REPLY_ROOM: usize = 128;

/// The latest time and expiry.
pub const MAX_TIME: u64 = 1 << 62;

/// The highest version.
pub const MAX_VERSION: u64 = (1 << 63) - 1;

/// Applies one command to a table, at a time in milliseconds.
pub fn call<'r>(table: &mut [u8], time_ms: u64, command: &[u8], reply: &'r mut [u8]) -> Answer<'r> {
    let (number, len) = ffi::call(table, time_ms, command, reply);
    Answer::new(number, &reply[..len])
}

/// Takes the next bytes of a command, which are held in a buffer until it is whole, and then applies
/// it. An [`Assembler`] has such a buffer inside.
///
/// The first `held_len` bytes of `held`, none at first, are those of the calls before; `held` has at
/// least 512 bytes. Table, time and reply buffer are looked at only once the command is whole. The
/// answer is then that of [`call`] to the whole command, and after a rejection too the command is gone
/// and must be sent again.
///
/// A command is malformed at the first byte after which none can follow, and that byte is the last
/// one taken. Where the bytes held do not begin a command, or `held` is shorter than 512 bytes,
/// nothing of the piece is taken, and the answer is [`Rejection::MalformedCommand`] too.
pub fn feed<'r>(
    held: &mut [u8],
    held_len: &mut usize,
    piece: &[u8],
    table: &mut [u8],
    time_ms: u64,
    reply: &'r mut [u8],
) -> Progress<'r> {
    let (number, taken, len) = ffi::feed(held, held_len, piece, table, time_ms, reply);
    Progress::new(number, piece.len(), taken, &reply[..len])
}

/// The value that stands at the key after an EXGET or EXCAS: a part of the command where the
/// EXCAS would succeed, else a part of the table. None for any other command, a key that is not
/// live, or a command that would be refused. Nothing is changed.
pub fn current_value<'a>(table: &'a [u8], time_ms: u64, command: &'a [u8]) -> Option<&'a [u8]> {
    let shown = ffi::current_value(table, time_ms, command)?;
    Some(shown.part(table, command))
}

/// Applies one command to a party's part of a table that is shared at a boundary, counted in records.
///
/// The command looks for its key and takes a record only in that part, and the bytes of the other
/// one stay as they are. A boundary that is 0 or not below the number of records is refused. Equal
/// keys are allowed in the two parts, but not within either, whoever calls. For [`Party::Whole`] it is
/// [`call`], whatever the boundary is.
///
/// ```
/// use pietrunel::{shared_call, Answer, Party, Rejection};
///
/// let mut table = [0; 2 * pietrunel::RECORD_SIZE];
/// let mut reply = [0; pietrunel::REPLY_ROOM];
/// let set = b"*3\r\n$5\r\nEXSET\r\n$3\r\nfoo\r\n$3\r\n100\r\n";
/// let answer = shared_call(Party::Installer, 1, &mut table, 1000, set, &mut reply);
/// assert_eq!(answer, Answer::Reply(b"+OK\r\n"));
/// assert_eq!((table[0], table[pietrunel::RECORD_SIZE]), (0, 1));
///
/// let answer = shared_call(Party::Installer, 2, &mut table, 1000, set, &mut reply);
/// assert_eq!(answer, Answer::Rejected(Rejection::BadBoundary));
/// ```
pub fn shared_call<'r>(
    party: Party,
    boundary: usize,
    table: &mut [u8],
    time_ms: u64,
    command: &[u8],
    reply: &'r mut [u8],
) -> Answer<'r> {
    let (number, len) = ffi::shared_call(party.number(), boundary, table, time_ms, command, reply);
    Answer::new(number, &reply[..len])
}

/// The value that stands at the key after a party's EXGET or EXCAS, as [`current_value`] gives it: a
/// part of the command or of the table. None also for what [`shared_call`] would refuse. Nothing is
/// changed.
///
/// ```
/// use pietrunel::{shared_call, shared_current_value, Party};
///
/// let mut table = [0; 2 * pietrunel::RECORD_SIZE];
/// let mut reply = [0; pietrunel::REPLY_ROOM];
/// let set = b"*3\r\n$5\r\nEXSET\r\n$3\r\nfoo\r\n$3\r\n100\r\n";
/// shared_call(Party::Installer, 1, &mut table, 1000, set, &mut reply);
///
/// let get = b"*2\r\n$5\r\nEXGET\r\n$3\r\nfoo\r\n";
/// let value = shared_current_value(Party::Installer, 1, &table, 1000, get);
/// assert_eq!(value, Some(&b"100"[..]));
/// assert_eq!(shared_current_value(Party::Owner, 1, &table, 1000, get), None);
/// ```
pub fn shared_current_value<'a>(
    party: Party,
    boundary: usize,
    table: &'a [u8],
    time_ms: u64,
    command: &'a [u8],
) -> Option<&'a [u8]> {
    let shown = ffi::shared_current_value(party.number(), boundary, table, time_ms, command)?;
    Some(shown.part(table, command))
}
