//! The store of document 01, with what document 02 changes, written to be read
//! and not to be fast: the oracle that the library is tried against.
//!
//! A call decodes the table into slots and the command into words, parses the
//! words, executes the command and encodes the reply and the changed slot. The
//! modules, and most functions, have the names of the model's
//! (`crates/model/specs`).

#![forbid(unsafe_code)]

mod bits;
mod checked;
mod command;
mod current_value;
mod difference;
mod execute;
mod feed;
mod gate;
mod number;
mod options;
mod parse;
mod partition;
mod resp;
mod search;
mod subcommands;
mod table;

pub use current_value::{current_value, current_value_in, Shown};
pub use difference::difference;
pub use feed::{feed, Fed, MORE};
pub use partition::{Party, View};

use execute::{execute, Effect};
use gate::gate;
use parse::parse;
use resp::{reply_bytes, Reply};
use table::{slot_bytes, RECORD};

/// What a call gives back: document 01's number, and how many bytes of the
/// reply buffer are the reply.
#[derive(Clone, Copy, Debug, PartialEq, Eq)]
pub struct Answer {
    pub number: u32,
    pub len: usize,
}

/// The texts of the error replies, the first being number 5's.
const MESSAGES: [&str; 13] = [
    "unknown command",
    "wrong number of arguments",
    "string exceeds maximum allowed size",
    "syntax error",
    "value is not an integer or out of range",
    "invalid expire time",
    "min or max is specified, but not valid",
    "update version is stale",
    "stored value is not an integer",
    "increment or decrement would overflow",
    "version would overflow",
    "string exceeds maximum allowed size",
    "table is full",
];

/// Runs one command on the whole table. The numbers 1 to 4 leave table and reply
/// buffer untouched, 5 to 17 write an error reply.
pub fn call(table: &mut [u8], time: u64, command: &[u8], reply: &mut [u8]) -> Answer {
    call_in(View::Whole, table, time, command, reply)
}

/// Runs one command on a part of the table; the rest keeps its bytes. Number 18
/// acts as 1 to 4 do.
pub fn call_in(
    view: View,
    table: &mut [u8],
    time: u64,
    command: &[u8],
    reply: &mut [u8],
) -> Answer {
    let inputs = match gate(view, table, time, reply.len(), command) {
        Ok(inputs) => inputs,
        Err(number) => return Answer { number, len: 0 },
    };
    let effect =
        parse(time, &inputs.words).and_then(|command| execute(time, &inputs.slots, &command));
    match effect {
        Ok(Effect::Answer(answer)) => write_reply(0, &answer, reply),
        Ok(Effect::Store(at, slot, answer)) => {
            let at = inputs.first + at;
            table[at * RECORD..][..RECORD].copy_from_slice(&slot_bytes(&slot));
            write_reply(0, &answer, reply)
        }
        Err(number) => {
            let message = MESSAGES[number as usize - 5];
            write_reply(number, &Reply::Error(format!("ERR {message}")), reply)
        }
    }
}

/// Writes the reply from the buffer's start; bytes past it keep what they held.
fn write_reply(number: u32, answer: &Reply, reply: &mut [u8]) -> Answer {
    let bytes = reply_bytes(answer);
    reply[..bytes.len()].copy_from_slice(&bytes);
    Answer { number, len: bytes.len() }
}
