//! The value at the key after an EXGET or EXCAS, as a part of the table or of
//! the command. Document 01's term is the standing value.

use crate::command::Action;
use crate::execute::execute;
use crate::gate::{gate, REPLY_ROOM};
use crate::parse::parse;
use crate::partition::View;
use crate::resp::{bulk_bytes, line};
use crate::search::{lookup, Lookup};
use crate::table::{Record, RECORD, VALUE_AT};

/// Where a current value stands: in the command if `in_command`, else in the
/// table, from byte `start` on, `len` bytes long.
#[derive(Clone, Copy, Debug, PartialEq, Eq)]
pub struct Shown {
    pub in_command: bool,
    pub start: usize,
    pub len: usize,
}

/// None for another command, a key that is not live, or any refusal; 3 does not
/// arise, since there is no reply buffer.
pub fn current_value(table: &[u8], time: u64, command: &[u8]) -> Option<Shown> {
    current_value_in(View::Whole, table, time, command)
}

/// Likewise, with the key looked for in a part of the table. The place is counted
/// from the start of the whole table.
pub fn current_value_in(view: View, table: &[u8], time: u64, command: &[u8]) -> Option<Shown> {
    let inputs = gate(view, table, time, REPLY_ROOM, command).ok()?;
    let command = parse(time, &inputs.words).ok()?;
    execute(time, &inputs.slots, &command).ok()?;
    let Lookup::Live(slot, record) = lookup(time, &command.key, &inputs.slots) else {
        return None;
    };
    match command.action {
        Action::Excas(swap) if swap.version == record.version => {
            let start = value_start(&inputs.words);
            Some(Shown { in_command: true, start, len: swap.value.len() })
        }
        Action::Excas(_) | Action::Exget { .. } => Some(value_of(inputs.first + slot, record)),
        _ => None,
    }
}

/// A record's value in the table.
fn value_of(slot: usize, record: &Record) -> Shown {
    Shown { in_command: false, start: slot * RECORD + VALUE_AT, len: record.value.len() }
}

/// Where in a command the bytes of its third word start.
fn value_start(words: &[&[u8]]) -> usize {
    let before = [
        line('*', words.len()),
        bulk_bytes(words[0]),
        bulk_bytes(words[1]),
        line('$', words[2].len()),
    ];
    before.concat().len()
}
