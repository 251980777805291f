//! Tests 1 to 4 and 18, which come before the command's own.

use crate::checked::{check, given, Checked};
use crate::partition::View;
use crate::resp::decode;
use crate::table::{read_table, Slot, TIME_LIMIT};

/// The shortest reply buffer: every reply fits in it.
pub const REPLY_ROOM: usize = 128;

/// The slots of the caller's part and the words of the command.
pub struct Inputs<'a> {
    pub slots: Vec<Slot>,
    /// The number of the first of these slots in the whole table.
    pub first: usize,
    pub words: Vec<&'a [u8]>,
}

/// `room` is the length of the reply buffer.
pub fn gate<'a>(
    view: View,
    table: &[u8],
    time: u64,
    room: usize,
    command: &'a [u8],
) -> Checked<Inputs<'a>> {
    let all = given(1, read_table(table))?;
    check(18, view.boundary_ok(all.len()))?;
    check(1, view.keys_ok(&all))?;
    check(2, time <= TIME_LIMIT)?;
    check(3, room >= REPLY_ROOM)?;
    let words = given(4, decode(command))?;
    let part = view.slots_in(all.len());
    Ok(Inputs { slots: all[part.clone()].to_vec(), first: part.start, words })
}
