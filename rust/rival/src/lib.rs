//! For measuring only: the store of document 01, with what document 02 changes, written by hand for
//! speed. The benchmark holds the library's time and instructions against it; its tests hold it
//! against the reference.
//!
//! It has unsafe code and SSE2 loads, no heap and no copies while a command is read. One pass over
//! the table checks each record, enters its key in a hash on the stack and notes the first empty
//! slot; the key's record is then found by that hash. The hash is fixed: keys made to collide make
//! it quadratic.

mod bitfield;
mod bytes;
mod command;
mod execute;
mod reply;
mod table;

use bytes::copy64;
use command::{read, Op, Words};
use core::mem::MaybeUninit;
use execute::{execute, version_of};
use reply::{Reply, ERRORS};
use table::{check, is_live, Index, RECORD, TOP_TIME, TOP_VERSION};

/// Where a current value stands: in the command if `in_command`, else in the table, from byte
/// `start` on, `len` bytes long.
#[derive(Clone, Copy, Debug, PartialEq, Eq)]
pub struct Shown {
    pub in_command: bool,
    pub start: usize,
    pub len: usize,
}

/// Runs one command; gives its number and the reply's length. Not inlined, so that instructions
/// can be counted by its name.
#[inline(never)]
pub fn call(table: &mut [u8], time: u64, command: &[u8], reply: &mut [u8]) -> (u32, usize) {
    // SAFETY: the pointers come from slices, with their lengths, and the mutable ones are borrowed
    // alone. `execute` and `bitfield::run` get a table that `check` found good, a command or its
    // words read from `command`, and a reply buffer of 128 bytes, which every reply fits.
    unsafe { call_at(table, time, command, reply) }
}

#[inline(always)]
unsafe fn call_at(table: &mut [u8], time: u64, command: &[u8], reply: &mut [u8]) -> (u32, usize) {
    let mut index = MaybeUninit::uninit();
    if !check(&mut index, table.as_ptr(), table.len()) {
        return (1, 0);
    }
    let index = index.assume_init_ref();
    if time > TOP_TIME {
        return (2, 0);
    }
    if reply.len() < 128 {
        return (3, 0);
    }
    let mut words: Words = [MaybeUninit::uninit(); 16];
    let start = reply.as_mut_ptr();
    let mut out = Reply { at: start };
    let number = match read(&mut words, command.as_ptr(), command.len(), time) {
        Ok(c) => execute(table.as_mut_ptr(), time, &c, index, &mut out),
        Err(4) => return (4, 0),
        // Asked last and answered apart, so that it costs the other commands nothing.
        Err(5) if bitfield::is_name(words[0].assume_init()) => {
            return bitfield_at(table, time, command, &words, index, start);
        }
        Err(number) => number,
    };
    answer(number, start, out)
}

#[inline(never)]
unsafe fn bitfield_at(
    table: &mut [u8],
    time: u64,
    command: &[u8],
    words: &Words,
    index: &Index,
    start: *mut u8,
) -> (u32, usize) {
    let mut out = Reply { at: start };
    let words = words.as_ptr().cast();
    let number = bitfield::run(table.as_mut_ptr(), time, command.as_ptr(), words, index, &mut out);
    answer(number, start, out)
}

/// The number and the length of the reply, which for a refusal is its error.
#[inline(always)]
unsafe fn answer(number: u32, start: *mut u8, out: Reply) -> (u32, usize) {
    if number == 0 {
        return (0, out.at.offset_from(start) as usize);
    }
    let text = ERRORS[number as usize - 5];
    copy64(start, text.as_ptr(), text.len());
    (number, text.len())
}

/// Where the value stands that an EXGET or EXCAS would leave; none for anything else.
pub fn current_value(table: &[u8], time: u64, command: &[u8]) -> Option<Shown> {
    // SAFETY: as for `call`; nothing is written.
    unsafe { current_value_at(table, time, command) }
}

unsafe fn current_value_at(table: &[u8], time: u64, command: &[u8]) -> Option<Shown> {
    let mut index = MaybeUninit::uninit();
    if !check(&mut index, table.as_ptr(), table.len()) || time > TOP_TIME {
        return None;
    }
    let index = index.assume_init_ref();
    let mut words: Words = [MaybeUninit::uninit(); 16];
    let c = read(&mut words, command.as_ptr(), command.len(), time).ok()?;
    if c.op != Op::Get && c.op != Op::Cas {
        return None;
    }
    let slot = index.find(table.as_ptr(), &c.key)?;
    let r = table.as_ptr().add(slot * RECORD);
    if !is_live(r, time) {
        return None;
    }
    if c.op == Op::Get || version_of(r) != c.number as u64 {
        return Some(Shown {
            in_command: false,
            start: slot * RECORD + 48,
            len: *r.add(2) as usize,
        });
    }
    if version_of(r) == TOP_VERSION {
        return None; // refused: the version cannot rise
    }
    let start = c.value.offset_from(command.as_ptr()) as usize;
    Some(Shown { in_command: true, start, len: c.value_len })
}
