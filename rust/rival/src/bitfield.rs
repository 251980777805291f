//! BITFIELD. Its words are read in one pass that notes the first fault by number, and a field is
//! read and written by one load of eight bytes and one of the ninth.

use crate::bytes::*;
use crate::command::{letters, Word, FOLD};
use crate::execute::{fresh, version_of};
use crate::reply::Reply;
use crate::table::*;
use core::mem::MaybeUninit;

#[derive(Clone, Copy, PartialEq, Eq)]
enum Op {
    Get,
    Set,
    Wrap,
    Sat,
    Fail,
}

#[derive(Clone, Copy)]
struct Sub {
    op: Op,
    signed: bool,
    rest: u32, // 64 less the width
    offset: u64,
    number: i64, // SET's, or the increment
}

/// The most subcommands in 14 words.
const MOST: usize = 4;

const LAST_BIT: u64 = 511;

/// What is read where there is no record: no byte past 8 + 63 is.
static NOTHING: [u8; 72] = [0; 72];

/// Is this the name? It is asked of names that no other command has.
#[inline(always)]
pub unsafe fn is_name(word: Word) -> bool {
    word.len == 8 && load64(word.at) & FOLD == letters(b"BITFIELD")
}

/// How many words a command has, which is known to be one.
#[inline(always)]
unsafe fn count_of(command: *const u8) -> usize {
    let one = (*command.add(1) - b'0') as usize;
    let two = (*command.add(2)).wrapping_sub(b'0') as usize;
    if two > 9 {
        one
    } else {
        10 + two
    }
}

/// A type: whether it is signed, and 64 less its width.
#[inline(always)]
unsafe fn type_of(word: Word) -> Option<(bool, u32)> {
    let one = (*word.at.add(1) as u32).wrapping_sub(48);
    let width = match word.len {
        2 => one,
        3 => {
            let two = (*word.at.add(2) as u32).wrapping_sub(48);
            if two > 9 || one.wrapping_sub(1) > 8 {
                return None;
            }
            10 * one + two
        }
        _ => return None,
    };
    let (signed, widest) = match *word.at {
        b'i' => (true, 64),
        b'u' => (false, 63),
        _ => return None,
    };
    // A byte that is no digit gives a number above 9, which may be a width.
    if width.wrapping_sub(1) >= widest || (word.len == 2 && width > 9) {
        return None;
    }
    Some((signed, 64 - width))
}

#[inline(always)]
unsafe fn offset_of(word: Word, rest: u32) -> Option<u64> {
    let counted = word.len != 0 && *word.at == b'#';
    let v = number(word.at.add(counted as usize), word.len - counted as usize)? as u64;
    if v >> 32 != 0 {
        return None;
    }
    Some(if counted { v * (64 - rest) as u64 } else { v })
}

/// A number of 64 bits cut to a field's width.
#[inline(always)]
fn cut(v: u64, signed: bool, rest: u32) -> i64 {
    if signed {
        (v << rest) as i64 >> rest
    } else {
        (v << rest >> rest) as i64
    }
}

/// One subcommand with an answer, from its three or four words, or 9.
#[inline(always)]
unsafe fn sub_of(op: Op, words: *const Word) -> Result<Sub, u32> {
    let (signed, rest) = type_of(*words.add(1)).ok_or(9u32)?;
    let offset = offset_of(*words.add(2), rest).ok_or(9u32)?;
    let mut by = 0;
    if op != Op::Get {
        let word = *words.add(3);
        by = number(word.at, word.len).ok_or(9u32)?;
        if op == Op::Set && cut(by as u64, signed, rest) != by {
            return Err(9);
        }
    }
    Ok(Sub { op, signed, rest, offset, number: by })
}

/// The subcommands of the words after the key: how many, or the number that refuses them.
#[inline(always)]
unsafe fn subs_of(
    words: *const Word,
    count: usize,
    subs: &mut [MaybeUninit<Sub>; MOST],
) -> Result<usize, u32> {
    const GET: u64 = letters(b"GET");
    const SET: u64 = letters(b"SET");
    const SAT: u64 = letters(b"SAT");
    const INCRBY: u64 = letters(b"INCRBY");
    const WRAP: u32 = letters(b"WRAP") as u32;
    const FAIL: u32 = letters(b"FAIL") as u32;
    let (mut i, mut n, mut fault) = (2, 0, 0);
    let mut overflow = Op::Wrap;
    while i < count {
        let word = *words.add(i);
        let end = word.at.add(word.len);
        let (op, len) = match word.len {
            3 => match load_ending(end, 3) & FOLD {
                GET => (Op::Get, 3),
                SET => (Op::Set, 4),
                _ => return Err(8),
            },
            6 if load_ending(end, 6) & FOLD == INCRBY => (overflow, 4),
            8 if load64(word.at) & FOLD == letters(b"OVERFLOW") && i + 1 < count => {
                let mode = *words.add(i + 1);
                overflow = match mode.len {
                    3 if load_ending(mode.at.add(3), 3) & FOLD == SAT => Op::Sat,
                    4 if load32(mode.at) & 0xdfdf_dfdf == WRAP => Op::Wrap,
                    4 if load32(mode.at) & 0xdfdf_dfdf == FAIL => Op::Fail,
                    _ => return Err(8),
                };
                i += 2;
                continue;
            }
            _ => return Err(8),
        };
        if i + len > count {
            return Err(8);
        }
        // 9 comes before 16, and an 8 further on before both.
        match sub_of(op, words.add(i)) {
            Err(number) => fault = number,
            Ok(sub) => {
                if op != Op::Get && sub.offset + (63 - sub.rest) as u64 > LAST_BIT && fault == 0 {
                    fault = 16;
                }
                subs.get_unchecked_mut(n).write(sub);
            }
        }
        n += 1;
        i += len;
    }
    if fault == 0 {
        Ok(n)
    } else {
        Err(fault)
    }
}

/// The number in a field, of a value that has zeros up to byte 71.
#[inline(always)]
unsafe fn get(value: *const u8, sub: &Sub) -> i64 {
    if sub.offset > LAST_BIT {
        return 0;
    }
    let (at, shift) = (value.add(sub.offset as usize / 8), sub.offset as u32 % 8);
    let ninth = *at.add(8) as u64;
    let bits = load64(at).swap_bytes() << shift | ninth >> (8 - shift);
    if sub.signed {
        bits as i64 >> sub.rest
    } else {
        (bits >> sub.rest) as i64
    }
}

/// Writes a number into a field; gives the length that the value needs for it.
#[inline(always)]
unsafe fn set(value: *mut u8, sub: &Sub, v: i64) -> usize {
    let (at, shift) = (value.add(sub.offset as usize / 8), sub.offset as u32 % 8);
    // At the top of a word, before it moves down to its place
    let (bits, mask) = ((v as u64) << sub.rest, !0u64 << sub.rest);
    let old = load64(at).swap_bytes();
    store64(at, (old & !(mask >> shift) | bits >> shift).swap_bytes());
    if shift > sub.rest {
        let (bits, mask) = ((bits << (8 - shift)) as u8, (mask << (8 - shift)) as u8);
        *at.add(8) = *at.add(8) & !mask | bits;
    }
    (sub.offset as usize + 63 - sub.rest as usize) / 8 + 1
}

/// The sum that is stored, if one is.
#[inline(always)]
fn sum(sub: &Sub, old: i64) -> Option<i64> {
    let (wrapped, outside) = old.overflowing_add(sub.number);
    let cut = cut(wrapped as u64, sub.signed, sub.rest);
    if !outside && cut == wrapped {
        return Some(wrapped);
    }
    // Only what is added leads above, only what is taken away below.
    match sub.op {
        Op::Wrap => Some(cut),
        Op::Sat if sub.number > 0 => Some((u64::MAX >> sub.rest >> sub.signed as u32) as i64),
        Op::Sat => Some(if sub.signed { i64::MIN >> sub.rest } else { 0 }),
        _ => None,
    }
}

/// Carries out a BITFIELD, whose name is known, from its words and the bytes that begin with their
/// count. Nothing is written to the reply before all have run, nor to the table before it is known
/// that a write is not refused.
#[inline(always)]
pub unsafe fn run(
    table: *mut u8,
    time: u64,
    command: *const u8,
    words: *const Word,
    index: &Index,
    reply: &mut Reply,
) -> u32 {
    let count = count_of(command);
    if count < 2 {
        return 6;
    }
    let name = *words.add(1);
    if name.len.wrapping_sub(1) > 23 {
        return 7;
    }
    let mut subs = [MaybeUninit::uninit(); MOST];
    let n = match subs_of(words, count, &mut subs) {
        Ok(n) => n,
        Err(number) => return number,
    };

    let key = key_at(name.at, name.len);
    let slot = index.find(table, &key);
    let mut r = table.add(slot.unwrap_or(0) * RECORD);
    let live = slot.is_some() && is_live(r, time);
    let mut value = if live { r.add(48) } else { NOTHING.as_ptr() as *mut u8 };
    let mut value_len = if live { *r.add(2) as usize } else { 0 };
    let mut wrote = false;
    let mut answers = [MaybeUninit::<Option<i64>>::uninit(); MOST];
    for i in 0..n {
        let sub = subs.get_unchecked(i).assume_init_ref();
        let old = get(value, sub);
        let (answer, new) = match sub.op {
            Op::Get => (Some(old), None),
            Op::Set => (Some(old), Some(sub.number)),
            _ => {
                let sum = sum(sub, old);
                (sum, sum)
            }
        };
        answers.get_unchecked_mut(i).write(answer);
        let Some(new) = new else { continue };
        if !wrote {
            wrote = true;
            if live {
                if version_of(r) == TOP_VERSION {
                    return 15;
                }
                store64(r.add(8), version_of(r) + 1);
            } else {
                if slot.is_none() {
                    let Some(room) = index.room(table, time) else { return 17 };
                    r = table.add(room * RECORD);
                }
                fresh(r, &key, 0, 0, 1, 0);
                value = r.add(48);
            }
        }
        value_len = value_len.max(set(value, sub, new));
    }
    if wrote {
        *r.add(2) = value_len as u8;
    }
    reply.text(&[b'*', b'0' + n as u8, b'\r', b'\n']);
    for answer in &answers[..n] {
        match answer.assume_init() {
            Some(v) => reply.signed(v),
            None => reply.text(b"$-1\r\n"),
        }
    }
    0
}
