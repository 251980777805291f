//! A command's bytes to what it asks for, or to the number that refuses it (4 to 11).

use crate::bytes::*;
use crate::table::{key_at, Key, TOP_TIME};
use core::mem::MaybeUninit;

#[derive(Clone, Copy, PartialEq, Eq)]
pub enum Op {
    Set,
    Get,
    SetVer,
    IncrBy,
    Cas,
    Cad,
    Append,
    Prepend,
    Gae,
    Del,
}

pub const EX: u32 = 1;
pub const PX: u32 = 1 << 1;
pub const EXAT: u32 = 1 << 2;
pub const PXAT: u32 = 1 << 3;
pub const KEEPTTL: u32 = 1 << 4;
pub const NX: u32 = 1 << 5;
pub const XX: u32 = 1 << 6;
pub const VER: u32 = 1 << 7;
pub const ABS: u32 = 1 << 8;
pub const FLAGS: u32 = 1 << 9;
pub const MIN: u32 = 1 << 10;
pub const MAX: u32 = 1 << 11;
pub const NONEGATIVE: u32 = 1 << 12;
pub const WITHVERSION: u32 = 1 << 13;
pub const WITHFLAGS: u32 = 1 << 14;
pub const TIMES: u32 = EX | PX | EXAT | PXAT;
const CLOCKS: u32 = TIMES | KEEPTTL;

struct Kind {
    fixed: u8, // words, the name counted
    most: u8,
    value: bool, // word 2 is a value
    number: u8,  // the word that is a number, 0 for none
    signed: bool,
    options: u32,
}

const fn kind(fixed: u8, most: u8, value: bool, number: u8, signed: bool, options: u32) -> Kind {
    Kind { fixed, most, value, number, signed, options }
}

static KINDS: [Kind; 10] = [
    kind(3, 16, true, 0, false, TIMES | NX | XX | VER | ABS | FLAGS | WITHVERSION),
    kind(2, 16, false, 0, false, WITHFLAGS),
    kind(3, 3, false, 2, false, 0),
    kind(3, 16, false, 2, true, TIMES | NX | XX | VER | ABS | MIN | MAX | NONEGATIVE | WITHVERSION),
    kind(4, 16, true, 3, false, CLOCKS),
    kind(3, 3, false, 2, false, 0),
    kind(3, 16, true, 0, false, NX | XX | VER | ABS),
    kind(3, 16, true, 0, false, NX | XX | VER | ABS),
    kind(2, 16, false, 0, false, TIMES),
    kind(2, 2, false, 0, false, 0),
];

pub struct Command {
    pub op: Op,
    pub key: Key,
    pub value: *const u8,
    pub value_len: usize,
    pub number: i64,  // EXINCRBY's, or the version of EXSETVER, EXCAS, EXCAD
    pub options: u32, // those given
    pub expiry: u64,  // with a time word: the resulting one
    pub version: u64, // VER's or ABS's
    pub flags: u32,
    pub min: i64, // the smallest and the largest where not given
    pub max: i64,
}

/// At most eight letters, low byte first, as `load_ending` gives them.
pub const fn letters(text: &[u8]) -> u64 {
    let (mut v, mut i) = (0, 0);
    while i < text.len() {
        v |= (text[i] as u64) << (8 * i);
        i += 1;
    }
    v
}

/// Without the bit that tells lower case from upper: exact where the other side is a letter.
pub const FOLD: u64 = 0xdfdf_dfdf_dfdf_dfdf;

#[derive(Clone, Copy)]
pub struct Word {
    pub at: *const u8,
    pub len: usize,
}

/// Room for the words of a command.
pub type Words = [MaybeUninit<Word>; 16];

const CRLF: u16 = u16::from_le_bytes(*b"\r\n");

/// The words of an array of bulk strings: how many, or 0 where the command is malformed (number 4).
#[inline(never)]
// As a range it takes one instruction more.
#[allow(clippy::manual_range_contains)]
unsafe fn split(c: *const u8, n: usize, words: &mut Words) -> usize {
    if n < 10 || n > 512 {
        return 0;
    }
    let end = c.add(n);
    let head = load32(c);
    let mut count = (head >> 8 & 0xff).wrapping_sub(48) as usize;
    let mut p = c.add(4);
    if head & 0xffff_00ff == u32::from_le_bytes(*b"*\0\r\n") {
        if count.wrapping_sub(1) > 8 {
            return 0;
        }
    } else {
        count = 10 + (head >> 16 & 0xff).wrapping_sub(48) as usize;
        if head & 0xff00_ffff != u32::from_le_bytes(*b"*1\0\r")
            || *p != b'\n'
            || count.wrapping_sub(10) > 6
        {
            return 0;
        }
        p = p.add(1);
    }
    let mut word = words.as_mut_ptr() as *mut Word;
    let stop = word.add(count);
    loop {
        let left = end.offset_from(p);
        if left < 6 {
            return 0; // `$0\r\n\r\n` is the shortest word
        }
        let head = load32(p);
        let mut len = (head >> 8 & 0xff).wrapping_sub(48) as usize;
        if head & 0xffff_00ff == u32::from_le_bytes(*b"$\0\r\n") {
            if len > 9 {
                return 0;
            }
            p = p.add(4);
        } else {
            let two = (head >> 16 & 0xff).wrapping_sub(48) as usize;
            if head as u8 != b'$' || len.wrapping_sub(1) > 8 || two > 9 {
                return 0;
            }
            len = 10 * len + two;
            if (head >> 24) as u8 == b'\r' && *p.add(4) == b'\n' {
                p = p.add(5);
            } else {
                let three = (head >> 24).wrapping_sub(48) as usize;
                if three > 9 || load16(p.add(4)) != CRLF {
                    return 0;
                }
                len = 10 * len + three;
                p = p.add(6);
            }
        }
        word.write(Word { at: p, len });
        // At most 999 past the command: compared before it is read from.
        p = p.wrapping_add(len + 2);
        if p > end || load16(p.sub(2)) != CRLF {
            return 0;
        }
        word = word.add(1);
        if word == stop {
            break;
        }
    }
    if p == end {
        count
    } else {
        0
    }
}

#[inline(always)]
unsafe fn op_of(p: *const u8, len: usize) -> Option<Op> {
    const EXSET: u64 = letters(b"EXSET");
    const EXGET: u64 = letters(b"EXGET");
    const EXCAS: u64 = letters(b"EXCAS");
    const EXCAD: u64 = letters(b"EXCAD");
    const EXGAE: u64 = letters(b"EXGAE");
    const EXSETVER: u64 = letters(b"EXSETVER");
    const EXINCRBY: u64 = letters(b"EXINCRBY");
    const EXAPPEND: u64 = letters(b"EXAPPEND");
    const DEL: u64 = letters(b"DEL");
    Some(match len {
        5 => match load_ending(p.add(5), 5) & FOLD {
            EXGET => Op::Get,
            EXSET => Op::Set,
            EXCAS => Op::Cas,
            EXCAD => Op::Cad,
            EXGAE => Op::Gae,
            _ => return None,
        },
        8 => match load64(p) & FOLD {
            EXINCRBY => Op::IncrBy,
            EXAPPEND => Op::Append,
            EXSETVER => Op::SetVer,
            _ => return None,
        },
        9 if load64(p) & FOLD == letters(b"EXPREPEN") && *p.add(8) & 0xdf == b'D' => Op::Prepend,
        3 if load_ending(p.add(3), 3) & FOLD == DEL => Op::Del,
        _ => return None,
    })
}

/// The option's bit, and the bits of those that cannot stand beside it (its own among them); 0 for
/// no option.
#[inline(always)]
unsafe fn option_of(p: *const u8, len: usize) -> (u32, u32) {
    const W_EX: u16 = letters(b"EX") as u16;
    const W_PX: u16 = letters(b"PX") as u16;
    const W_NX: u16 = letters(b"NX") as u16;
    const W_XX: u16 = letters(b"XX") as u16;
    const W_VER: u64 = letters(b"VER");
    const W_ABS: u64 = letters(b"ABS");
    const W_MIN: u64 = letters(b"MIN");
    const W_MAX: u64 = letters(b"MAX");
    const W_EXAT: u32 = letters(b"EXAT") as u32;
    const W_PXAT: u32 = letters(b"PXAT") as u32;
    match len {
        2 => match load16(p) & 0xdfdf {
            W_EX => (EX, CLOCKS),
            W_PX => (PX, CLOCKS),
            W_NX => (NX, NX | XX),
            W_XX => (XX, NX | XX),
            _ => (0, 0),
        },
        3 => match load_ending(p.add(3), 3) & FOLD {
            W_VER => (VER, VER | ABS),
            W_ABS => (ABS, VER | ABS),
            W_MIN => (MIN, MIN),
            W_MAX => (MAX, MAX),
            _ => (0, 0),
        },
        4 => match load32(p) & 0xdfdf_dfdf {
            W_EXAT => (EXAT, CLOCKS),
            W_PXAT => (PXAT, CLOCKS),
            _ => (0, 0),
        },
        5 if load_ending(p.add(5), 5) & FOLD == letters(b"FLAGS") => (FLAGS, FLAGS),
        7 if load_ending(p.add(7), 7) & FOLD == letters(b"KEEPTTL") => (KEEPTTL, CLOCKS),
        9 if load64(p) & FOLD == letters(b"WITHFLAG") && *p.add(8) & 0xdf == b'S' => {
            (WITHFLAGS, WITHFLAGS)
        }
        10 if load64(p) & FOLD == letters(b"NONEGATI")
            && load16(p.add(8)) & 0xdfdf == letters(b"VE") as u16 =>
        {
            (NONEGATIVE, NONEGATIVE)
        }
        11 if load64(p) & FOLD == letters(b"WITHVERS")
            && load_ending(p.add(11), 3) & FOLD == letters(b"ION") =>
        {
            (WITHVERSION, WITHVERSION)
        }
        _ => (0, 0),
    }
}

/// Reads a whole command and leaves its words. A BITFIELD has number 5 here. The time is at most
/// 2^62.
#[inline(always)]
pub unsafe fn read(words: &mut Words, c: *const u8, n: usize, time: u64) -> Result<Command, u32> {
    let count = split(c, n, words);
    if count == 0 {
        return Err(4);
    }
    let word = |i: usize| {
        let w = words.get_unchecked(i).assume_init();
        (w.at, w.len)
    };

    let (p, len) = word(0);
    let Some(op) = op_of(p, len) else { return Err(5) };
    let kind = &KINDS[op as usize];
    if count < kind.fixed as usize || count > kind.most as usize {
        return Err(6);
    }
    let (p, len) = word(1);
    if len.wrapping_sub(1) > 23 {
        return Err(7);
    }
    let key = key_at(p, len);
    let (mut value, mut value_len) = (c, 0);
    if kind.value {
        (value, value_len) = word(2);
        if value_len > 64 {
            return Err(7);
        }
    }

    // All options before any number: 8 comes before 9.
    let mut options = 0;
    let (mut time_at, mut version_at, mut flags_at, mut min_at, mut max_at) = (0, 0, 0, 0, 0);
    let mut i = kind.fixed as usize;
    while i < count {
        let (p, len) = word(i);
        let (bit, rivals) = option_of(p, len);
        if bit & kind.options == 0 || options & rivals != 0 {
            return Err(8);
        }
        options |= bit;
        i += 1;
        if bit & (TIMES | VER | ABS | FLAGS | MIN | MAX) != 0 {
            if i == count {
                return Err(8);
            }
            if bit & TIMES != 0 {
                time_at = i;
            } else if bit & (VER | ABS) != 0 {
                version_at = i;
            } else if bit == FLAGS {
                flags_at = i;
            } else if bit == MIN {
                min_at = i;
            } else {
                max_at = i;
            }
            i += 1;
        }
    }
    if op == Op::Gae && time_at == 0 {
        return Err(8);
    }

    let read_number = |i: usize| {
        let (p, len) = word(i);
        number(p, len).ok_or(9u32)
    };
    let mut command = Command {
        op,
        key,
        value,
        value_len,
        number: 0,
        options,
        expiry: 0,
        version: 0,
        flags: 0,
        min: i64::MIN,
        max: i64::MAX,
    };
    if kind.number != 0 {
        command.number = read_number(kind.number as usize)?;
        if command.number < 0 && !kind.signed {
            return Err(9);
        }
    }
    if options & !(NX | XX | WITHVERSION | WITHFLAGS | KEEPTTL | NONEGATIVE) != 0 {
        if version_at != 0 {
            let v = read_number(version_at)?;
            if v < 0 {
                return Err(9);
            }
            command.version = v as u64;
        }
        if flags_at != 0 {
            command.flags = u32::try_from(read_number(flags_at)?).map_err(|_| 9u32)?;
        }
        if min_at != 0 {
            command.min = read_number(min_at)?;
        }
        if max_at != 0 {
            command.max = read_number(max_at)?;
        }
        if time_at != 0 {
            let v = read_number(time_at)?;
            if v < 1 {
                return Err(10);
            }
            let v = v as u64;
            let scale = if options & (EX | EXAT) != 0 { 1000 } else { 1 };
            if v > TOP_TIME / scale {
                return Err(10);
            }
            let expiry = v * scale + if options & (EX | PX) != 0 { time } else { 0 };
            if expiry > TOP_TIME {
                return Err(10);
            }
            command.expiry = expiry;
        }
        if options & (MIN | MAX) == MIN | MAX && command.min > command.max {
            return Err(11);
        }
    }
    Ok(command)
}
