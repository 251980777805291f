//! What a command does to a good table, and its reply.

use crate::bytes::*;
use crate::command::*;
use crate::reply::Reply;
use crate::table::*;

const STALE: &[u8] = b"*3\r\n+ERR update version is stale\r\n";

#[inline(always)]
pub unsafe fn version_of(r: *const u8) -> u64 {
    load64(r.add(8))
}

/// A whole record afresh, but for its value.
#[inline(always)]
pub unsafe fn fresh(
    r: *mut u8,
    key: &Key,
    value_len: usize,
    flags: u32,
    version: u64,
    expiry: u64,
) {
    store64(r, 1 | (key.len as u64) << 8 | (value_len as u64) << 16 | (flags as u64) << 32);
    store64(r.add(8), version);
    store64(r.add(16), expiry);
    store64(r.add(24), key.words[0]);
    store64(r.add(32), key.words[1]);
    store64(r.add(40), key.words[2]);
    zero::<5>(r.add(48));
}

#[inline(always)]
pub unsafe fn execute(
    table: *mut u8,
    time: u64,
    c: &Command,
    index: &Index,
    reply: &mut Reply,
) -> u32 {
    let slot = index.find(table, &c.key);
    let r = table.add(slot.unwrap_or(0) * RECORD);
    let live = slot.is_some() && is_live(r, time);

    if c.options & (NX | XX) != 0 && (c.options & NX != 0) == live {
        reply.text(b"$-1\r\n");
        return 0;
    }
    match c.op {
        Op::Get => {
            if !live {
                reply.text(b"$-1\r\n");
                return 0;
            }
            let with_flags = c.options & WITHFLAGS != 0;
            reply.text(if with_flags { b"*3\r\n" } else { b"*2\r\n" });
            reply.value(r);
            reply.unsigned(version_of(r));
            if with_flags {
                reply.unsigned(load32(r.add(4)) as u64);
            }
            return 0;
        }
        Op::Gae => {
            if !live {
                reply.text(b"$-1\r\n");
                return 0;
            }
            reply.text(b"*3\r\n");
            reply.value(r);
            reply.unsigned(version_of(r));
            reply.unsigned(load32(r.add(4)) as u64);
            store64(r.add(16), c.expiry);
            return 0;
        }
        Op::SetVer => {
            if live {
                store64(r.add(8), c.number as u64);
                reply.text(b":1\r\n");
            } else {
                reply.text(b":0\r\n");
            }
            return 0;
        }
        Op::Del | Op::Cad => {
            if !live {
                if c.op == Op::Del {
                    reply.text(b":0\r\n");
                } else {
                    reply.text(b":-1\r\n");
                }
            } else if c.op == Op::Cad && version_of(r) != c.number as u64 {
                reply.text(b":0\r\n");
            } else {
                zero::<8>(r);
                reply.text(b":1\r\n");
            }
            return 0;
        }
        Op::Cas => {
            if !live {
                reply.text(b":-1\r\n");
                return 0;
            }
            let version = version_of(r);
            if version != c.number as u64 {
                copy64(reply.at, STALE.as_ptr(), STALE.len());
                reply.at = reply.at.add(STALE.len());
                reply.value(r);
                reply.unsigned(version);
                return 0;
            }
            if version == TOP_VERSION {
                return 15;
            }
            *r.add(2) = c.value_len as u8;
            store64(r.add(8), version + 1);
            if c.options & KEEPTTL == 0 {
                store64(r.add(16), c.expiry); // 0 without a time word
            }
            zero::<4>(r.add(48));
            copy64(r.add(48), c.value, c.value_len);
            reply.text(b"*3\r\n+OK\r\n+\r\n");
            reply.unsigned(version + 1);
            return 0;
        }
        Op::Set | Op::IncrBy | Op::Append | Op::Prepend => {}
    }

    // The four that make a record where there is none.
    if live && c.options & VER != 0 && version_of(r) != c.version {
        return 12;
    }
    let mut sum = 0;
    if c.op == Op::IncrBy {
        let start = if live {
            let Some(v) = number(r.add(48), *r.add(2) as usize) else { return 13 };
            v
        } else {
            0
        };
        let (wrapped, outside) = start.overflowing_add(c.number);
        // Outside 64 bits the sum has the sign of both its terms.
        let negative = if outside { start < 0 } else { wrapped < 0 };
        if negative && c.options & NONEGATIVE != 0 {
            sum = 0;
        } else if outside {
            return 14;
        } else {
            sum = wrapped;
        }
        if sum < c.min || sum > c.max {
            return 14;
        }
    }
    let version = if c.options & ABS != 0 {
        c.version
    } else if live {
        if version_of(r) == TOP_VERSION {
            return 15;
        }
        version_of(r) + 1
    } else {
        1
    };
    let old_len = if live { *r.add(2) as usize } else { 0 };
    if old_len + c.value_len > 64 && (c.op == Op::Append || c.op == Op::Prepend) {
        return 16;
    }
    let r = match slot {
        Some(_) => r,
        None => match index.room(table, time) {
            Some(i) => table.add(i * RECORD),
            None => return 17,
        },
    };
    match c.op {
        Op::Set => {
            fresh(r, &c.key, c.value_len, c.flags, version, c.expiry);
            copy64(r.add(48), c.value, c.value_len);
            if c.options & WITHVERSION != 0 {
                reply.unsigned(version);
            } else {
                reply.text(b"+OK\r\n");
            }
        }
        Op::IncrBy => {
            if live {
                store64(r.add(8), version);
                if c.options & TIMES != 0 {
                    store64(r.add(16), c.expiry);
                }
                zero::<2>(r.add(48)); // the old text was a number too: at most 21 bytes
            } else {
                fresh(r, &c.key, 0, 0, version, c.expiry);
            }
            let end = put_signed(r.add(48), sum);
            *r.add(2) = end.offset_from(r.add(48)) as u8;
            if c.options & WITHVERSION != 0 {
                reply.text(b"*2\r\n");
            }
            reply.signed(sum);
            if c.options & WITHVERSION != 0 {
                reply.unsigned(version);
            }
        }
        _ => {
            if live {
                store64(r.add(8), version);
                *r.add(2) = (old_len + c.value_len) as u8;
            } else {
                fresh(r, &c.key, c.value_len, 0, version, 0);
            }
            let value = r.add(48);
            if c.op == Op::Append {
                copy64(value.add(old_len), c.value, c.value_len);
            } else {
                core::ptr::copy(value, value.add(c.value_len), old_len);
                copy64(value, c.value, c.value_len);
            }
            reply.unsigned(version);
        }
    }
    0
}
