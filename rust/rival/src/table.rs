//! The table: one pass that checks every record and finds equal keys, then the key's record by the
//! same hash.

use crate::bytes::*;
use core::arch::x86_64::*;
use core::mem::MaybeUninit;

pub const RECORD: usize = 128;
pub const MOST_RECORDS: usize = 256;
pub const TOP_TIME: u64 = 1 << 62;
pub const TOP_VERSION: u64 = i64::MAX as u64;

/// A key as it stands in a record: 24 bytes, zeros after it, and its length (`a` and `a\0` are two
/// keys).
#[derive(Clone, Copy)]
pub struct Key {
    pub words: [u64; 3],
    pub len: usize,
}

/// A key of 1 to 24 bytes in a command, with at least eight bytes before it.
#[inline(always)]
pub unsafe fn key_at(p: *const u8, len: usize) -> Key {
    let end = p.add(len);
    let words = if len <= 8 {
        [load_ending(end, len), 0, 0]
    } else if len <= 16 {
        [load64(p), load_ending(end, len - 8), 0]
    } else {
        [load64(p), load64(p.add(8)), load_ending(end, len - 16)]
    };
    Key { words, len }
}

/// Chained hash over the keys, on the stack. An entry is a record's number plus one, 0 for none;
/// record 255 has none. As many heads are cleared and used as suit the table: 8 for a record, so
/// that few keys share one.
pub struct Index {
    heads: [MaybeUninit<u8>; 8 * MOST_RECORDS],
    next: [MaybeUninit<u8>; MOST_RECORDS],
    shift: u32,
    records: usize,
    first_empty: usize, // the number of records if there is none
}

/// Zeros, then 0xff: from a place that depends on a text's length on, a mask of the bytes after the
/// text.
#[repr(align(64))]
struct Masks {
    value: [u8; 64 + 64], // from 64 - length on
    key: [u8; 31 + 24],   // from 31 - length on
}
static MASKS: Masks = {
    let mut m = Masks { value: [0xff; 128], key: [0xff; 55] };
    let mut i = 0;
    while i < 64 {
        m.value[i] = 0;
        if i < 31 {
            m.key[i] = 0;
        }
        i += 1;
    }
    m
};

#[inline(always)]
fn hash(k: [u64; 3]) -> u64 {
    const C: u64 = 0x9e37_79b9_7f4a_7c15;
    k[0].wrapping_mul(C).wrapping_add(k[1]).wrapping_mul(C).wrapping_add(k[2]).wrapping_mul(C)
}

#[inline(always)]
unsafe fn key_of(record: *const u8) -> [u64; 3] {
    [load64(record.add(24)), load64(record.add(32)), load64(record.add(40))]
}

#[inline(always)]
unsafe fn same_key(record: *const u8, k: [u64; 3], len: u8) -> bool {
    let r = key_of(record);
    (r[0] ^ k[0]) | (r[1] ^ k[1]) | (r[2] ^ k[2]) | (*record.add(1) ^ len) as u64 == 0
}

/// Is the key of record `r` that of a record in the chain that begins with `entry`?
#[cold]
#[inline(never)]
unsafe fn in_chain(table: *const u8, next: *const u8, mut entry: u8, r: *const u8) -> bool {
    let (key, len) = (key_of(r), *r.add(1));
    while entry != 0 {
        let j = entry as usize - 1;
        if same_key(table.add(j * RECORD), key, len) {
            return true;
        }
        entry = *next.add(j);
    }
    false
}

/// Is the table good (number 1)? Fills the index. Linear in the number of records unless keys are
/// made to collide.
#[inline(never)]
pub unsafe fn check(index: &mut MaybeUninit<Index>, table: *const u8, table_len: usize) -> bool {
    let n = table_len / RECORD;
    if !table_len.is_multiple_of(RECORD) || n.wrapping_sub(1) >= MOST_RECORDS {
        return false;
    }
    let index = index.as_mut_ptr();
    let heads = (&raw mut (*index).heads) as *mut u8;
    let next = (&raw mut (*index).next) as *mut u8;
    let bits = 64 - (8 * n as u64 - 1).leading_zeros().min(58);
    let shift = 64 - bits;
    core::ptr::write_bytes(heads, 0, 1 << bits);

    let at = |p: *const u8, i: usize| _mm_loadu_si128(p.add(i) as *const __m128i);
    let or = |a, b| _mm_or_si128(a, b);
    let and = |a, b| _mm_and_si128(a, b);
    let tops = _mm_set_epi64x(TOP_TIME as i64, TOP_VERSION as i64);
    let mut must_be_zero = _mm_setzero_si128();
    let mut must_be_positive = _mm_setzero_si128();
    let mut first_empty = n;
    let mut i = 0;
    let mut r = table;
    while i < n {
        let head = load32(r);
        if head as u8 == 0 {
            let a = or(or(at(r, 0), at(r, 16)), or(at(r, 32), at(r, 48)));
            let b = or(or(at(r, 64), at(r, 80)), or(at(r, 96), at(r, 112)));
            must_be_zero = or(must_be_zero, or(a, b));
            first_empty = first_empty.min(i);
            i += 1;
            r = r.add(RECORD);
            continue;
        }
        // Bytes 0 and 3 are 1 and 0, key length 1 to 24, value length at most 64: a byte out of
        // range sets its top bit in one of the two sums, and a carry only comes out of a byte whose
        // top bit is set in the other one.
        if (head.wrapping_sub(0x0000_0100) | head.wrapping_add(0x003f_6700)) & 0xff80_80ff != 1 {
            return false;
        }
        // The key's chain. Its bytes after the key may still be wrong: then the table is bad in any
        // case.
        let chain = heads.add((hash(key_of(r)) >> shift) as usize);
        let entry = *chain;
        *next.add(i) = entry;
        *chain = (i + 1) as u8;
        if entry != 0 && in_chain(table, next, entry, r) {
            return false;
        }

        let numbers = at(r, 8); // version, expiry
        must_be_positive = or(or(must_be_positive, numbers), _mm_sub_epi64(tops, numbers));

        let flip = head ^ 0x007f_1f00; // 127 - value length, 31 - key length
        let vm = MASKS.value.as_ptr().wrapping_sub(63).wrapping_add((flip >> 16) as usize);
        let km = MASKS.key.as_ptr().wrapping_add((flip >> 8 & 0xff) as usize);
        must_be_zero = or(must_be_zero, at(r, 112));
        must_be_zero = or(must_be_zero, and(at(r, 48), at(vm, 0)));
        must_be_zero = or(must_be_zero, and(at(r, 64), at(vm, 16)));
        must_be_zero = or(must_be_zero, and(at(r, 80), at(vm, 32)));
        must_be_zero = or(must_be_zero, and(at(r, 96), at(vm, 48)));
        must_be_zero = or(must_be_zero, and(at(r, 24), at(km, 0)));
        must_be_zero = or(must_be_zero, and(at(r, 32), at(km, 8)));

        i += 1;
        r = r.add(RECORD);
    }
    if n == MOST_RECORDS && *table.add(255 * RECORD) != 0 {
        // 256 does not fit an entry: out again.
        *heads.add((hash(key_of(table.add(255 * RECORD))) >> shift) as usize) = *next.add(255);
    }
    (*index).shift = shift;
    (*index).records = n;
    (*index).first_empty = first_empty;
    let zeros = _mm_movemask_epi8(_mm_cmpeq_epi8(must_be_zero, _mm_setzero_si128()));
    zeros == 0xffff && _mm_movemask_pd(_mm_castsi128_pd(must_be_positive)) == 0
}

impl Index {
    /// The record in use with this key, live or not. After a check that was good.
    #[inline(always)]
    pub unsafe fn find(&self, table: *const u8, key: &Key) -> Option<usize> {
        let mut entry =
            *(self.heads.as_ptr() as *const u8).add((hash(key.words) >> self.shift) as usize);
        while entry != 0 {
            let j = entry as usize - 1;
            if same_key(table.add(j * RECORD), key.words, key.len as u8) {
                return Some(j);
            }
            entry = *(self.next.as_ptr() as *const u8).add(j);
        }
        // An empty record has key length 0.
        if self.records == MOST_RECORDS
            && same_key(table.add(255 * RECORD), key.words, key.len as u8)
        {
            return Some(255);
        }
        None
    }

    /// The record that a write to a key without a record takes: the lowest empty one, else the
    /// lowest expired one.
    #[inline(always)]
    pub unsafe fn room(&self, table: *const u8, time: u64) -> Option<usize> {
        if self.first_empty < self.records {
            return Some(self.first_empty);
        }
        (0..self.records).find(|&i| !is_live(table.add(i * RECORD), time))
    }
}

#[inline(always)]
pub unsafe fn is_live(record: *const u8, time: u64) -> bool {
    // Expiry 0 wraps to the largest number.
    load64(record.add(16)).wrapping_sub(1) >= time
}
