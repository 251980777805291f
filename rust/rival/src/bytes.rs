//! Loads, stores and decimal text. Little-endian x86-64; SSE2 is part of the default target.
//!
//! Many loads here end at a place instead of starting there: a word of a command has at least eight
//! bytes before it (`*1\r\n$1\r\n`), and a record's value has the key's place before it. So one
//! 8-byte load that ends with the text, and a shift, gives a short text without reading past its
//! end.

#[inline(always)]
pub unsafe fn load16(p: *const u8) -> u16 {
    (p as *const u16).read_unaligned()
}
#[inline(always)]
pub unsafe fn load32(p: *const u8) -> u32 {
    (p as *const u32).read_unaligned()
}
#[inline(always)]
pub unsafe fn load64(p: *const u8) -> u64 {
    (p as *const u64).read_unaligned()
}
#[inline(always)]
pub unsafe fn store16(p: *mut u8, v: u16) {
    (p as *mut u16).write_unaligned(v)
}
#[inline(always)]
pub unsafe fn store32(p: *mut u8, v: u32) {
    (p as *mut u32).write_unaligned(v)
}
#[inline(always)]
pub unsafe fn store64(p: *mut u8, v: u64) {
    (p as *mut u64).write_unaligned(v)
}

/// The first `n` bytes (1 to 8) of a text that ends at `end`, low byte first, zeros above. Reads
/// the 8 bytes before `end`.
#[inline(always)]
pub unsafe fn load_ending(end: *const u8, n: usize) -> u64 {
    load64(end.sub(8)) >> (64 - 8 * n)
}

/// Copies `n` bytes, at most 64, between parts that do not overlap; touches no byte outside them.
#[inline(always)]
pub unsafe fn copy64(dst: *mut u8, src: *const u8, n: usize) {
    type V = core::arch::x86_64::__m128i;
    let get = |at: usize| (src.add(at) as *const V).read_unaligned();
    let put = |at: usize, v: V| (dst.add(at) as *mut V).write_unaligned(v);
    if n >= 16 {
        // The last 16 bytes may overlap the ones before them: they hold the same.
        let last = get(n - 16);
        put(0, get(0));
        if n > 32 {
            put(16, get(16));
            if n > 48 {
                put(32, get(32));
            }
        }
        put(n - 16, last);
    } else if n >= 8 {
        let (a, b) = (load64(src), load64(src.add(n - 8)));
        store64(dst, a);
        store64(dst.add(n - 8), b);
    } else if n >= 4 {
        let (a, b) = (load32(src), load32(src.add(n - 4)));
        store32(dst, a);
        store32(dst.add(n - 4), b);
    } else if n > 0 {
        let (a, b, c) = (*src, *src.add(n / 2), *src.add(n - 1));
        *dst = a;
        *dst.add(n / 2) = b;
        *dst.add(n - 1) = c;
    }
}

/// Zeros in 16 `N` bytes.
#[inline(always)]
pub unsafe fn zero<const N: usize>(p: *mut u8) {
    (p as *mut [u8; 16]).cast::<[[u8; 16]; N]>().write_unaligned([[0; 16]; N]);
}

/// Eight digits (values 0 to 9, first in the low byte) to their number.
#[inline(always)]
fn eight(v: u64) -> u64 {
    let v = v.wrapping_mul(10).wrapping_add(v >> 8);
    let a = (v & 0x0000_00ff_0000_00ff).wrapping_mul(0x000f_4240_0000_0064);
    let b = (v >> 16 & 0x0000_00ff_0000_00ff).wrapping_mul(0x0000_2710_0000_0001);
    a.wrapping_add(b) >> 32
}

#[inline(always)]
fn not_digits(v: u64) -> u64 {
    (v | v.wrapping_add(0x7676_7676_7676_7676)) & 0x8080_8080_8080_8080
}

const ZEROS: u64 = 0x3030_3030_3030_3030;

/// A number word or a stored number: an optional plus or minus and one to twenty digits, within 64
/// signed bits. Eight bytes before `p` must be readable.
#[inline(always)]
pub unsafe fn number(p: *const u8, len: usize) -> Option<i64> {
    if len.wrapping_sub(1) > 20 {
        return None;
    }
    if len == 1 && *p == b'0' {
        return Some(0);
    }
    let minus = *p == b'-';
    // The distance from plus is 0 for plus and 2 for minus.
    let signed = (*p).wrapping_sub(b'+') & !2 == 0;
    let n = len - signed as usize;
    let end = p.add(len);
    if n.wrapping_sub(1) > 19 {
        return None;
    }
    // The load that ends with the text has the other bytes in front: they become leading zeros.
    let magnitude = if n <= 8 {
        let v = (load64(end.sub(8)) ^ ZEROS) & (!0 << (64 - 8 * n));
        if not_digits(v) != 0 {
            return None;
        }
        eight(v)
    } else {
        let low = load64(end.sub(8)) ^ ZEROS;
        let (m, end) = (n - 8, end.sub(8));
        if m <= 8 {
            let high = (load64(end.sub(8)) ^ ZEROS) & (!0 << (64 - 8 * m));
            if not_digits(low) | not_digits(high) != 0 {
                return None;
            }
            eight(high) * 100_000_000 + eight(low)
        } else {
            let middle = load64(end.sub(8)) ^ ZEROS;
            let (m, end) = (m - 8, end.sub(8));
            let high = (load64(end.sub(8)) ^ ZEROS) & (!0 << (64 - 8 * m));
            if not_digits(low) | not_digits(middle) | not_digits(high) != 0 {
                return None;
            }
            // 923 and sixteen digits are above 2^63; up to there nothing overflows 64 bits.
            let high = eight(high);
            if high > 922 {
                return None;
            }
            (high * 100_000_000 + eight(middle)) * 100_000_000 + eight(low)
        }
    };
    let bound = i64::MAX as u64 + minus as u64;
    if magnitude > bound {
        return None;
    }
    Some(if minus { (magnitude as i64).wrapping_neg() } else { magnitude as i64 })
}

static PAIRS: [u8; 200] = {
    let mut t = [0u8; 200];
    let mut i = 0;
    while i < 100 {
        t[2 * i] = b'0' + (i / 10) as u8;
        t[2 * i + 1] = b'0' + (i % 10) as u8;
        i += 1;
    }
    t
};

static POWERS: [u64; 20] = {
    let mut t = [0u64; 20]; // entry 0 is 0, so that the number 0 has one digit
    let (mut i, mut p) = (1, 10u64);
    while i < 20 {
        t[i] = p;
        if i < 19 {
            p *= 10;
        }
        i += 1;
    }
    t
};

/// Writes a number's text, gives the place after it.
#[inline(always)]
pub unsafe fn put_unsigned(p: *mut u8, mut v: u64) -> *mut u8 {
    if v < 10 {
        *p = b'0' + v as u8;
        return p.add(1);
    }
    let t = ((64 - (v | 1).leading_zeros() as usize) * 1233) >> 12;
    let digits = t + (v >= *POWERS.get_unchecked(t)) as usize;
    let end = p.add(digits);
    let mut at = end;
    let pair = |at: *mut u8, two: u64| store16(at, load16(PAIRS.as_ptr().add(2 * two as usize)));
    while v >= 100 {
        at = at.sub(2);
        pair(at, v % 100);
        v /= 100;
    }
    if v >= 10 {
        pair(at.sub(2), v);
    } else {
        *at.sub(1) = b'0' + v as u8;
    }
    end
}

#[inline(always)]
pub unsafe fn put_signed(mut p: *mut u8, v: i64) -> *mut u8 {
    if v < 0 {
        *p = b'-';
        p = p.add(1);
    }
    put_unsigned(p, v.unsigned_abs())
}
