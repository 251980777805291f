//! Random keys, values, numbers and times, with a liking for limits.

use crate::layout::{MAX_KEY, MAX_TIME, MAX_VALUE};
use crate::numerals::{bad_number, numeral};
use crate::Rng;

/// A time in range.
pub fn time(rng: &mut Rng) -> u64 {
    match rng.below(10) {
        0 => 0,
        1 => rng.below(5) as u64,
        2..=4 => rng.between(900, 1100) as u64,
        5 | 6 => 1_700_000_000_000 + rng.below(1000) as u64,
        7 => MAX_TIME - rng.below(2000) as u64,
        8 => MAX_TIME,
        _ => rng.next_u64() >> 2,
    }
}

/// A key of 1 to 24 bytes.
pub fn key(rng: &mut Rng) -> Vec<u8> {
    match rng.below(10) {
        0..=2 => rng.pick(&["foo", "bar", "FOO", "fo", "foobar", "k", "EX", "NX", "0"]).into(),
        3 | 4 => format!("unit-{}", rng.below(1000)).into(),
        5 => vec![0; rng.between(1, MAX_KEY)],
        6 => {
            // Alike but for one byte
            let mut key = vec![b'k'; rng.pick(&[8, 9, 16, 17, 23, 24])];
            let at = rng.below(key.len());
            key[at] = rng.next_u64() as u8;
            key
        }
        7 => rng.pick(&["\r\n", "$3\r\n", "a", "a\0", "a\0\0", "\0a"]).into(),
        8 => random_text(rng, &[1, 23, 24]),
        _ => {
            let len = rng.between(1, MAX_KEY);
            rng.bytes(len)
        }
    }
}

/// Another key that is easily taken for this one.
pub fn similar_key(rng: &mut Rng, key: &[u8]) -> Vec<u8> {
    let mut other = key.to_vec();
    let at = rng.below(other.len());
    match rng.below(5) {
        0 => other.push(0),
        1 => other.push(rng.next_u64() as u8),
        2 => other.truncate(other.len() - 1),
        3 => other[at] ^= 0x20,
        _ => other[at] = other[at].wrapping_add(1),
    }
    other.truncate(MAX_KEY);
    if other.is_empty() || other == key {
        other = b"other".to_vec();
    }
    other
}

/// A value of 0 to 64 bytes.
pub fn value(rng: &mut Rng) -> Vec<u8> {
    match rng.below(12) {
        0 => Vec::new(),
        1..=3 => {
            let (small, any) = (rng.below(2001) as i64 - 1000, number(rng));
            let number = rng.pick(&[small, small, any]);
            numeral(rng, number)
        }
        4 | 5 => {
            let number = edge_number(rng);
            numeral(rng, number)
        }
        6 => bad_number(rng, MAX_VALUE),
        7 => random_text(rng, &[63, 64]),
        8 => random_text(rng, &[1, 2, 3, 10, 32]),
        9 => vec![b'9'; rng.between(17, MAX_VALUE)],
        10 => rng.pick(&["\r\n", "$1\r\na\r\n", "*1\r\n", "\0", "OK"]).into(),
        _ => {
            let len = rng.between(0, MAX_VALUE);
            rng.bytes(len)
        }
    }
}

fn random_text(rng: &mut Rng, lengths: &[usize]) -> Vec<u8> {
    let len = rng.pick(lengths);
    (0..len).map(|_| b'a' + rng.below(26) as u8).collect()
}

/// A number within 64 signed bits, often at a limit.
pub fn number(rng: &mut Rng) -> i64 {
    match rng.below(8) {
        0 => 0,
        1..=3 => rng.below(2001) as i64 - 1000,
        4 => rng.next_u64() as i64,
        5 => rng.pick(&[i64::MAX, i64::MAX - 1, i64::MIN, i64::MIN + 1]),
        _ => {
            let near = rng.pick(&[31, 32, 62]);
            let sign = rng.pick(&[1, -1]);
            sign * (1i64 << near) + rng.below(3) as i64 - 1
        }
    }
}

/// A number at or beside a limit, perhaps out of 64 bits.
fn edge_number(rng: &mut Rng) -> i128 {
    let limit = 1i128 << rng.pick(&[31, 32, 62, 63, 63, 63, 64]);
    let sign = rng.pick(&[1, -1]);
    sign * limit + rng.below(5) as i128 - 2
}
