//! Random options: each is given or not, with a number in its range and in any
//! form.

use super::subject::{within, Subject};
use super::Faults;
use crate::layout::MAX_EXPIRY;
use crate::numerals::numeral;
use crate::{words, Rng};

/// An option word, with its number word if it takes one.
pub type Choice = (&'static str, Option<Vec<u8>>);

pub fn plain(rng: &mut Rng, word: &'static str, percent: usize) -> Option<Choice> {
    rng.chance(percent).then_some((word, None))
}

pub fn condition(rng: &mut Rng) -> Option<Choice> {
    match rng.below(10) {
        0 => Some(("NX", None)),
        1 | 2 => Some(("XX", None)),
        _ => None,
    }
}

pub fn version(rng: &mut Rng, subject: &Subject) -> Option<Choice> {
    match rng.below(10) {
        0..=2 => Some(("VER", Some(subject.version_word(rng)))),
        3 | 4 => Some(("ABS", Some(subject.version_word(rng)))),
        _ => None,
    }
}

/// FLAGS with a number in range.
pub fn flags(rng: &mut Rng, percent: usize) -> Option<Choice> {
    if !rng.chance(percent) {
        return None;
    }
    let flags = match rng.below(5) {
        0 => 0,
        1 => u32::MAX,
        2 => rng.next_u64() as u32,
        3 => (1 << 31) - rng.below(2) as u32,
        _ => rng.below(10) as u32,
    };
    Some(("FLAGS", Some(numeral(rng, flags))))
}

/// A time word with a number that makes an expiry in range, or with one that
/// does not if that is asked for.
pub fn time_word(rng: &mut Rng, faults: &Faults, time: u64, percent: usize) -> Option<Choice> {
    if !faults.has(10) && !rng.chance(percent) {
        return None;
    }
    let word = rng.pick(&["EX", "PX", "EXAT", "PXAT"]);
    let unit = if word.starts_with('E') { 1000 } else { 1 };
    let from = if word.ends_with("AT") { 0 } else { time.min(MAX_EXPIRY) };
    let most = (MAX_EXPIRY - from) / unit;
    let number = if faults.has(10) || most == 0 {
        match rng.below(9) {
            0 | 1 => 0,
            2 => -1,
            3 => -rng.pick(&[5, 1000, i64::MAX]),
            4 => i64::MIN,
            5 | 6 => most as i64 + 1,
            // times 1000 it wraps to a small number in 64 bits
            7 => 18_446_744_073_709_552 + rng.below(3) as i64,
            _ => i64::MAX - rng.below(2) as i64,
        }
    } else {
        // Beside the present, where the word counts from 0
        let present = (time - from.min(time)) / unit;
        let number = match rng.below(6) {
            0 => 1,
            1 => most,
            2 => most - most.min(1),
            3 => rng.next_u64() % most + 1,
            4 => present.saturating_add(rng.below(3) as u64),
            _ => present.saturating_add(rng.between(1, 10_000) as u64),
        };
        number.clamp(1, most) as i64
    };
    Some((word, Some(numeral(rng, number))))
}

/// Bounds beside the sum, or beside the 0 that NONEGATIVE makes of it.
pub fn bounds(rng: &mut Rng, faults: &Faults, sum: i128) -> Vec<Choice> {
    let beside = |rng: &mut Rng| match rng.below(5) {
        0 => within(sum),
        1 => within(sum - 1),
        2 => within(sum + 1),
        3 => rng.below(3) as i64 - 1,
        _ => words::number(rng),
    };
    let (a, b) = (beside(rng), beside(rng));
    let (mut low, mut high) = (a.min(b), a.max(b));
    let percent = if faults.has(9) { 60 } else { 25 };
    let mut chosen = (rng.chance(percent), rng.chance(percent));
    if faults.has(11) {
        if low == high {
            (low, high) = (0, 1);
        }
        (low, high) = (high, low);
        chosen = (true, true);
    }
    let mut choices = Vec::new();
    if chosen.0 {
        choices.push(("MIN", Some(numeral(rng, low))));
    }
    if chosen.1 {
        choices.push(("MAX", Some(numeral(rng, high))));
    }
    choices
}
