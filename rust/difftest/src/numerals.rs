//! Texts of numbers, in every form that is read as a number and in forms that
//! just are not.

use crate::{words, Rng};

/// The most digits of a number. A sign is none of them.
const MOST_DIGITS: usize = 20;

/// A number's text in any form that is read: with a sign where it may have one, and
/// zeros up to twenty digits in all. Mostly it is the short form.
pub fn numeral(rng: &mut Rng, number: impl Into<i128>) -> Vec<u8> {
    let number = number.into();
    let digits = number.unsigned_abs().to_string();
    // 0 has the most forms.
    let percent = if number == 0 { 50 } else { 75 };
    if rng.chance(percent) || digits.len() > MOST_DIGITS {
        return number.to_string().into();
    }
    let sign = match number {
        ..0 => "-",
        0 => rng.pick(&["", "+", "-"]),
        _ => rng.pick(&["", "+"]),
    };
    let width = match rng.below(4) {
        0 => digits.len(),
        1 => MOST_DIGITS,
        _ => rng.between(digits.len(), MOST_DIGITS),
    };
    format!("{sign}{digits:0>width$}").into()
}

/// A text that is no number within 64 signed bits, of at most so many bytes.
pub fn bad_number(rng: &mut Rng, most: usize) -> Vec<u8> {
    const OTHERS: [&str; 13] =
        ["x", "5x", "-x", "5+", "0-", "1.0", "1e3", "0x10", "1_0", "5:", "/5", "5\0", "5\r\n"];
    let text = match rng.below(12) {
        0 => rng.pick(&["", "-", "+"]).into(),
        1 => rng.pick(&OTHERS).into(),
        2 | 3 => with_two_signs(rng),
        4 => with_blank(rng),
        5 | 6 => with_too_many_digits(rng),
        7 => past_an_end(rng),
        8 => wrapping(rng),
        9 => with_large_digits(rng),
        10 => rng.pick(&["EX", "nx", "VER", "ABS", "MAX", "WITHVERSION"]).into(),
        _ => {
            let digits = rng.pick(&[20, 21, 40, 64, 65, 66, 70]);
            format!("1{:0>1$}", 0, digits - 1).into()
        }
    };
    // Cut short, many digits could be a number again.
    if text.len() > most {
        return b"-".to_vec();
    }
    text
}

/// From 2^63 up, or from -2^63 - 1 down.
fn past_an_end(rng: &mut Rng) -> Vec<u8> {
    let past = rng.below(3) as i128;
    let number = rng.pick(&[(1 << 63) + past, -(1 << 63) - 1 - past]);
    numeral(rng, number)
}

/// What wraps to a small number in 64 bits.
fn wrapping(rng: &mut Rng) -> Vec<u8> {
    let wrapping = (1i128 << 64) + rng.below(100) as i128;
    let number = rng.pick(&[wrapping, -wrapping]);
    numeral(rng, number)
}

fn with_two_signs(rng: &mut Rng) -> Vec<u8> {
    let signs = rng.pick(&["++", "+-", "-+", "--"]);
    let magnitude = words::number(rng).unsigned_abs();
    format!("{signs}{magnitude}").into()
}

/// A blank before, in or behind a number.
fn with_blank(rng: &mut Rng) -> Vec<u8> {
    let number = words::number(rng);
    let mut text = numeral(rng, number);
    let at = rng.below(text.len() + 1);
    text.insert(at, rng.pick(b"  \t"));
    text
}

/// More than twenty digits, though most of them are zeros.
fn with_too_many_digits(rng: &mut Rng) -> Vec<u8> {
    let sign = rng.pick(&["", "", "+", "-"]);
    let magnitude = words::number(rng).unsigned_abs() % rng.pick(&[10, 1000, 1 << 63]);
    let width = rng.pick(&[21, 21, 21, 22, 30, 64]);
    format!("{sign}{magnitude:0>width$}").into()
}

/// Twenty digits of which the first is not 0.
fn with_large_digits(rng: &mut Rng) -> Vec<u8> {
    let sign = rng.pick(&["", "", "+", "-"]);
    let any = rng.next_u64() >> 1;
    let rest = rng.pick(&[9_999_999_999_999_999_999, any]);
    format!("{sign}{}{rest:0>19}", rng.between(1, 9)).into()
}

/// The number that a text says, by the standard library, which takes a sign and
/// any number of zeros.
pub fn value(text: &[u8]) -> Option<i64> {
    let text = std::str::from_utf8(text).ok()?;
    let digits = text.strip_prefix(['+', '-']).unwrap_or(text);
    if digits.len() > MOST_DIGITS {
        return None;
    }
    text.parse().ok()
}

/// The forms of a text that says a number, as `form` names them.
pub const GOOD_FORMS: [&str; 9] = [
    "a minus and twenty digits", "a minus and zeros", "a plus", "a plus and twenty digits",
    "a plus and zeros", "minus zero", "short", "twenty digits", "zeros",
];

/// The forms of a text that says none.
pub const BAD_FORMS: [&str; 7] =
    ["a blank", "a sign alone", "no byte", "other", "out of range", "too many digits", "two signs"];

/// The form of a text: one of `GOOD_FORMS` exactly if it says a number.
pub fn form(text: &[u8]) -> &'static str {
    let (sign, digits) = match text {
        [sign @ (b'+' | b'-'), digits @ ..] => (*sign, digits),
        digits => (b' ', digits),
    };
    let Some(value) = value(text) else {
        return bad_form(text, digits);
    };
    match (sign, digits.len()) {
        _ if text == value.to_string().as_bytes() => "short",
        (b'+', 20) => "a plus and twenty digits",
        (b'-', 20) => "a minus and twenty digits",
        (_, 20) => "twenty digits",
        (b'+', _) if digits == value.to_string().as_bytes() => "a plus",
        (b'+', _) => "a plus and zeros",
        (b'-', 1) => "minus zero",
        (b'-', _) => "a minus and zeros",
        _ => "zeros",
    }
}

/// The form of a text that says no number, and of what follows its sign.
fn bad_form(text: &[u8], digits: &[u8]) -> &'static str {
    let has_digits_only = digits.iter().all(u8::is_ascii_digit);
    match digits {
        _ if text.is_empty() => "no byte",
        [] => "a sign alone",
        [b'+' | b'-', ..] if digits.len() < text.len() => "two signs",
        _ if text.contains(&b' ') => "a blank",
        _ if has_digits_only && digits.len() > MOST_DIGITS => "too many digits",
        _ if has_digits_only => "out of range",
        _ => "other",
    }
}

#[cfg(test)]
mod tests {
    use super::*;
    use std::collections::BTreeSet;

    #[test]
    fn a_numeral_says_its_number() {
        let mut rng = Rng::new(1);
        let mut forms = BTreeSet::new();
        let mut short = 0;
        for _ in 0..100_000 {
            let number = words::number(&mut rng);
            let text = numeral(&mut rng, number);
            assert_eq!(value(&text), Some(number), "{}", text.escape_ascii());
            forms.insert(form(&text));
            short += usize::from(text == number.to_string().as_bytes());
        }
        assert!(forms.iter().eq(&GOOD_FORMS), "{forms:?}");
        assert!(short > 70_000, "{short}");
    }

    #[test]
    fn a_bad_number_says_none() {
        let mut rng = Rng::new(1);
        let mut forms = BTreeSet::new();
        for _ in 0..100_000 {
            for most in [2, 21, 30, 64, 70] {
                let text = bad_number(&mut rng, most);
                assert!(text.len() <= most);
                assert_eq!(value(&text), None, "{}", text.escape_ascii());
                forms.insert(form(&text));
            }
        }
        assert!(forms.iter().eq(&BAD_FORMS), "{forms:?}");
    }

    #[test]
    fn forms_by_hand() {
        for (text, name) in [
            ("0", "short"),
            ("-5", "short"),
            ("-9223372036854775808", "short"),
            ("+5", "a plus"),
            ("+0", "a plus"),
            ("007", "zeros"),
            ("00", "zeros"),
            ("+007", "a plus and zeros"),
            ("-0", "minus zero"),
            ("-00", "a minus and zeros"),
            ("-007", "a minus and zeros"),
            ("00000000000000000005", "twenty digits"),
            ("+00000000000000000005", "a plus and twenty digits"),
            ("-09223372036854775808", "a minus and twenty digits"),
            ("", "no byte"),
            ("+", "a sign alone"),
            ("+-5", "two signs"),
            ("--", "two signs"),
            ("5 ", "a blank"),
            ("+ 5", "a blank"),
            ("000000000000000000005", "too many digits"),
            ("-000000000000000000000", "too many digits"),
            ("18446744073709551621", "out of range"),
            ("+9223372036854775808", "out of range"),
            ("-99999999999999999999", "out of range"),
            ("5-", "other"),
            ("#5", "other"),
            ("1_0", "other"),
        ] {
            assert_eq!(form(text.as_bytes()), name, "{text:?}");
        }
    }
}
