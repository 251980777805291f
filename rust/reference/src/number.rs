//! Numbers read from their decimal text.

/// The most digits of a number.
const MOST_DIGITS: usize = 20;

/// An optional plus or minus and one to twenty digits, within 64 signed bits:
/// every number word, and the stored text that EXINCRBY reads.
pub fn read_signed(text: &[u8]) -> Option<i64> {
    let (is_negative, digits) = match text {
        [b'-', digits @ ..] => (true, digits),
        [b'+', digits @ ..] | digits => (false, digits),
    };
    let magnitude = read_magnitude(digits)?;
    let number = if is_negative { -magnitude } else { magnitude };
    number.try_into().ok()
}

/// One to twenty digits, which may begin with zeros. In 128 bits they never wrap.
fn read_magnitude(digits: &[u8]) -> Option<i128> {
    if digits.is_empty() || digits.len() > MOST_DIGITS {
        return None;
    }
    let mut magnitude = 0;
    for byte in digits {
        let digit = char::from(*byte).to_digit(10)?;
        magnitude = 10 * magnitude + i128::from(digit);
    }
    Some(magnitude)
}

/// A version: a number from 0 to 2^63 - 1.
pub fn read_version(text: &[u8]) -> Option<u64> {
    read_signed(text)?.try_into().ok()
}

/// Flags: a number from 0 to 2^32 - 1.
pub fn read_flags(text: &[u8]) -> Option<u32> {
    read_signed(text)?.try_into().ok()
}

/// A natural number in its short form, 0 or digits that begin with 1 to 9, within
/// 64 bits. The counts and lengths of RESP2 and the widths of BITFIELD's types have
/// no other.
pub fn read_short(text: &[u8]) -> Option<u64> {
    let is_short = match text {
        [b'0'] => true,
        [b'1'..=b'9', rest @ ..] => rest.iter().all(u8::is_ascii_digit),
        _ => false,
    };
    if !is_short {
        return None;
    }
    std::str::from_utf8(text).ok()?.parse().ok()
}

#[cfg(test)]
mod tests {
    use super::*;

    #[test]
    fn reads_the_whole_range() {
        assert_eq!(read_signed(b"0"), Some(0));
        assert_eq!(read_signed(b"-1"), Some(-1));
        assert_eq!(read_signed(b"1000000000000000000"), Some(1_000_000_000_000_000_000));
        assert_eq!(read_signed(b"9223372036854775807"), Some(i64::MAX));
        assert_eq!(read_signed(b"-9223372036854775808"), Some(i64::MIN));
    }

    #[test]
    fn reads_signs_and_zeros() {
        for (text, number) in [
            ("+5", 5),
            ("007", 7),
            ("+007", 7),
            ("-007", -7),
            ("00", 0),
            ("-0", 0),
            ("+0", 0),
            ("-000", 0),
            ("010", 10),
            ("+10", 10),
            ("08", 8),
        ] {
            assert_eq!(read_signed(text.as_bytes()), Some(number), "{text}");
        }
    }

    /// A sign is none of the twenty digits.
    #[test]
    fn reads_up_to_twenty_digits() {
        for digits in 1..=25 {
            let text = format!("{:0>digits$}", 5);
            let fits = digits <= 20;
            assert_eq!(read_signed(text.as_bytes()), fits.then_some(5), "{text}");
            assert_eq!(read_signed(format!("+{text}").as_bytes()), fits.then_some(5));
            assert_eq!(read_signed(format!("-{text}").as_bytes()), fits.then_some(-5));
            let zeros = "0".repeat(digits);
            for sign in ["", "+", "-"] {
                assert_eq!(read_signed(format!("{sign}{zeros}").as_bytes()), fits.then_some(0));
            }
        }
    }

    #[test]
    fn reads_both_ends_with_zeros() {
        for (text, number) in [
            ("09223372036854775807", i64::MAX),
            ("+09223372036854775807", i64::MAX),
            ("-09223372036854775807", -i64::MAX),
            ("-09223372036854775808", i64::MIN),
        ] {
            assert_eq!(read_signed(text.as_bytes()), Some(number), "{text}");
        }
        for text in ["09223372036854775808", "+09223372036854775808", "-09223372036854775809"] {
            assert_eq!(read_signed(text.as_bytes()), None, "{text}");
        }
    }

    #[test]
    fn refuses_what_is_out_of_range() {
        assert_eq!(read_signed(b"9223372036854775808"), None);
        assert_eq!(read_signed(b"-9223372036854775809"), None);
        assert_eq!(read_signed(&[b'9'; 65]), None);
        // 2^64, and what would wrap to 5, to -1 and to the largest number
        for digits in [
            "18446744073709551616", "18446744073709551621", "18446744073709551615",
            "27670116110564327423", "99999999999999999999",
        ] {
            for sign in ["", "+", "-"] {
                let text = format!("{sign}{digits}");
                assert_eq!(read_signed(text.as_bytes()), None, "{text}");
            }
        }
    }

    #[test]
    fn refuses_other_forms() {
        for text in [
            "", "-", "+", "--5", "++5", "+-5", "-+5", "5-", "5+", "0-", " 5", "5 ", "+ 5", "- 5",
            "5 5", " ", "5a", "a5", "1.0", "0x10", "1e3", "5\0", "\u{0}5", "5:", "5/", "5\r\n",
            "1_000", "\u{665}",
        ] {
            assert_eq!(read_signed(text.as_bytes()), None, "{text:?}");
        }
    }

    #[test]
    fn versions_and_flags_have_their_own_ranges() {
        assert_eq!(read_version(b"0"), Some(0));
        assert_eq!(read_version(b"9223372036854775807"), Some(i64::MAX as u64));
        assert_eq!(read_version(b"-1"), None);
        assert_eq!(read_flags(b"4294967295"), Some(u32::MAX));
        assert_eq!(read_flags(b"4294967296"), None);
        assert_eq!(read_flags(b"-1"), None);
    }

    #[test]
    fn versions_and_flags_have_every_form() {
        for text in ["-0", "00", "+0", "-00000000000000000000"] {
            assert_eq!(read_version(text.as_bytes()), Some(0));
            assert_eq!(read_flags(text.as_bytes()), Some(0));
        }
        for text in ["+7", "007", "+00000000000000000007"] {
            assert_eq!(read_version(text.as_bytes()), Some(7));
            assert_eq!(read_flags(text.as_bytes()), Some(7));
        }
        assert_eq!(read_version(b"-007"), None);
        assert_eq!(read_flags(b"-007"), None);
        assert_eq!(read_flags(b"00000000004294967295"), Some(u32::MAX));
        assert_eq!(read_flags(b"00000000004294967296"), None);
    }

    #[test]
    fn the_short_form_is_strict() {
        for number in [0, 1, 9, 10, 512, u64::MAX] {
            assert_eq!(read_short(number.to_string().as_bytes()), Some(number));
        }
        for text in [
            "", "+", "-", "-0", "+0", "00", "007", "+5", "-5", "5 ", " 5", "5x", "1.0",
            "18446744073709551616",
        ] {
            assert_eq!(read_short(text.as_bytes()), None, "{text:?}");
        }
    }
}
