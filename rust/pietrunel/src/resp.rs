//! The items of a RESP2 reply, read one after another.

/// One item of a reply.
#[derive(Clone, Copy, Debug, PartialEq, Eq)]
pub enum Item<'r> {
    Simple(&'r [u8]),
    Error(&'r [u8]),
    Integer(i64),
    Nil,
    Bulk(&'r [u8]),
    /// The head of an array; its items follow.
    Array(i64),
}

/// The bytes that are not yet read.
pub struct Reader<'r> {
    pub rest: &'r [u8],
}

impl<'r> Reader<'r> {
    /// The next item, if it is one in the form that the library writes.
    pub fn item(&mut self) -> Option<Item<'r>> {
        let (kind, text) = self.line()?.split_first()?;
        Some(match kind {
            b'+' => Item::Simple(text),
            b'-' => Item::Error(text),
            b':' => Item::Integer(integer(text)?),
            b'*' => Item::Array(integer(text)?),
            b'$' if text == b"-1" => Item::Nil,
            b'$' => Item::Bulk(self.bulk(usize::try_from(integer(text)?).ok()?)?),
            _ => return None,
        })
    }

    /// The bytes before the next CR LF, which is passed too.
    fn line(&mut self) -> Option<&'r [u8]> {
        let end = self.rest.windows(2).position(|pair| pair == b"\r\n")?;
        self.bulk(end)
    }

    /// So many bytes, with CR LF after them.
    fn bulk(&mut self, len: usize) -> Option<&'r [u8]> {
        let (bytes, after) = self.rest.split_at_checked(len)?;
        self.rest = after.strip_prefix(b"\r\n")?;
        Some(bytes)
    }
}

/// The number that a text means in its one form: no plus sign, no zeros before it, no minus zero.
fn integer(text: &[u8]) -> Option<i64> {
    let digits = text.strip_prefix(b"-").unwrap_or(text);
    if text != b"0" && !matches!(digits, [b'1'..=b'9', ..]) {
        return None;
    }
    core::str::from_utf8(text).ok()?.parse().ok()
}

#[cfg(test)]
mod tests {
    use super::*;

    #[test]
    fn a_number_has_one_form() {
        for number in [0, 1, -1, 10, 907, i64::MAX, i64::MIN] {
            assert_eq!(integer(std::format!("{number}").as_bytes()), Some(number));
        }
        let not = ["", "-", "-0", "00", "01", "-01", "+1", "--1", " 1", "1 ", "1x", "x", "é"];
        for text in not.into_iter().chain(["9223372036854775808", "-9223372036854775809"]) {
            assert_eq!(integer(text.as_bytes()), None, "{text}");
        }
    }
}
