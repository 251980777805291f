//! Decimal text without a heap.

use core::fmt::{self, Write};
use core::ops::Deref;

/// The longest text of a number of 128 bits.
const LONGEST: usize = 40;

/// The text of a number.
pub struct Decimal {
    text: [u8; LONGEST],
    len: usize,
}

impl Decimal {
    pub fn new(number: i128) -> Decimal {
        let mut decimal = Decimal { text: [0; LONGEST], len: 0 };
        write!(decimal, "{number}").expect("every number fits");
        decimal
    }
}

impl Write for Decimal {
    fn write_str(&mut self, text: &str) -> fmt::Result {
        let end = self.len + text.len();
        let part = self.text.get_mut(self.len..end).ok_or(fmt::Error)?;
        part.copy_from_slice(text.as_bytes());
        self.len = end;
        Ok(())
    }
}

impl Deref for Decimal {
    type Target = [u8];

    fn deref(&self) -> &[u8] {
        &self.text[..self.len]
    }
}

#[cfg(test)]
mod tests {
    use super::*;

    #[test]
    fn every_number_fits() {
        for number in [0, -1, 10, i128::from(u64::MAX), i128::MAX, i128::MIN] {
            assert_eq!(*Decimal::new(number), *std::format!("{number}").as_bytes());
        }
    }
}
