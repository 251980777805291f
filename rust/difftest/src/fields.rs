//! A field of BITFIELD in the bytes of a value, told the plain way: bit by bit.

/// A type, i or u with a width, and the place of its first bit.
#[derive(Clone, Copy, Debug, PartialEq, Eq, PartialOrd, Ord)]
pub struct Field {
    pub signed: bool,
    pub width: u64,
    pub offset: u64,
}

impl Field {
    /// The least and the greatest number of its type.
    pub fn range(self) -> (i128, i128) {
        match self.signed {
            true => (-(1 << (self.width - 1)), (1 << (self.width - 1)) - 1),
            false => (0, (1 << self.width) - 1),
        }
    }

    pub fn holds(self, number: i128) -> bool {
        let (least, greatest) = self.range();
        (least..=greatest).contains(&number)
    }

    /// The bytes that a value must have to hold it whole.
    pub fn bytes(self) -> u64 {
        (self.offset + self.width).div_ceil(8)
    }

    /// Its number in a value, past whose end are zeros.
    pub fn read(self, value: &[u8]) -> i128 {
        let mut number = 0;
        for at in self.offset..self.offset + self.width {
            let byte = value.get((at / 8) as usize).unwrap_or(&0);
            number = number << 1 | i128::from(byte >> (7 - at % 8) & 1);
        }
        match self.holds(number) {
            true => number,
            false => number - (1 << self.width),
        }
    }

    /// Stores the low bits of a number; the value grows as far as it must.
    pub fn write(self, value: &mut Vec<u8>, number: i128) {
        value.resize(value.len().max(self.bytes() as usize), 0);
        for place in 0..self.width {
            let at = self.offset + self.width - 1 - place;
            let (byte, bit) = (&mut value[(at / 8) as usize], 0x80 >> (at % 8));
            match number >> place & 1 {
                1 => *byte |= bit,
                _ => *byte &= !bit,
            }
        }
    }
}

#[cfg(test)]
mod tests {
    use super::*;

    #[test]
    fn what_was_written_is_read() {
        for width in 1..=64 {
            for (signed, offset) in [(true, 0), (true, 7), (false, 3), (false, 512 - width)] {
                let field = Field { signed, width, offset };
                let (least, greatest) = field.range();
                for number in [least, greatest] {
                    for fill in [0, 255] {
                        let mut value = vec![fill; 5];
                        field.write(&mut value, number);
                        assert_eq!(field.read(&value), number, "{field:?}");
                        assert_eq!(value.len() as u64, field.bytes().max(5));
                    }
                }
            }
        }
    }

    #[test]
    fn bit_0_is_the_top_bit_of_byte_0() {
        let field = |width, offset| Field { signed: false, width, offset };
        assert_eq!(field(1, 0).read(&[0x80]), 1);
        assert_eq!(field(12, 4).read(&[0xab, 0xcd]), 0xbcd);
        assert_eq!(field(16, 4).read(&[0xab, 0xcd]), 0xbcd0);
        let mut value = vec![0xff; 3];
        field(4, 6).write(&mut value, 0);
        assert_eq!(value, [0xfc, 0x3f, 0xff]);
    }
}
