//! BITFIELD's fields: numbers in the bits of a value. Everything is computed in
//! 128 bits, where nothing wraps by itself.

/// A type and a place: i or u, its width in bits, and its first bit.
#[derive(Clone, Copy, Debug, PartialEq, Eq)]
pub struct Field {
    pub signed: bool,
    pub width: u64,
    pub offset: u64,
}

/// What INCRBY does with a sum that its field cannot hold.
#[derive(Clone, Copy, Debug, PartialEq, Eq)]
pub enum Overflow {
    Wrap,
    Sat,
    Fail,
}

/// The bits of a value. Bit 0 is the top bit of byte 0.
pub type Bits = Vec<bool>;

pub fn bits_of(value: &[u8]) -> Bits {
    value.iter().flat_map(|byte| (0..8).rev().map(move |bit| byte >> bit & 1 == 1)).collect()
}

/// The bytes of whole bytes of bits.
pub fn bytes_of(bits: &[bool]) -> Vec<u8> {
    bits.chunks(8).map(|byte| byte.iter().fold(0, |sum, bit| 2 * sum + u8::from(*bit))).collect()
}

impl Field {
    /// The least number of its type.
    fn least(self) -> i128 {
        if self.signed {
            -(1 << (self.width - 1))
        } else {
            0
        }
    }

    /// The greatest number of its type.
    fn greatest(self) -> i128 {
        self.least() + (1 << self.width) - 1
    }

    /// Whether its type has this number.
    pub fn holds(self, number: i128) -> bool {
        self.least() <= number && number <= self.greatest()
    }

    /// The bit after its last one.
    pub fn end(self) -> u64 {
        self.offset + self.width
    }

    /// The number of its type that differs from this one by a multiple of
    /// 2^width.
    fn wrapped(self, number: i128) -> i128 {
        self.least() + (number - self.least()).rem_euclid(1 << self.width)
    }

    /// The sum that is stored and answered; none under FAIL if it does not fit.
    pub fn sum(self, number: i128, increment: i128, overflow: Overflow) -> Option<i128> {
        let exact = number + increment;
        match overflow {
            _ if self.holds(exact) => Some(exact),
            Overflow::Wrap => Some(self.wrapped(exact)),
            Overflow::Sat => Some(exact.clamp(self.least(), self.greatest())),
            Overflow::Fail => None,
        }
    }

    /// Its number in these bits; those past the end are zeros.
    pub fn read(self, bits: &[bool]) -> i128 {
        let bit = |at: u64| bits.get(at as usize).is_some_and(|bit| *bit);
        let places = self.offset..self.end();
        let number = places.fold(0, |number, at| 2 * number + i128::from(bit(at)));
        self.wrapped(number)
    }

    /// Puts a number of its type into these bits, which grow by whole bytes of
    /// zeros as far as its last bit needs.
    pub fn write(self, bits: &mut Bits, number: i128) {
        let needed = self.end().next_multiple_of(8) as usize;
        if bits.len() < needed {
            bits.resize(needed, false);
        }
        for place in 0..self.width {
            // The first bit is the highest.
            bits[(self.offset + place) as usize] = number >> (self.width - 1 - place) & 1 == 1;
        }
    }
}

#[cfg(test)]
mod tests {
    use super::*;

    fn field(signed: bool, width: u64, offset: u64) -> Field {
        Field { signed, width, offset }
    }

    /// Every type: i1 to i64 and u1 to u63.
    fn types() -> impl Iterator<Item = (bool, u64)> {
        (1..=64).map(|width| (true, width)).chain((1..=63).map(|width| (false, width)))
    }

    #[test]
    fn bit_0_is_the_top_bit_of_byte_0() {
        let bits = bits_of(&[0x80, 0x01]);
        assert_eq!(bits.len(), 16);
        assert!(bits[0] && bits[15] && bits[1..15].iter().all(|bit| !bit));
        for value in [&b""[..], b"\0", b"foo", &[255; 64]] {
            assert_eq!(bytes_of(&bits_of(value)), value);
        }
    }

    #[test]
    fn ranges_of_types() {
        let range = |signed, width| {
            let field = field(signed, width, 0);
            (field.least(), field.greatest())
        };
        assert_eq!(range(true, 1), (-1, 0));
        assert_eq!(range(true, 8), (-128, 127));
        assert_eq!(range(true, 64), (i64::MIN.into(), i64::MAX.into()));
        assert_eq!(range(false, 1), (0, 1));
        assert_eq!(range(false, 8), (0, 255));
        assert_eq!(range(false, 63), (0, i64::MAX.into()));
    }

    #[test]
    fn the_first_bit_is_the_highest() {
        let bits = bits_of(&[0b1010_0110, 0b1100_0000]);
        assert_eq!(field(false, 3, 0).read(&bits), 0b101);
        assert_eq!(field(true, 3, 0).read(&bits), -3);
        assert_eq!(field(false, 8, 0).read(&bits), 0xa6);
        assert_eq!(field(true, 8, 0).read(&bits), 0xa6 - 256);
        assert_eq!(field(false, 5, 5).read(&bits), 0b11011);
        assert_eq!(field(true, 1, 0).read(&bits), -1);
        assert_eq!(field(true, 1, 1).read(&bits), 0);
    }

    #[test]
    fn past_the_end_are_zeros() {
        let bits = bits_of(&[0xff]);
        assert_eq!(field(false, 8, 4).read(&bits), 0xf0);
        assert_eq!(field(true, 8, 4).read(&bits), -16);
        assert_eq!(field(true, 64, 7).read(&bits), i64::MIN.into());
        assert_eq!(field(true, 64, 8).read(&bits), 0);
        assert_eq!(field(true, 64, 64 * 4_294_967_295).read(&bits), 0);
    }

    /// What was written is read, and no other bit has changed.
    #[test]
    fn a_field_is_read_as_it_was_written() {
        for (signed, width) in types() {
            for offset in [0, 1, 7, 8, 100, 512 - width] {
                let field = field(signed, width, offset);
                let (least, greatest) = (field.least(), field.greatest());
                for number in [least, least + 1, (least + greatest) / 2, greatest - 1, greatest] {
                    for byte in [0, 255] {
                        let before = bits_of(&[byte; 64]);
                        let mut after = before.clone();
                        field.write(&mut after, number);
                        assert_eq!(field.read(&after), number);
                        let (start, end) = (offset as usize, field.end() as usize);
                        assert_eq!(after[..start], before[..start]);
                        assert_eq!(after[end..], before[end..]);
                    }
                }
            }
        }
    }

    #[test]
    fn a_write_grows_to_the_byte_of_the_last_bit_and_never_shrinks() {
        for (width, offset, len) in [(1, 0, 1), (8, 0, 1), (8, 1, 2), (64, 1, 9), (1, 511, 64)] {
            let mut bits = Bits::new();
            field(true, width, offset).write(&mut bits, -1);
            assert_eq!(bytes_of(&bits).len(), len);
            let mut bits = bits_of(&[0; 64]);
            field(true, width, offset).write(&mut bits, -1);
            assert_eq!(bits.len(), 512);
        }
    }

    /// By counting on from one end of the type to the other.
    #[test]
    fn wrapping_goes_round() {
        for (signed, width) in types() {
            let field = field(signed, width, 0);
            let (least, greatest) = (field.least(), field.greatest());
            assert_eq!(field.sum(greatest, 1, Overflow::Wrap), Some(least));
            assert_eq!(field.sum(least, -1, Overflow::Wrap), Some(greatest));
            assert_eq!(field.sum(least, 1 << width, Overflow::Wrap), Some(least));
            assert_eq!(field.sum(greatest, -(5 << width), Overflow::Wrap), Some(greatest));
        }
        let u8s = field(false, 8, 0);
        for increment in -1000..=1000 {
            let sum = (7 + increment) as u8;
            assert_eq!(u8s.sum(7, increment, Overflow::Wrap), Some(sum.into()));
        }
    }

    #[test]
    fn sat_stops_at_the_nearer_end_and_fail_gives_nothing() {
        for (signed, width) in types() {
            let field = field(signed, width, 0);
            let (least, greatest) = (field.least(), field.greatest());
            let (up, down) = (i64::MAX.into(), i64::MIN.into());
            for overflow in [Overflow::Wrap, Overflow::Sat, Overflow::Fail] {
                assert_eq!(field.sum(greatest, 0, overflow), Some(greatest));
                assert_eq!(field.sum(least, 0, overflow), Some(least));
                assert_eq!(field.sum(greatest, -1, overflow), Some(greatest - 1));
                assert_eq!(field.sum(least, 1, overflow), Some(least + 1));
            }
            assert_eq!(field.sum(greatest, up, Overflow::Sat), Some(greatest));
            assert_eq!(field.sum(greatest, 1, Overflow::Sat), Some(greatest));
            assert_eq!(field.sum(least, down, Overflow::Sat), Some(least));
            assert_eq!(field.sum(least, -1, Overflow::Sat), Some(least));
            assert_eq!(field.sum(greatest, 1, Overflow::Fail), None);
            assert_eq!(field.sum(least, -1, Overflow::Fail), None);
        }
    }
}
