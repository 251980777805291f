//! Which refusals a random case aims at.

use crate::Rng;

/// Which refusals, of numbers 1 to 11, a case aims at. Those further on come
/// of themselves.
pub struct Faults {
    bits: u16,
}

impl Faults {
    pub const NONE: Faults = Faults { bits: 0 };

    pub fn only(number: u32) -> Faults {
        Faults { bits: 1 << number }
    }

    /// Mostly none or one; sometimes two neighbours or several, to show their
    /// order.
    pub fn random(rng: &mut Rng) -> Faults {
        let bits = match rng.below(100) {
            0..=49 => 0,
            50..=74 => 1 << rng.between(1, 11),
            75..=89 => 0b11 << rng.between(1, 10),
            _ => (1..=11).filter(|_| rng.chance(20)).fold(0, |bits, number| bits | 1 << number),
        };
        Faults { bits }
    }

    /// Those that the words of a command can have, 4 to 9; mostly none.
    pub fn of_words(rng: &mut Rng) -> Faults {
        let bits = match rng.below(100) {
            0..=69 => 0,
            70..=79 => 1 << rng.between(4, 7),
            80..=94 => 1 << rng.between(8, 9),
            _ => 0b11 << rng.between(4, 8),
        };
        Faults { bits }
    }

    pub fn has(&self, number: u32) -> bool {
        self.bits >> number & 1 == 1
    }
}
