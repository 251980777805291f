//! The key that a random command is about, with what stands there.

use crate::numerals::{numeral, value};
use crate::{layout, tables, words, Rng};

/// What a command is about: a key with the version and value that stand
/// there, or would.
pub struct Subject {
    pub key: Vec<u8>,
    pub value: Vec<u8>,
    version: u64,
}

impl Subject {
    /// Mostly a record of the table.
    pub fn new(rng: &mut Rng, table: &[u8]) -> Subject {
        let used: Vec<_> = layout::records(table).iter().filter(|r| layout::in_use(r)).collect();
        let absent = |key| Subject { key, version: 1, value: Vec::new() };
        if used.is_empty() {
            return absent(words::key(rng));
        }
        let record = used[rng.below(used.len())];
        match rng.below(100) {
            0..=74 => Subject {
                key: layout::key(record).to_vec(),
                version: layout::version(record),
                value: layout::value(record).to_vec(),
            },
            75..=84 => absent(words::similar_key(rng, layout::key(record))),
            _ => absent(words::key(rng)),
        }
    }

    /// Mostly its version.
    pub fn version_word(&self, rng: &mut Rng) -> Vec<u8> {
        let version = match rng.below(20) {
            0..=13 => self.version,
            14 => self.version.wrapping_add(1),
            15 => self.version.wrapping_sub(1),
            _ => tables::version(rng),
        };
        // Beside a limit it may have left the range.
        numeral(rng, version.min(layout::MAX_VERSION))
    }

    /// The number that stands there; 0 if it is none.
    pub fn number(&self) -> i128 {
        value(&self.value).unwrap_or(0).into()
    }

    /// Often one whose sum is at a limit or just past it.
    pub fn increment(&self, rng: &mut Rng) -> i64 {
        let stored = self.number();
        let exact = match rng.below(8) {
            0 => i128::from(i64::MAX) - stored,
            1 => i128::from(i64::MAX) - stored + 1,
            2 => i128::from(i64::MIN) - stored,
            3 => i128::from(i64::MIN) - stored - 1,
            4 => -stored - rng.below(3) as i128,
            _ => words::number(rng).into(),
        };
        within(exact)
    }

    /// Often one that just fits behind the value that stands there, or just not.
    pub fn joined_value(&self, rng: &mut Rng) -> Vec<u8> {
        let room = layout::MAX_VALUE - self.value.len();
        match rng.below(6) {
            0 => vec![b'j'; room],
            1 => vec![b'j'; (room + 1).min(layout::MAX_VALUE)],
            2 => Vec::new(),
            3 => b"x".to_vec(),
            _ => words::value(rng),
        }
    }
}

/// The nearest number within 64 signed bits.
pub fn within(number: i128) -> i64 {
    number.clamp(i64::MIN.into(), i64::MAX.into()) as i64
}
