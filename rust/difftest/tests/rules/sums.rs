//! EXINCRBY's sum, with NONEGATIVE and without, on every combination of numbers
//! at the ends of 64 bits and about 0, against arithmetic of 128 bits.

use super::*;

const NUMBERS: [i64; 9] = [i64::MIN, i64::MIN + 1, -5, -1, 0, 1, 5, i64::MAX - 1, i64::MAX];
const BOUNDS: [Option<i64>; 6] = [None, Some(i64::MIN), Some(-1), Some(0), Some(1), Some(i64::MAX)];

/// What is asked of one EXINCRBY.
struct Count {
    stored: i64,
    by: i64,
    min: Option<i64>,
    max: Option<i64>,
    non_negative: bool,
}

impl Count {
    /// The number that is stored, or that of the refusal.
    fn expected(&self) -> Result<i64, u32> {
        let (least, most) = (self.min.unwrap_or(i64::MIN), self.max.unwrap_or(i64::MAX));
        if least > most {
            return Err(11);
        }
        let exact = i128::from(self.stored) + i128::from(self.by);
        let sum = if self.non_negative && exact < 0 { 0 } else { exact };
        if sum < i128::from(least) || sum > i128::from(most) {
            return Err(14);
        }
        Ok(sum as i64)
    }

    fn line(&self) -> String {
        let bound = |word, number: Option<i64>| number.map(|number| format!("{word} {number}"));
        let floor = self.non_negative.then(|| "NONEGATIVE".to_string());
        let options = [bound("MIN", self.min), floor, bound("MAX", self.max)];
        let options: Vec<_> = options.into_iter().flatten().collect();
        format!("EXINCRBY n {} {}", self.by, options.join(" "))
    }

    fn check(&self) {
        let mut store = Store::with(&[counter(4, self.stored)]);
        match self.expected() {
            Err(number) => store.refuse(&self.line(), number),
            Ok(sum) => {
                store.answer(&self.line(), &format!(":{sum}\r\n"));
                assert_eq!(store.record(0), counter(5, sum));
            }
        }
    }
}

/// The record of n with this version, holding a number's text.
fn counter(version: u8, number: i64) -> [u8; 128] {
    let text = number.to_string();
    record(&[(0, &[1, 1, text.len() as u8]), (8, &[version]), (24, b"n"), (48, text.as_bytes())])
}

#[test]
fn every_sum_at_an_edge() {
    for stored in NUMBERS {
        for by in NUMBERS {
            for min in BOUNDS {
                for max in BOUNDS {
                    for non_negative in [false, true] {
                        Count { stored, by, min, max, non_negative }.check();
                    }
                }
            }
        }
    }
}
