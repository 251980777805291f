//! INCRBY of every type, at its ends and about 0, under each overflow, against
//! arithmetic of 128 bits.

use super::*;
use difftest::fields::Field;

/// What INCRBY answers and stores; none is nil.
fn expected(field: Field, stored: i128, by: i64, overflow: &str) -> Option<i128> {
    let (least, greatest) = field.range();
    let exact = stored + i128::from(by);
    if least <= exact && exact <= greatest {
        return Some(exact);
    }
    match overflow {
        "WRAP" => {
            let low = exact & ((1 << field.width) - 1);
            Some(if low > greatest { low - (1 << field.width) } else { low })
        }
        "SAT" if exact > greatest => Some(greatest),
        "SAT" => Some(least),
        _ => None,
    }
}

/// The record of k with a number in a field; all other bits of the value are 1.
fn holding(version: u8, field: Field, number: i128) -> [u8; 128] {
    let mut value = vec![0xff; 10];
    field.write(&mut value, number);
    record(&[(0, &[1, 1, 10]), (8, &[version]), (24, b"k"), (48, &value)])
}

fn check(field: Field, stored: i128, by: i64, overflow: &str) {
    let Field { signed, width, offset } = field;
    let kind = if signed { 'i' } else { 'u' };
    let text = format!("BITFIELD k OVERFLOW {overflow} INCRBY {kind}{width} {offset} {by}");
    let mut store = Store::with(&[holding(4, field, stored)]);
    match expected(field, stored, by, overflow) {
        Some(sum) => {
            store.answer(&text, &format!("*1\r\n:{sum}\r\n"));
            assert_eq!(store.record(0), holding(5, field, sum), "{text}");
        }
        None => {
            store.answer(&text, "*1\r\n$-1\r\n");
            assert_eq!(store.record(0), holding(4, field, stored), "{text}");
        }
    }
}

#[test]
fn every_type_at_its_ends() {
    let types = (1..=64).flat_map(|width| [(true, width), (false, width)]);
    for (signed, width) in types.filter(|kind| *kind != (false, 64)) {
        for offset in [0, 5] {
            let field = Field { signed, width, offset };
            let (least, greatest) = field.range();
            let span = i64::try_from(greatest - least).unwrap_or(i64::MAX);
            for stored in [least, least + 1, (least + greatest) / 2, greatest - 1, greatest] {
                for by in [i64::MIN, -span, -2, -1, 0, 1, 2, span, i64::MAX - 1, i64::MAX] {
                    for overflow in ["WRAP", "SAT", "FAIL"] {
                        check(field, stored, by, overflow);
                    }
                }
            }
        }
    }
}
