//! Decimal text at every power of ten, and expiries at every edge of the test
//! that spares a division, against the arithmetic and the text of Rust.

use super::*;

/// The numbers up to `most` on both sides of each multiple by a digit of each
/// power of ten.
fn edges(most: u128) -> Vec<u128> {
    let powers = (0..39).map(|k| 10u128.pow(k)).take_while(|power| *power <= most);
    let multiples = powers.flat_map(|power| (1..=9).map(move |digit| digit * power));
    let sides = multiples.flat_map(|number| [number - 1, number, number + 1]);
    sides.chain([most - 1, most]).filter(|number| *number <= most).collect()
}

#[test]
fn the_text_of_versions() {
    for version in edges(i64::MAX as u128) {
        let mut store = Store::new(1);
        store.answer(&format!("EXSET k v ABS {version}"), "+OK\r\n");
        store.answer("EXGET k", &format!("*2\r\n$1\r\nv\r\n:{version}\r\n"));
    }
}

#[test]
fn the_text_of_sums() {
    for number in edges(1 << 63) {
        for sum in [number as i128, -(number as i128)] {
            let Ok(sum) = i64::try_from(sum) else { continue };
            let (mut store, text) = (Store::new(1), sum.to_string());
            store.answer(&format!("EXINCRBY k {text}"), &format!(":{text}\r\n"));
            assert_eq!(store.record(0)[48..48 + text.len()], *text.as_bytes());
        }
    }
}

#[test]
fn the_text_of_lengths() {
    for len in 1..=64 {
        let value = "v".repeat(len);
        let mut store = Store::new(1);
        store.answer(&format!("EXSET k {value}"), "+OK\r\n");
        store.answer("EXGET k", &format!("*2\r\n${len}\r\n{value}\r\n:1\r\n"));
    }
}

#[test]
fn the_latest_expiries() {
    for (word, unit, from_now) in
        [("EX", 1000, true), ("PX", 1, true), ("EXAT", 1000, false), ("PXAT", 1, false)]
    {
        for time in [0, 1, 999, 1000, (1 << 32) - 1, 1 << 32, TOP_TIME / 2, TOP_TIME - 1, TOP_TIME]
        {
            let from = if from_now { u128::from(time) } else { 0 };
            let latest = (u128::from(TOP_TIME) - from) / unit;
            let near = (latest.max(2) - 2..latest + 3).chain([1, i64::MAX as u128]);
            let upper = (0..31).flat_map(|k| [(1u128 << (32 + k)) - 1, 1 << (32 + k)]);
            // the first count that its upper half alone refuses
            let refused = ((1u128 << 30) / unit + 1) << 32;
            let counts = near.chain(upper).chain([refused - 1, refused]);
            for count in counts.filter(|count| *count > 0) {
                let mut store = Store { table: vec![0; 128], time };
                let text = format!("EXSET k v {word} {count}");
                let expiry = from + unit * count;
                if expiry <= u128::from(TOP_TIME) {
                    store.answer(&text, "+OK\r\n");
                    assert_eq!(store.record(0)[16..24], (expiry as u64).to_le_bytes());
                } else {
                    store.refuse(&text, 10);
                }
            }
        }
    }
}
