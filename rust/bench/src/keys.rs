//! Kinds of keys. A store that hashes keys must do well on each.

/// Makes the key of a number.
pub type Key = fn(usize) -> String;

/// The kinds by name; the first is the usual one.
pub const KINDS: [(&str, Key); 3] = [("unit", unit), ("random", random), ("long", long)];

fn unit(number: usize) -> String {
    format!("unit:{number:04}")
}

/// Sixteen letters without order.
fn random(number: usize) -> String {
    let mut state = number as u64 + 1;
    let mut letter = || {
        state = (state ^ (state >> 29)).wrapping_mul(0xbf58_476d_1ce4_e5b9).wrapping_add(1);
        char::from(b'a' + (state >> 40) as u8 % 26)
    };
    (0..16).map(|_| letter()).collect()
}

/// The longest there are, 24 bytes.
pub fn long(number: usize) -> String {
    format!("bridge-7/battery/{number:04}-mv")
}
