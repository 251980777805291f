//! Keys that share a bucket of the library's index, the worst for its check for
//! equal keys: it then compares every two of them. They are made from the
//! source, `crates/table/src/hash.rt`.

/// Buckets of the index of a table with more than 16 records.
const BUCKETS: u64 = 2048;

/// So many keys of 24 bytes, all in one bucket. They begin with the same 16
/// bytes, so that a comparison must read them to the end.
pub fn keys(count: usize) -> Vec<String> {
    let all = (0..).map(|number| format!("bridge-7/battery{number:08}"));
    all.filter(|key| bucket(key.as_bytes()) == 0).take(count).collect()
}

/// The bucket of a key.
fn bucket(key: &[u8]) -> u64 {
    let (words, _) = key.as_chunks::<8>();
    let nine_times =
        |x: u64, word: &[u8; 8]| x.wrapping_mul(9).wrapping_add(u64::from_le_bytes(*word));
    let all = words.iter().fold(0, nine_times);
    let hash = (all % (1 << 32) + all / (1 << 32)) * 1_688_876_449;
    hash / (1 << 24) % BUCKETS
}
