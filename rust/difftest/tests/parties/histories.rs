//! Random histories of two parties on one table: the library runs the transactions
//! of one party's record as if one at a time, whatever the other party calls.

use difftest::history::{check_shared, Summary};
use difftest::shared::library;
use difftest::{settings, Answer, Rng};
use reference::View;

#[test]
fn transactions_of_a_party_run_as_if_one_at_a_time() {
    let (seed, histories) = (settings::seed(), settings::histories());
    settings::announce(&format!("checking {histories} random histories of two, seed {seed}"));
    let mut total = Summary::default();
    for history in 0..histories {
        // Each has a seed of its own, so that one can be run again alone.
        let seed = seed.wrapping_add(history);
        match check_shared(&mut Rng::new(seed), library) {
            Ok(summary) => total.add(&summary),
            Err(error) => panic!(
                "{error}\nrun it again, in rust/: PIETRUNEL_SEED={seed} PIETRUNEL_HISTORIES=1 \
                 cargo test --release --offline --test parties histories"
            ),
        }
    }
    println!("{total:?}");
    let counts = [
        total.ok, total.stale, total.long_versions, total.refused_writes, total.reads_only,
        total.others, total.bitfields, total.refused, total.foreign, total.foreign_writes,
        total.foreign_same_key, total.foreign_refused,
    ];
    assert!(counts.iter().all(|count| *count as u64 >= histories / 4), "{total:?}");
}

/// How many histories it takes to find a mistake out.
pub fn found_after(
    mut store: impl FnMut(View, &mut [u8], u64, &[u8], &mut [u8]) -> Answer,
) -> Option<u64> {
    let mut rng = Rng::new(12);
    (1..=1000).find(|_| check_shared(&mut rng, &mut store).is_err())
}
