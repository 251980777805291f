//! The library against the reference on random BITFIELD commands. Both are also
//! held to the plain rules, and everything that can come up does.

use difftest::bitfield::KINDS;
use difftest::compare::LIBRARY;
use difftest::{bitfield, bitfield_case, expect, settings, Rng};
use std::collections::{BTreeMap, BTreeSet};

/// The numbers that a BITFIELD in a good call can get.
const NUMBERS: [u32; 10] = [0, 4, 5, 6, 7, 8, 9, 15, 16, 17];

#[test]
fn the_library_agrees_with_the_reference_on_fields() {
    let (seed, calls) = (settings::seed(), settings::calls());
    settings::announce(&format!("comparing {calls} random calls of BITFIELD, seed {seed}"));
    let mut rng = Rng::new(seed);
    let mut numbers = BTreeMap::new();
    let mut kinds = BTreeMap::new();
    let mut types = BTreeSet::new();
    for call in 0..calls {
        let case = bitfield_case(&mut rng);
        let outcome = case.compare(&LIBRARY).unwrap_or_else(|difference| {
            panic!("seed {seed}, call {call}: {difference}");
        });
        *numbers.entry(outcome.answer.number).or_insert(0) += 1;
        expect::first_numbers(&case, outcome.answer.number);
        expect::bytes(&case, &outcome);
        bitfield::check_number(&case, &outcome);
        if outcome.answer.number == 0 {
            let seen = bitfield::check(&case, &outcome);
            for kind in seen.kinds {
                *kinds.entry(kind).or_insert(0) += 1;
            }
            types.extend(seen.types);
        }
        let shown = case.compare_current_value(&LIBRARY);
        assert_eq!(shown, Ok(None), "seed {seed}, call {call}");
    }
    println!("{numbers:?}\n{kinds:?}");
    let enough = calls / 1000;
    assert!(numbers.keys().eq(&NUMBERS), "{numbers:?}");
    assert!(numbers.values().all(|count| *count >= enough), "{numbers:?}");
    assert!(kinds.keys().eq(&KINDS), "{kinds:?}");
    assert!(kinds.values().all(|count| *count >= enough), "{kinds:?}");
    // i1 to i64 and u1 to u63, in each of three subcommands
    assert_eq!(types.len(), 3 * (64 + 63));
}
