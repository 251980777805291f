//! The library against the reference on random calls with numbers.

use super::*;
use difftest::compare::LIBRARY;
use difftest::{expect, settings};

#[test]
fn the_library_agrees_with_the_reference_on_numbers() {
    let (seed, calls) = (settings::seed(), settings::calls());
    settings::announce(&format!("comparing {calls} random calls with numbers, seed {seed}"));
    let mut rng = Rng::new(seed);
    for call in 0..calls {
        let case = number_case(&mut rng);
        let outcome = case.compare(&LIBRARY).unwrap_or_else(|difference| {
            panic!("seed {seed}, call {call}: {difference}");
        });
        expect::first_numbers(&case, outcome.answer.number);
        expect::bytes(&case, &outcome);
        case.compare_current_value(&LIBRARY).unwrap_or_else(|difference| {
            panic!("seed {seed}, call {call}: {difference}");
        });
    }
}
