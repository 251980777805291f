//! The library against the reference on random cases, which reach every
//! number and every form of a reply. Both are also held to the plain rules.

use difftest::compare::LIBRARY;
use difftest::{bitfield, case, expect, settings, Case, Rng};
use std::collections::BTreeMap;

/// Every form of a reply with number 0, by command; see `expect::form`.
const FORMS: [&str; 30] = [
    "BITFIELD: array of 0", "BITFIELD: array of 1", "BITFIELD: array of 2", "BITFIELD: array of 3",
    "BITFIELD: array of 4", "DEL: 0", "DEL: 1", "EXAPPEND: integer", "EXAPPEND: nil", "EXCAD: -1",
    "EXCAD: 0", "EXCAD: 1", "EXCAS: -1", "EXCAS: ERR update version is stale", "EXCAS: OK",
    "EXGAE: array of 3", "EXGAE: nil", "EXGET: array of 2", "EXGET: array of 3", "EXGET: nil",
    "EXINCRBY: array of 2", "EXINCRBY: integer", "EXINCRBY: nil", "EXPREPEND: integer",
    "EXPREPEND: nil", "EXSET: OK", "EXSET: integer", "EXSET: nil", "EXSETVER: 0", "EXSETVER: 1",
];

/// The numbers that BITFIELD can get, but for 1 to 3.
const BITFIELD_NUMBERS: [usize; 10] = [0, 4, 5, 6, 7, 8, 9, 15, 16, 17];

#[test]
fn the_library_agrees_with_the_reference() {
    let (seed, calls) = (settings::seed(), settings::calls());
    settings::announce(&format!("comparing {calls} random calls, seed {seed}"));
    let mut rng = Rng::new(seed);
    let mut numbers = [0; 18];
    let mut bitfields = [0; 18];
    let mut forms = BTreeMap::new();
    for call in 0..calls {
        let case = case(&mut rng);
        let outcome = case.compare(&LIBRARY).unwrap_or_else(|difference| {
            panic!("seed {seed}, call {call}: {difference}");
        });
        let is_bitfield = is_bitfield(&case);
        numbers[outcome.answer.number as usize] += 1;
        bitfields[outcome.answer.number as usize] += u64::from(is_bitfield);
        expect::first_numbers(&case, outcome.answer.number);
        expect::bytes(&case, &outcome);
        if outcome.answer.number == 0 {
            *forms.entry(expect::form(&case, &outcome)).or_insert(0) += 1;
            if is_bitfield {
                bitfield::check(&case, &outcome);
            }
        }
        check_current_value(case);
    }
    println!("{numbers:?}\n{bitfields:?}\n{forms:?}");
    let enough = calls / 2000;
    for (number, count) in numbers.iter().enumerate() {
        assert!(*count >= enough, "number {number} occurs {count} times");
    }
    for number in BITFIELD_NUMBERS {
        assert!(bitfields[number] >= enough, "BITFIELD has number {number} too seldom");
    }
    assert!(forms.keys().eq(&FORMS), "{forms:?}");
    assert!(forms.values().all(|count| *count >= enough), "{forms:?}");
}

/// Whether a command is a BITFIELD, or was one before its form or its name was
/// damaged.
fn is_bitfield(case: &Case) -> bool {
    let command = case.command.to_ascii_uppercase();
    command.windows(7).any(|word| word == b"BITFIEL" || word == b"ITFIELD")
}

/// There is no reply buffer, so number 3 does not arise.
fn check_current_value(mut case: Case) {
    let shown =
        case.compare_current_value(&LIBRARY).unwrap_or_else(|difference| panic!("{difference}"));
    case.reply = vec![0; 128];
    let outcome = case.run(reference::call);
    expect::current_value(&case, &outcome, shown);
}

#[test]
fn a_seed_gives_the_same_cases_again() {
    let (mut a, mut b) = (Rng::new(7), Rng::new(7));
    for _ in 0..1000 {
        assert_eq!(case(&mut a), case(&mut b));
    }
    assert_ne!(case(&mut Rng::new(8)), case(&mut Rng::new(9)));
}
