//! What a party is answered, and its new part, do not depend on the other part: its
//! bytes may be any that keep the rules, and as many as the table has room for.

use difftest::compare::Outcome;
use difftest::layout::{records, MAX_RECORDS, MAX_TIME};
use difftest::shared::{part_beside, shared_case, Failures, SharedCase, LIBRARY};
use difftest::{settings, Case, Rng};
use reference::{Party, Shown};

/// The same call beside another part.
fn beside(rng: &mut Rng, case: &SharedCase) -> SharedCase {
    let mine = case.alone().table;
    let most = MAX_RECORDS - records(&mine).len();
    let others = part_beside(rng, &mine, most, case.call.time.min(MAX_TIME));
    let (table, boundary) = match case.party {
        Party::Owner => ([mine, others].concat(), case.boundary),
        Party::Installer => ([&others[..], &mine].concat(), records(&others).len()),
    };
    SharedCase { boundary, call: Case { table, ..case.call.clone() }, ..*case }
}

/// The outcome, with the caller's part for the table.
fn in_part(case: &SharedCase) -> Outcome {
    let outcome = case.run(&LIBRARY);
    Outcome { table: outcome.table[case.part()].to_vec(), ..outcome }
}

/// Where the current value stands, counted from the start of the caller's part.
fn shown_in_part(case: &SharedCase) -> Option<Shown> {
    let shown = case.current_value(&LIBRARY)?;
    let before = if shown.in_command { 0 } else { case.part().start };
    Some(Shown { start: shown.start - before, ..shown })
}

#[test]
fn the_other_part_does_not_count() {
    let mut rng = Rng::new(settings::seed());
    let calls = settings::calls() / 10;
    let (mut lengths, mut writes, mut values) = (0, 0, 0);
    for _ in 0..calls {
        let case = shared_case(&mut rng);
        let failures = Failures::of(&case);
        if failures.records || failures.boundary || failures.my_keys || failures.other_keys {
            continue;
        }
        let same = beside(&mut rng, &case);
        let (one, other) = (in_part(&case), in_part(&same));
        assert!(one == other, "{}\n{}", case.again(), same.again());
        let shown = shown_in_part(&case);
        assert_eq!(shown, shown_in_part(&same), "{}\n{}", case.again(), same.again());
        lengths += u64::from(case.call.table.len() != same.call.table.len());
        writes += u64::from(one.table != case.call.table[case.part()]);
        values += u64::from(shown.is_some());
    }
    for count in [lengths, writes, values] {
        assert!(count >= calls / 100, "{lengths} {writes} {values}");
    }
}
