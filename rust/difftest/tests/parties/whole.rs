//! Calls without a boundary on tables that are shared: they mean the whole table,
//! in which two records may not have equal keys.

use difftest::compare::{library, Outcome};
use difftest::layout;
use difftest::shared::{shared_case, Failures, SharedCase};
use difftest::{settings, Answer, Case, Rng};
use pietrunel::{Party, Progress};

/// The party that has the whole table, with any boundary.
fn whole(case: &SharedCase) -> Outcome {
    case.call.run(|table, time, command, reply| {
        let answer =
            pietrunel::shared_call(Party::Whole, case.boundary, table, time, command, reply);
        Answer { number: answer.number(), len: answer.reply().len() }
    })
}

/// A command that is fed, whole.
fn feed(case: &Case) -> Outcome {
    case.run(|table, time, command, reply| {
        match pietrunel::feed(&mut [0; 512], &mut 0, command, table, time, reply) {
            Progress::Answer { answer, .. } => {
                Answer { number: answer.number(), len: answer.reply().len() }
            }
            Progress::More => panic!("it is not whole"),
        }
    })
}

#[test]
fn the_whole_table_is_as_before_whatever_the_boundary() {
    let mut rng = Rng::new(settings::seed());
    let mut answered = 0;
    let calls = settings::calls() / 10;
    for _ in 0..calls {
        let case = shared_case(&mut rng);
        let Case { table, time, command, .. } = &case.call;
        let outcome = case.call.run(library);
        assert!(whole(&case) == outcome, "{}", case.again());
        let shown = pietrunel::current_value(table, *time, command);
        let same =
            pietrunel::shared_current_value(Party::Whole, case.boundary, table, *time, command);
        // The same part, and not only equal bytes
        assert_eq!(same.map(<[u8]>::as_ptr_range), shown.map(<[u8]>::as_ptr_range));
        answered += u64::from(outcome.answer.number == 0);
    }
    assert!(answered >= calls / 10, "{answered} are answered");
}

/// Equal keys across the boundary are damage without one.
#[test]
fn a_key_in_both_parts_is_refused_without_a_boundary() {
    let mut rng = Rng::new(settings::seed());
    let mut answered = 0;
    let calls = settings::calls() / 10;
    for _ in 0..calls {
        let case = shared_case(&mut rng);
        let Case { table, time, command, reply } = &case.call;
        if Failures::of(&case).number().is_some() || layout::is_good(table) {
            continue;
        }
        let answer = Answer { number: 1, len: 0 };
        let untouched = Outcome { answer, table: table.clone(), reply: reply.clone() };
        assert!(case.call.run(library) == untouched, "{}", case.again());
        assert!(feed(&case.call) == untouched, "{}", case.again());
        assert_eq!(pietrunel::current_value(table, *time, command), None);
        answered += u64::from(case.run(&difftest::shared::LIBRARY).answer.number == 0);
    }
    assert!(answered >= calls / 20, "{answered} are answered with a boundary");
}
