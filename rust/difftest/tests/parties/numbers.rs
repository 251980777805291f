//! The C functions with any number for a party. The wrapper has names for three;
//! every other number is refused as a damaged table is.

use difftest::compare::{place, Outcome};
use difftest::shared::{shared_case, SharedCase};
use difftest::{settings, Answer, Case, Rng};
use pietrunel::Party;
use reference::Shown;

extern "C" {
    fn pietrunel_shared_call(
        party: u32,
        boundary: usize,
        table: *mut u8,
        table_len: usize,
        time_ms: u64,
        command: *const u8,
        command_len: usize,
        reply: *mut u8,
        reply_cap: usize,
        reply_len: *mut usize,
    ) -> u32;

    fn pietrunel_shared_current_value(
        party: u32,
        boundary: usize,
        table: *const u8,
        table_len: usize,
        time_ms: u64,
        command: *const u8,
        command_len: usize,
        in_command: *mut bool,
        start: *mut usize,
        len: *mut usize,
    ) -> bool;
}

/// Numbers that are no party's; some would be one in fewer bits, or by its sign.
const NO_PARTIES: [u32; 9] = [3, 4, 255, 257, 258, 1 << 16 | 1, 1 << 31, u32::MAX - 1, u32::MAX];

/// The outcome of a party's call in C.
fn call(party: u32, case: &SharedCase) -> Outcome {
    case.call.run(|table, time, command, reply| {
        let mut len = usize::MAX;
        // SAFETY: each pointer comes from a slice with the length beside it, or from `len`, and
        // the mutable ones are borrowed alone.
        let number = unsafe {
            pietrunel_shared_call(
                party,
                case.boundary,
                table.as_mut_ptr(),
                table.len(),
                time,
                command.as_ptr(),
                command.len(),
                reply.as_mut_ptr(),
                reply.len(),
                &mut len,
            )
        };
        Answer { number, len }
    })
}

/// What is written of a party's current value in C, and whether one is shown.
fn current_value(party: u32, case: &SharedCase) -> (bool, Shown) {
    let Case { table, time, command, .. } = &case.call;
    let mut shown = Shown { in_command: true, start: usize::MAX, len: usize::MAX };
    // SAFETY: each pointer comes from a slice with the length beside it, which is only read, or
    // from a field of `shown`.
    let any = unsafe {
        pietrunel_shared_current_value(
            party,
            case.boundary,
            table.as_ptr(),
            table.len(),
            *time,
            command.as_ptr(),
            command.len(),
            &mut shown.in_command,
            &mut shown.start,
            &mut shown.len,
        )
    };
    (any, shown)
}

const NOTHING: (bool, Shown) = (false, Shown { in_command: false, start: 0, len: 0 });

#[test]
fn a_number_that_is_no_party_is_refused() {
    let mut rng = Rng::new(settings::seed());
    for _ in 0..settings::calls() / 100 {
        let case = shared_case(&mut rng);
        for party in NO_PARTIES {
            let untouched = case.call.run(|_, _, _, _| Answer { number: 1, len: 0 });
            assert!(call(party, &case) == untouched, "{party}: {}", case.again());
            assert_eq!(current_value(party, &case), NOTHING, "{party}: {}", case.again());
        }
    }
}

#[test]
fn each_party_has_its_number() {
    let mut rng = Rng::new(settings::seed());
    for _ in 0..settings::calls() / 100 {
        let case = shared_case(&mut rng);
        let Case { table, time, command, .. } = &case.call;
        for (number, party) in [(0, Party::Whole), (1, Party::Owner), (2, Party::Installer)] {
            let named = case.call.run(|table, time, command, reply| {
                let answer =
                    pietrunel::shared_call(party, case.boundary, table, time, command, reply);
                Answer { number: answer.number(), len: answer.reply().len() }
            });
            assert!(call(number, &case) == named, "{party:?}: {}", case.again());
            let value =
                pietrunel::shared_current_value(party, case.boundary, table, *time, command);
            let shown = value.map(|value| (true, place(value, table, command).unwrap()));
            assert_eq!(current_value(number, &case), shown.unwrap_or(NOTHING));
        }
    }
}
