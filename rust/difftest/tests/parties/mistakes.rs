//! Stores with one mistake each: the checks on random calls and histories find
//! every one.

use super::{histories, random};
use difftest::layout::{self, is_good, RECORD};
use difftest::shared::{other, part_of, CallIn, Candidate, REFERENCE};
use difftest::Answer;
use reference::Party::{Installer, Owner};
use reference::{call, call_in, current_value, current_value_in, Party, View};

/// Fails unless the random calls find the mistake.
fn is_found(call: CallIn) {
    let store = Candidate { call, ..REFERENCE };
    assert!(random::check(&store, 20_000).is_err());
}

/// Party and boundary of a call that has them.
fn of(view: View) -> (Party, usize) {
    match view {
        View::SharedBy { party, boundary } => (party, boundary),
        View::Whole => panic!("no party"),
    }
}

fn shared_by(party: Party, boundary: usize) -> View {
    View::SharedBy { party, boundary }
}

/// Whether this number refuses every call, whatever its time and command are.
fn refused_by(number: u32, view: View, table: &[u8]) -> bool {
    call_in(view, &mut table.to_vec(), 0, b"", &mut [0; 128]).number == number
}

/// The call on a part alone, without a look at the rest.
fn alone(
    party: Party,
    view: View,
    table: &mut [u8],
    time: u64,
    command: &[u8],
    reply: &mut [u8],
) -> Answer {
    let part = part_of(party, of(view).1, table.len());
    call(&mut table[part], time, command, reply)
}

#[test]
fn the_reference_has_none() {
    random::check(&REFERENCE, 20_000).unwrap();
}

#[test]
fn a_boundary_at_the_end_is_taken() {
    is_found(|view, table, time, command, reply| match of(view) {
        (Owner, boundary) if boundary == table.len() / RECORD => call(table, time, command, reply),
        _ => call_in(view, table, time, command, reply),
    });
}

#[test]
fn a_boundary_of_0_is_taken() {
    is_found(|view, table, time, command, reply| match of(view) {
        (Installer, 0) => call(table, time, command, reply),
        _ => call_in(view, table, time, command, reply),
    });
}

/// The place of the boundary is 128 times it, in 64 bits.
#[test]
fn a_boundary_wraps() {
    is_found(|view, table, time, command, reply| {
        let (party, boundary) = of(view);
        call_in(shared_by(party, boundary << 7 >> 7), table, time, command, reply)
    });
}

#[test]
fn a_boundary_counts_bytes() {
    is_found(|view, table, time, command, reply| {
        let (party, boundary) = of(view);
        call_in(shared_by(party, boundary / RECORD), table, time, command, reply)
    });
}

#[test]
fn a_bad_boundary_is_number_1() {
    is_found(|view, table, time, command, reply| {
        let answer = call_in(view, table, time, command, reply);
        Answer { number: if answer.number == 18 { 1 } else { answer.number }, ..answer }
    });
}

#[test]
fn a_bad_boundary_is_told_by_a_reply() {
    is_found(|view, table, time, command, reply| {
        let answer = call_in(view, table, time, command, reply);
        if answer.number != 18 || reply.is_empty() {
            return answer;
        }
        reply[0] = b'-';
        Answer { len: 1, ..answer }
    });
}

#[test]
fn a_bad_boundary_touches_the_reply_buffer() {
    is_found(|view, table, time, command, reply| {
        let answer = call_in(view, table, time, command, reply);
        if let (18, Some(last)) = (answer.number, reply.last_mut()) {
            *last ^= 1;
        }
        answer
    });
}

#[test]
fn the_boundary_is_tested_before_the_records() {
    is_found(|view, table, time, command, reply| {
        let boundary = of(view).1;
        if boundary == 0 || boundary >= table.len() / RECORD {
            return Answer { number: 18, len: 0 };
        }
        call_in(view, table, time, command, reply)
    });
}

/// With a bad boundary one part has all records.
#[test]
fn the_boundary_is_tested_after_equal_keys() {
    is_found(|view, table, time, command, reply| {
        if refused_by(18, view, table) && !is_good(table) {
            return Answer { number: 1, len: 0 };
        }
        call_in(view, table, time, command, reply)
    });
}

#[test]
fn the_boundary_is_tested_after_the_time() {
    is_found(|view, table, time, command, reply| {
        let answer = call_in(view, table, time, command, reply);
        let late = answer.number == 18 && time > 1 << 62;
        Answer { number: if late { 2 } else { answer.number }, ..answer }
    });
}

#[test]
fn keys_are_tested_in_the_callers_part_alone() {
    is_found(|view, table, time, command, reply| {
        if refused_by(1, view, table) && layout::has_good_records(table) {
            return alone(of(view).0, view, table, time, command, reply);
        }
        call_in(view, table, time, command, reply)
    });
}

#[test]
fn the_records_are_tested_in_the_callers_part_alone() {
    is_found(|view, table, time, command, reply| {
        let (party, boundary) = of(view);
        let whole = table.len() % RECORD == 0 && table.len() <= 256 * RECORD;
        if whole && boundary > 0 && boundary < table.len() / RECORD {
            return alone(party, view, table, time, command, reply);
        }
        call_in(view, table, time, command, reply)
    });
}

/// The whole may have more than 256 records then.
#[test]
fn the_length_is_tested_in_each_part() {
    is_found(|view, table, time, command, reply| {
        let (party, boundary) = of(view);
        if boundary == 0 || boundary >= table.len() / RECORD {
            return call_in(view, table, time, command, reply);
        }
        let rest = &table[part_of(other(party), boundary, table.len())];
        match is_good(rest) {
            true => alone(party, view, table, time, command, reply),
            false => Answer { number: 1, len: 0 },
        }
    });
}

#[test]
fn keys_are_tested_over_the_whole_table() {
    is_found(|view, table, time, command, reply| {
        if !refused_by(18, view, table) && !is_good(table) {
            return Answer { number: 1, len: 0 };
        }
        call_in(view, table, time, command, reply)
    });
}

#[test]
fn a_free_record_is_taken_in_the_other_part() {
    is_found(takes_free_records_anywhere);
}

fn takes_free_records_anywhere(
    view: View,
    table: &mut [u8],
    time: u64,
    command: &[u8],
    reply: &mut [u8],
) -> Answer {
    let answer = call_in(view, table, time, command, reply);
    match answer.number {
        17 => alone(other(of(view).0), view, table, time, command, reply),
        _ => answer,
    }
}

#[test]
fn a_key_is_looked_for_in_the_whole_table() {
    is_found(looks_anywhere);
}

fn looks_anywhere(
    view: View,
    table: &mut [u8],
    time: u64,
    command: &[u8],
    reply: &mut [u8],
) -> Answer {
    match is_good(table) {
        true if !refused_by(18, view, table) => call(table, time, command, reply),
        _ => call_in(view, table, time, command, reply),
    }
}

#[test]
fn the_parts_are_exchanged() {
    is_found(|view, table, time, command, reply| {
        let (party, boundary) = of(view);
        call_in(shared_by(other(party), boundary), table, time, command, reply)
    });
}

/// The installer's value is looked for from the start of its part on.
#[test]
fn a_place_is_counted_from_the_start_of_the_part() {
    let current_value = |view, table: &[u8], time, command: &[u8]| {
        let (party, boundary) = of(view);
        let shown = current_value_in(view, table, time, command)?;
        let part = part_of(party, boundary, table.len());
        match shown.in_command {
            true => Some(shown),
            false => current_value(&table[part], time, command),
        }
    };
    assert!(random::check(&Candidate { current_value, ..REFERENCE }, 20_000).is_err());
}

#[test]
fn a_value_is_shown_with_a_bad_boundary() {
    let current_value = |view, table: &[u8], time, command: &[u8]| {
        let shown = current_value_in(view, table, time, command);
        shown
            .or_else(|| current_value(table, time, command).filter(|_| refused_by(18, view, table)))
    };
    assert!(random::check(&Candidate { current_value, ..REFERENCE }, 20_000).is_err());
}

/// Histories find what one party does to the other's record.
#[test]
fn histories_find_a_party_that_disturbs_the_other() {
    assert!(histories::found_after(call_in).is_none());
    for store in [looks_anywhere, takes_free_records_anywhere] {
        let found = histories::found_after(store);
        assert!(found.is_some_and(|count| count <= 100), "{found:?}");
    }
}

/// The other party's write raises the version of the record with the same key.
#[test]
fn histories_find_a_version_that_both_raise() {
    let found = histories::found_after(|view, table, time, command, reply| {
        let before = table.to_vec();
        let answer = call_in(view, table, time, command, reply);
        let records = layout::records_mut(table);
        let changed = layout::records(&before).iter().zip(&*records);
        let changed: Vec<_> =
            changed.filter(|(old, new)| old != new).map(|(_, new)| *new).collect();
        for record in records.iter_mut().filter(|record| layout::in_use(record)) {
            let key = layout::key(record);
            if changed.iter().any(|new| new != record && layout::key(new) == key) {
                record[8] ^= 1;
            }
        }
        answer
    });
    assert!(found.is_some_and(|count| count <= 100), "{found:?}");
}
