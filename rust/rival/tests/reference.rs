//! The rival against the reference: number, reply, table and current value must
//! be equal, or its figures would count for nothing.

use difftest::compare::Candidate;
use difftest::layout::{records_mut, Fields, RECORD};
use difftest::resp::encode;
use difftest::{bitfield_case, case, number_case, settings, Answer, Case, Rng};
use reference::Shown;

const RIVAL: Candidate = Candidate { name: "rival", call, current_value };

fn call(table: &mut [u8], time: u64, command: &[u8], reply: &mut [u8]) -> Answer {
    let (number, len) = rival::call(table, time, command, reply);
    Answer { number, len }
}

fn current_value(table: &[u8], time: u64, command: &[u8]) -> Option<Shown> {
    let rival::Shown { in_command, start, len } = rival::current_value(table, time, command)?;
    Some(Shown { in_command, start, len })
}

/// The number that both give.
fn compare(case: &Case) -> u32 {
    let outcome = case.compare(&RIVAL).unwrap_or_else(|difference| panic!("{difference}"));
    case.compare_current_value(&RIVAL).unwrap_or_else(|difference| panic!("{difference}"));
    outcome.answer.number
}

#[test]
fn the_rival_agrees_with_the_reference() {
    let (seed, calls) = (settings::seed(), settings::calls());
    settings::announce(&format!("comparing {calls} random calls of the rival, seed {seed}"));
    let mut rng = Rng::new(seed);
    for _ in 0..calls {
        compare(&case(&mut rng));
    }
}

#[test]
fn the_rival_agrees_with_the_reference_on_fields() {
    let (seed, calls) = (settings::seed(), settings::calls());
    settings::announce(&format!("comparing {calls} BITFIELD calls of the rival, seed {seed}"));
    let mut rng = Rng::new(seed);
    for _ in 0..calls {
        compare(&bitfield_case(&mut rng));
    }
}

#[test]
fn the_rival_agrees_with_the_reference_on_numbers() {
    let (seed, calls) = (settings::seed(), settings::calls());
    settings::announce(&format!("comparing {calls} calls with numbers of the rival, seed {seed}"));
    let mut rng = Rng::new(seed);
    for _ in 0..calls {
        compare(&number_case(&mut rng));
    }
}

/// Keys with one hash in the rival: the second and third words cancel out.
fn colliding_table() -> Vec<u8> {
    let record = |slot: u64| {
        let second = slot.wrapping_mul(0x9e37_79b9_7f4a_7c15).wrapping_neg();
        let key = [0, slot, second].map(u64::to_le_bytes).concat();
        Fields { key, value: b"v".to_vec(), flags: 0, version: 1, expiry: 0 }.record()
    };
    (0..256).flat_map(record).collect()
}

#[test]
fn keys_that_collide_are_told_apart() {
    let mut table = colliding_table();
    for slot in [0, 1, 77, 254, 255] {
        let key = &table[slot * RECORD + 24..][..24];
        let (command, reply) = (encode(&[b"EXGET", key]), vec![0; 128]);
        let case = Case { table: table.clone(), time: 0, command, reply };
        assert_eq!(compare(&case), 0);
    }
    let records = records_mut(&mut table);
    records[255] = records[77];
    let (command, reply) = (encode(&["EXGET", "k"]), vec![0; 128]);
    assert_eq!(compare(&Case { table, time: 0, command, reply }), 1);
}
