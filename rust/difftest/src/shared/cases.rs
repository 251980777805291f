//! Random calls on shared tables: good ones, and ones with a fault in either part
//! or in the boundary.

use super::SharedCase;
use crate::commands::{self, Faults};
use crate::layout::{self, MAX_RECORDS, RECORD};
use crate::{case_time, reply_room, tables, words, Case, Rng};
use reference::Party;

/// A case of any command. Some keys stand in both parts.
pub fn shared_case(rng: &mut Rng) -> SharedCase {
    let faults = Faults::random(rng);
    let name = commands::pick_name(rng, &faults);
    let now = words::time(rng);
    let most = if rng.chance(5) { MAX_RECORDS } else { 16 };
    let mut mine = tables::good(rng, most, now);
    let mut others = part_beside(rng, &mine, most, now);
    let time = case_time(rng, &faults, now, &mine);
    // Sometimes about a key that stands in the other part alone.
    let known = if rng.chance(85) { &mine } else { &others };
    let command = commands::command(rng, &faults, name, known, time);
    if faults.has(1) || rng.chance(8) {
        let part = if rng.chance(50) { &mut mine } else { &mut others };
        tables::damage(rng, part);
    }
    if rng.chance(4) {
        others.clear();
    }
    let party = rng.pick(&[Party::Owner, Party::Installer]);
    let (mut table, boundary) = match party {
        Party::Owner => ([&mine[..], &others].concat(), mine.len() / RECORD),
        Party::Installer => ([&others[..], &mine].concat(), others.len() / RECORD),
    };
    if rng.chance(2) {
        fill_up(rng, &mut table);
    }
    let boundary = if rng.chance(15) { any_boundary(rng, table.len() / RECORD) } else { boundary };
    let room = reply_room(rng, &faults);
    let reply = rng.bytes(room);
    SharedCase { party, boundary, call: Case { table, time, command, reply } }
}

/// A good part of at most so many records for the other party, in which some of
/// the keys stand too.
pub fn part_beside(rng: &mut Rng, mine: &[u8], most: usize, now: u64) -> Vec<u8> {
    let mut part = tables::good(rng, most, now);
    let keys = layout::records(mine).iter().filter(|record| layout::in_use(record));
    let keys: Vec<_> = keys.map(layout::key).collect();
    if keys.is_empty() {
        return part;
    }
    for _ in 0..rng.below(4) {
        let key = rng.pick(&keys);
        if layout::find(&part, key).is_none() {
            let live = rng.chance(80);
            let slot = rng.below(part.len() / RECORD);
            let fields = tables::fields(rng, key.to_vec(), now, live);
            layout::records_mut(&mut part)[slot] = fields.record();
        }
    }
    part
}

/// Empty records to the most that a table has, or one more.
fn fill_up(rng: &mut Rng, table: &mut Vec<u8>) {
    let records = MAX_RECORDS + rng.below(2);
    table.resize(table.len().max(records * RECORD), 0);
}

/// A boundary in a table of so many records, often a bad one.
fn any_boundary(rng: &mut Rng, records: usize) -> usize {
    match rng.below(10) {
        0 | 1 => 0,
        2 | 3 => records,
        4 => records + 1,
        5 => records.saturating_sub(1),
        6 => usize::MAX - rng.below(2),
        // 128 times this wraps to a place in the table.
        7 => (rng.between(1, 127) << 57) + rng.below(records + 1),
        _ => rng.below(records + 2),
    }
}
