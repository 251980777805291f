//! A fixed workload for the script `bench/instructions`: each row on the
//! library, then on the rival, with a call of `row_done` after each. It prints
//! the rows in that order, with their numbers of calls.

use bench::contenders::{library, rival, Call};
use bench::keys::KINDS;
use bench::rows::{self, Row, TIME};
use difftest::layout::{records, records_mut};
use std::hint::black_box;

fn main() {
    for mut row in rows::all(KINDS[0].1) {
        let whole = row.table.clone();
        println!("{}\t{}\t{}", row.name, row.records, row.commands.len());
        for call in [library as Call, rival] {
            run(call, &mut row, &whole);
            row_done();
        }
    }
}

fn run(call: Call, row: &mut Row, whole: &[u8]) {
    let mut reply = [0; 128];
    for (command, slot) in &row.commands {
        let number = call(&mut row.table, TIME, command, &mut reply);
        assert_eq!(number, row.number, "{} with {} records", row.name, row.records);
        records_mut(&mut row.table)[*slot] = records(whole)[*slot];
    }
}

/// Here the counts are written and start anew.
#[inline(never)]
fn row_done() {
    black_box(());
}
