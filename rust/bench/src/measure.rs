//! Timing: rounds in which the contenders take turns, so that whatever slows
//! the machine slows all of them.

use crate::contenders::{library, rival, Call, CONTENDERS};
use crate::rows::{Row, TIME};
use difftest::layout::{records, records_mut};
use std::hint::black_box;
use std::time::Instant;

const ROUNDS: usize = 31;

/// About how long one contender runs in a round, in nanoseconds.
const TURN: f64 = 200_000.0;

/// Nanoseconds per call, and how many times the rival's the library's are.
pub struct Figures {
    pub library: f64,
    pub rival: f64,
    pub ratio: f64,
}

/// Medians of all rounds; the ratio is taken in each round.
pub fn figures(row: &mut Row) -> Figures {
    let whole = row.table.clone();
    let passes = CONTENDERS.map(|call| {
        let once = time(call, row, &whole, 1).max(time(call, row, &whole, 1));
        (TURN / (once * row.commands.len() as f64)).clamp(1.0, 1000.0) as usize
    });
    let mut rounds: Vec<[f64; 3]> = Vec::new();
    for round in 0..ROUNDS {
        let mut times = [0.0; 3];
        for turn in 0..3 {
            let at = (turn + round) % 3;
            times[at] = time(CONTENDERS[at], row, &whole, passes[at]);
        }
        rounds.push(times);
    }
    let over = |figure: fn(&[f64; 3]) -> f64| median(rounds.iter().map(figure).collect());
    Figures {
        library: over(|[library, _, nothing]| library - nothing),
        rival: over(|[_, rival, nothing]| rival - nothing),
        ratio: over(|[library, rival, nothing]| (library - nothing) / (rival - nothing)),
    }
}

/// Nanoseconds per call. The record that a command changed is put back, so
/// that every call takes the row's path; `nothing` pays for that too.
fn time(call: Call, row: &mut Row, whole: &[u8], passes: usize) -> f64 {
    let mut reply = [0; 128];
    let start = Instant::now();
    for _ in 0..passes {
        for (command, slot) in &row.commands {
            black_box(call(&mut row.table, TIME, black_box(command), &mut reply));
            records_mut(&mut row.table)[*slot] = records(whole)[*slot];
        }
    }
    start.elapsed().as_nanos() as f64 / (passes * row.commands.len()) as f64
}

/// Panics unless every call of the row gives the row's number in both stores,
/// and the same table and reply.
pub fn check(row: &Row) {
    for (command, _) in &row.commands {
        let [library, rival] = [library, rival].map(|call| {
            let (mut table, mut reply) = (row.table.clone(), [0; 128]);
            let number = call(&mut table, TIME, command, &mut reply);
            assert_eq!(number, row.number, "{} with {} records", row.name, row.records);
            (table, reply)
        });
        assert!(library == rival, "{} with {} records", row.name, row.records);
    }
}

fn median(mut figures: Vec<f64>) -> f64 {
    figures.sort_by(f64::total_cmp);
    figures[figures.len() / 2]
}
