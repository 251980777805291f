//! Prints the library's time beside the rival's, row by row, and how it stands
//! to the bars. The kind of keys can be named: unit, random or long.
//!
//! It fails only if keys that collide take too long: ratios of times vary from
//! run to run, so those of instructions decide.

use bench::bars::{judge_colliding, judge_ratios, Line};
use bench::keys::KINDS;
use bench::measure::{check, figures};
use bench::rows::{self, Row};
use std::process::ExitCode;

fn main() -> ExitCode {
    let kind = std::env::args().nth(1).unwrap_or(KINDS[0].0.to_string());
    let Some((_, key)) = KINDS.iter().find(|(name, _)| *name == kind) else {
        eprintln!("usage: bench [unit|random|long]");
        return ExitCode::from(2);
    };
    println!("keys like {}; ns per call\n\n{}", key(1), Line::HEAD);
    let lines: Vec<Line> = rows::all(*key).into_iter().map(measured).collect();
    println!();
    judge_ratios(&lines);
    if judge_colliding(&lines) {
        ExitCode::SUCCESS
    } else {
        ExitCode::FAILURE
    }
}

/// Measures a row and prints its line.
fn measured(mut row: Row) -> Line {
    check(&row);
    let f = figures(&mut row);
    let (name, records) = (row.name.to_string(), row.records);
    let line = Line { name, records, library: f.library, rival: f.rival, ratio: f.ratio };
    println!("{}", line.text(1));
    line
}
