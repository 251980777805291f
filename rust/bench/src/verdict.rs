//! Reads what `bench/instructions` counted: for each row its name, records and
//! calls, and the instructions of the library and of the rival. Prints them per
//! call and per further record, and fails if a bar is missed.

use bench::bars::{judge_calls, judge_fields, judge_ratios, judge_slopes, slopes, Line, Slope};
use std::process::ExitCode;

fn main() -> ExitCode {
    println!("instructions per call\n\n{}", Line::HEAD);
    let lines: Vec<Line> = std::io::stdin().lines().map(|line| read(&line.unwrap())).collect();
    for line in &lines {
        println!("{}", line.text(0));
    }
    println!("\ninstructions per further record, from 16 records to 256\n\n{}", Slope::HEAD);
    let slopes = slopes(&lines);
    for slope in &slopes {
        println!("{}", slope.text());
    }
    println!();
    let verdicts =
        [judge_ratios(&lines), judge_slopes(&slopes), judge_calls(&lines), judge_fields(&lines)];
    if verdicts == [true; 4] {
        ExitCode::SUCCESS
    } else {
        ExitCode::FAILURE
    }
}

fn read(text: &str) -> Line {
    let fields: Vec<&str> = text.split('\t').collect();
    let number = |at: usize| fields[at].parse::<f64>().unwrap();
    let (library, rival) = (number(3) / number(2), number(4) / number(2));
    let (name, records) = (fields[0].to_string(), number(1) as usize);
    Line { name, records, library, rival, ratio: library / rival }
}
