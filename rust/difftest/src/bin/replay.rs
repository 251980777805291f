//! Runs one case on the library and the reference and prints both outcomes.

use difftest::compare::{difference, library, Outcome, LIBRARY};
use difftest::hex::unhex;
use difftest::shared::{self, SharedCase};
use difftest::Case;
use reference::{Party, Shown};
use std::process::ExitCode;

fn main() -> ExitCode {
    let words: Vec<String> = std::env::args().skip(1).collect();
    let Some((case, party)) = read(&words) else {
        eprintln!("usage: replay TABLE TIME COMMAND REPLY-BUFFER [Owner|Installer BOUNDARY]");
        eprintln!("bytes in hexadecimal, - for none; time and boundary in decimal");
        return ExitCode::from(2);
    };
    println!("command    {}", case.command.escape_ascii());
    let (ours, theirs, shown) = run(&case, party);
    print("library", &case, &ours);
    print("reference", &case, &theirs);
    match (difference("library", &ours, &theirs), &shown) {
        (None, Ok(shown)) => {
            println!("they agree; current value {shown:?}");
            ExitCode::SUCCESS
        }
        (calls, shown) => {
            println!("they differ: {}", calls.or(shown.clone().err()).unwrap_or_default());
            ExitCode::FAILURE
        }
    }
}

/// The outcome in both stores, and where the current value stands.
fn run(
    case: &Case,
    party: Option<(Party, usize)>,
) -> (Outcome, Outcome, Result<Option<Shown>, String>) {
    let Some((party, boundary)) = party else {
        let shown = case.compare_current_value(&LIBRARY);
        return (case.run(library), case.run(reference::call), shown);
    };
    let case = SharedCase { party, boundary, call: case.clone() };
    let shown = case.compare_current_value(&shared::LIBRARY);
    (case.run(&shared::LIBRARY), case.run(&shared::REFERENCE), shown)
}

/// A case, and party and boundary if it is a shared call.
fn read(words: &[String]) -> Option<(Case, Option<(Party, usize)>)> {
    let [table, time, command, reply, party @ ..] = words else {
        return None;
    };
    let case = Case {
        table: unhex(table)?,
        time: time.parse().ok()?,
        command: unhex(command)?,
        reply: unhex(reply)?,
    };
    let party = match party {
        [] => None,
        [party, boundary] => Some((read_party(party)?, boundary.parse().ok()?)),
        _ => return None,
    };
    Some((case, party))
}

fn read_party(word: &str) -> Option<Party> {
    let parties = [Party::Owner, Party::Installer];
    parties.into_iter().find(|party| format!("{party:?}") == word)
}

/// The answer and the records that changed.
fn print(name: &str, case: &Case, outcome: &Outcome) {
    let reply = &outcome.reply[..outcome.answer.len];
    println!("{name:10} number {}, reply {}", outcome.answer.number, reply.escape_ascii());
    let records = case.table.chunks(128).zip(outcome.table.chunks(128)).enumerate();
    for (slot, (before, after)) in records.filter(|(_, (before, after))| before != after) {
        println!(
            "  slot {slot} was {}\n  slot {slot} is  {}",
            before.escape_ascii(),
            after.escape_ascii()
        );
    }
}
