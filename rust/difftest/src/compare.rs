//! A store and the reference on the same input: they must agree in every byte.

use crate::hex::hex;
use crate::Case;
use reference::{Answer, Shown};

/// A store held against the reference, in the reference's terms.
pub struct Candidate {
    pub name: &'static str,
    pub call: fn(&mut [u8], u64, &[u8], &mut [u8]) -> Answer,
    pub current_value: fn(&[u8], u64, &[u8]) -> Option<Shown>,
}

#[cfg(feature = "library")]
pub const LIBRARY: Candidate =
    Candidate { name: "library", call: library, current_value: library_current_value };

/// A call of the library.
#[cfg(feature = "library")]
pub fn library(table: &mut [u8], time: u64, command: &[u8], reply: &mut [u8]) -> Answer {
    let answer = pietrunel::call(table, time, command, reply);
    Answer { number: answer.number(), len: answer.reply().len() }
}

/// Where the library's current value stands.
#[cfg(feature = "library")]
fn library_current_value(table: &[u8], time: u64, command: &[u8]) -> Option<Shown> {
    place(pietrunel::current_value(table, time, command)?, table, command)
}

/// Where a part of a command or a table stands in it.
#[cfg(feature = "library")]
pub fn place(value: &[u8], table: &[u8], command: &[u8]) -> Option<Shown> {
    let start_in = |whole: &[u8]| {
        let range = whole.as_ptr_range();
        range.contains(&value.as_ptr()).then(|| value.as_ptr().addr() - range.start.addr())
    };
    let len = value.len();
    Some(match start_in(command) {
        Some(start) => Shown { in_command: true, start, len },
        None => Shown { in_command: false, start: start_in(table)?, len },
    })
}

/// A case after a call, with what was answered.
#[derive(Clone, Debug, PartialEq, Eq)]
pub struct Outcome {
    pub answer: Answer,
    pub table: Vec<u8>,
    pub reply: Vec<u8>,
}

impl Case {
    /// The outcome of this case in a store.
    pub fn run(&self, store: impl FnOnce(&mut [u8], u64, &[u8], &mut [u8]) -> Answer) -> Outcome {
        let (mut table, mut reply) = (self.table.clone(), self.reply.clone());
        let answer = store(&mut table, self.time, &self.command, &mut reply);
        Outcome { answer, table, reply }
    }

    /// The outcome in both stores, or how they differ and how to see it again.
    pub fn compare(&self, candidate: &Candidate) -> Result<Outcome, String> {
        let outcome = self.run(reference::call);
        match difference(candidate.name, &self.run(candidate.call), &outcome) {
            Some(difference) => Err(format!("{difference}\n{}", self.again())),
            None => Ok(outcome),
        }
    }

    /// Where the current value stands by both stores, or how they differ.
    pub fn compare_current_value(&self, candidate: &Candidate) -> Result<Option<Shown>, String> {
        let shown = reference::current_value(&self.table, self.time, &self.command);
        let other = (candidate.current_value)(&self.table, self.time, &self.command);
        if other == shown {
            return Ok(shown);
        }
        let name = candidate.name;
        Err(format!("current value: {name} {other:?}, reference {shown:?}\n{}", self.again()))
    }

    /// The command line that runs this case alone, on library and reference.
    pub fn again(&self) -> String {
        format!(
            "run it again, in rust/: cargo run --release --offline --bin replay -- {} {} {} {}",
            hex(&self.table),
            self.time,
            hex(&self.command),
            hex(&self.reply)
        )
    }
}

/// How the outcome of the store with this name differs from the reference's, if
/// it does.
pub fn difference(name: &str, other: &Outcome, reference: &Outcome) -> Option<String> {
    if other.answer != reference.answer {
        return Some(format!("{name} {:?}, reference {:?}", other.answer, reference.answer));
    }
    let first = |part, other: &[u8], reference: &[u8]| {
        let at = other.iter().zip(reference).position(|(a, b)| a != b)?;
        Some(format!("{part} byte {at}: {name} {}, reference {}", other[at], reference[at]))
    };
    first("table", &other.table, &reference.table)
        .or_else(|| first("reply", &other.reply, &reference.reply))
}
