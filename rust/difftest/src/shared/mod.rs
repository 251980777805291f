//! Calls of two parties that share a table, in a store and in the reference: they
//! must agree in every byte.

mod cases;
mod expect;

pub use cases::{part_beside, shared_case};
pub use expect::Failures;

use crate::compare::{difference, Outcome};
use crate::layout::RECORD;
use crate::{Answer, Case};
use reference::{Party, Shown, View};
use std::ops::Range;

/// A call on a part of a table.
pub type CallIn = fn(View, &mut [u8], u64, &[u8], &mut [u8]) -> Answer;

/// A store held against the reference, in the reference's terms.
#[derive(Clone, Copy)]
pub struct Candidate {
    pub call: CallIn,
    pub current_value: fn(View, &[u8], u64, &[u8]) -> Option<Shown>,
}

#[cfg(feature = "library")]
pub const LIBRARY: Candidate = Candidate { call: library, current_value: library_current_value };

pub const REFERENCE: Candidate =
    Candidate { call: reference::call_in, current_value: reference::current_value_in };

/// A shared call of the library.
#[cfg(feature = "library")]
pub fn library(
    view: View,
    table: &mut [u8],
    time: u64,
    command: &[u8],
    reply: &mut [u8],
) -> Answer {
    let (party, boundary) = in_library(view);
    let answer = pietrunel::shared_call(party, boundary, table, time, command, reply);
    Answer { number: answer.number(), len: answer.reply().len() }
}

/// Where the library's current value stands.
#[cfg(feature = "library")]
fn library_current_value(view: View, table: &[u8], time: u64, command: &[u8]) -> Option<Shown> {
    let (party, boundary) = in_library(view);
    let value = pietrunel::shared_current_value(party, boundary, table, time, command)?;
    crate::compare::place(value, table, command)
}

/// The library's party and boundary; any boundary will do for the whole table.
#[cfg(feature = "library")]
fn in_library(view: View) -> (pietrunel::Party, usize) {
    match view {
        View::Whole => (pietrunel::Party::Whole, usize::MAX),
        View::SharedBy { party: Party::Owner, boundary } => (pietrunel::Party::Owner, boundary),
        View::SharedBy { party: Party::Installer, boundary } => {
            (pietrunel::Party::Installer, boundary)
        }
    }
}

/// The bytes of a party's part, of a table of so many bytes. The boundary is good.
pub fn part_of(party: Party, boundary: usize, len: usize) -> Range<usize> {
    match party {
        Party::Owner => 0..boundary * RECORD,
        Party::Installer => boundary * RECORD..len,
    }
}

pub fn other(party: Party) -> Party {
    match party {
        Party::Owner => Party::Installer,
        Party::Installer => Party::Owner,
    }
}

/// The input of one call of a party.
#[derive(Clone, Debug, PartialEq, Eq)]
pub struct SharedCase {
    pub party: Party,
    pub boundary: usize,
    pub call: Case,
}

impl SharedCase {
    pub fn view(&self) -> View {
        View::SharedBy { party: self.party, boundary: self.boundary }
    }

    /// The bytes of the caller's part. The boundary is good.
    pub fn part(&self) -> Range<usize> {
        part_of(self.party, self.boundary, self.call.table.len())
    }

    /// The same call on the caller's part alone, as a table of its own.
    pub fn alone(&self) -> Case {
        Case { table: self.call.table[self.part()].to_vec(), ..self.call.clone() }
    }

    /// The outcome of this case in a store.
    pub fn run(&self, store: &Candidate) -> Outcome {
        self.call.run(|table, time, command, reply| {
            (store.call)(self.view(), table, time, command, reply)
        })
    }

    /// Where the current value stands by a store.
    pub fn current_value(&self, store: &Candidate) -> Option<Shown> {
        (store.current_value)(self.view(), &self.call.table, self.call.time, &self.call.command)
    }

    /// The outcome in both stores, or how they differ and how to see it again.
    pub fn compare(&self, store: &Candidate) -> Result<Outcome, String> {
        let outcome = self.run(&REFERENCE);
        match difference("store", &self.run(store), &outcome) {
            Some(difference) => Err(format!("{difference}\n{}", self.again())),
            None => Ok(outcome),
        }
    }

    /// Where the current value stands by both stores, or how they differ.
    pub fn compare_current_value(&self, store: &Candidate) -> Result<Option<Shown>, String> {
        let (shown, other) = (self.current_value(&REFERENCE), self.current_value(store));
        if other == shown {
            return Ok(shown);
        }
        Err(format!("current value: store {other:?}, reference {shown:?}\n{}", self.again()))
    }

    /// The command line that runs this case alone, on library and reference.
    pub fn again(&self) -> String {
        format!("{} {:?} {}", self.call.again(), self.party, self.boundary)
    }
}
