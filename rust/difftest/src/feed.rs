//! One call of feed, in a store and in the reference: they must agree in every
//! byte.

use crate::hex::hex;
use reference::Fed;

/// A feed held against the reference's, in its terms.
pub type Feed = fn(&mut [u8], &mut usize, &[u8], &mut [u8], u64, &mut [u8]) -> Fed;

/// A call of the library's.
#[cfg(feature = "library")]
pub fn library(
    held: &mut [u8],
    held_len: &mut usize,
    piece: &[u8],
    table: &mut [u8],
    time: u64,
    reply: &mut [u8],
) -> Fed {
    use pietrunel::Progress;
    let progress = pietrunel::feed(held, held_len, piece, table, time, reply);
    let number = progress.number();
    match progress {
        Progress::More => Fed { number, taken: piece.len(), len: 0 },
        Progress::Answer { taken, answer } => Fed { number, taken, len: answer.reply().len() },
    }
}

/// What a command is applied to, once it is whole.
#[derive(Clone, Debug, PartialEq, Eq)]
pub struct Target {
    pub table: Vec<u8>,
    pub time: u64,
    pub reply: Vec<u8>,
}

/// The input of one call of feed.
#[derive(Clone, Debug, PartialEq, Eq)]
pub struct Input {
    pub held: Vec<u8>,
    pub held_len: usize,
    pub piece: Vec<u8>,
    pub target: Target,
}

/// An input after a call, with what was answered.
#[derive(Clone, Debug, PartialEq, Eq)]
pub struct Outcome {
    pub fed: Fed,
    pub held_len: usize,
    pub held: Vec<u8>,
    pub table: Vec<u8>,
    pub reply: Vec<u8>,
}

impl Outcome {
    /// The bytes of the reply.
    pub fn reply(&self) -> &[u8] {
        &self.reply[..self.fed.len]
    }
}

impl Input {
    pub fn run(&self, feed: Feed) -> Outcome {
        let (mut held, mut held_len) = (self.held.clone(), self.held_len);
        let Target { mut table, time, mut reply } = self.target.clone();
        let fed = feed(&mut held, &mut held_len, &self.piece, &mut table, time, &mut reply);
        Outcome { fed, held_len, held, table, reply }
    }

    /// The outcome in both, or how they differ.
    pub fn compare(&self, feed: Feed) -> Result<Outcome, String> {
        let outcome = self.run(reference::feed);
        match difference(&self.run(feed), &outcome) {
            Some(difference) => Err(format!("{difference}\n{}", self.text())),
            None => Ok(outcome),
        }
    }

    /// All of it, to be read or tried again.
    fn text(&self) -> String {
        let Target { table, time, reply } = &self.target;
        format!(
            "held {} of {}: {}\npiece {}\ntable {}\ntime {time}, reply buffer of {} bytes",
            self.held_len,
            self.held.len(),
            self.held[..self.held_len.min(self.held.len())].escape_ascii(),
            self.piece.escape_ascii(),
            hex(table),
            reply.len()
        )
    }
}

/// How an outcome differs from the reference's, if it does.
fn difference(other: &Outcome, reference: &Outcome) -> Option<String> {
    let answers = |outcome: &Outcome| (outcome.fed, outcome.held_len);
    if answers(other) != answers(reference) {
        return Some(format!("{:?}, reference {:?}", answers(other), answers(reference)));
    }
    let first = |part, other: &[u8], reference: &[u8]| {
        let at = other.iter().zip(reference).position(|(a, b)| a != b)?;
        Some(format!("{part} byte {at}: {}, reference {}", other[at], reference[at]))
    };
    first("held", &other.held, &reference.held)
        .or_else(|| first("table", &other.table, &reference.table))
        .or_else(|| first("reply", &other.reply, &reference.reply))
}
