//! Commands in pieces, on a feed and the reference at once. Each module has a
//! check that any feed can be put to: the library passes, and `mistakes` has
//! feeds that do not. What every call must keep is checked in `Assembler::feed`.

mod cuts;
mod held;
mod lengths;
mod mistakes;
mod refusals;
mod streams;

use difftest::compare;
use difftest::feed::{Feed, Input, Outcome, Target};
use difftest::resp::{decode, encode};
use difftest::Case;
use reference::MORE;

/// Nothing, or what is wrong.
type Verdict = Result<(), String>;

fn ensure(holds: bool, what: &str, outcome: &Outcome) -> Verdict {
    match holds {
        true => Ok(()),
        false => Err(format!("{what}: {:?}, {} held", outcome.fed, outcome.held_len)),
    }
}

/// A feed, and the bytes that it holds between calls.
struct Assembler {
    feed: Feed,
    held: Vec<u8>,
    held_len: usize,
}

impl Assembler {
    /// Nothing is held. The buffer has some bytes more than it needs.
    fn new(feed: Feed) -> Assembler {
        Assembler { feed, held: (0..520).map(|i| 0x80 | i as u8).collect(), held_len: 0 }
    }

    /// These bytes are held.
    fn holding(feed: Feed, bytes: &[u8]) -> Assembler {
        let mut assembler = Assembler::new(feed);
        assembler.held[..bytes.len()].copy_from_slice(bytes);
        assembler.held_len = bytes.len();
        assembler
    }

    /// Feeds a piece, and keeps what is held then.
    fn feed(&mut self, piece: &[u8], target: &Target) -> Result<Outcome, String> {
        let (held, held_len) = (self.held.clone(), self.held_len);
        let input = Input { held, held_len, piece: piece.to_vec(), target: target.clone() };
        let outcome = input.compare(self.feed)?;
        check_bytes(&input, &outcome)?;
        self.held.clone_from(&outcome.held);
        self.held_len = outcome.held_len;
        Ok(outcome)
    }

    /// Feeds a piece that must leave the command open.
    fn feed_more(&mut self, piece: &[u8], target: &Target) -> Verdict {
        let outcome = self.feed(piece, target)?;
        ensure(outcome.fed.number == MORE, "not more", &outcome)
            .map_err(|error| format!("{error}, after {}", piece.escape_ascii()))
    }

    /// Feeds a piece that must be refused at this byte of it.
    fn feed_refused(&mut self, piece: &[u8], taken: usize, target: &Target) -> Verdict {
        let outcome = self.feed(piece, target)?;
        ensure((outcome.fed.number, outcome.fed.taken) == (4, taken), "not refused", &outcome)
            .map_err(|error| format!("{error}, at byte {taken} of {}", piece.escape_ascii()))
    }
}

/// What the rules ask of every outcome, told without the reference.
fn check_bytes(before: &Input, after: &Outcome) -> Verdict {
    let Input { held, held_len, piece, target } = before;
    let fed = after.fed;
    let untouched = after.table == target.table && after.reply == target.reply && fed.len == 0;
    if fed.number != MORE {
        ensure(after.held_len == 0, "bytes are held after an answer", after)?;
    }
    if fed.number == 4 {
        ensure(untouched && after.held == *held, "a refusal changes bytes", after)?;
        return ensure(fed.taken <= piece.len(), "more is taken than there is", after);
    }
    let bytes = [&held[..*held_len], &piece[..fed.taken]].concat();
    let mut written = held.clone();
    if fed.number == MORE || *held_len > 0 {
        written[..bytes.len()].copy_from_slice(&bytes);
    }
    ensure(after.held == written, "other bytes are in the buffer", after)?;
    if fed.number == MORE {
        ensure(untouched, "more changes bytes", after)?;
        ensure(fed.taken == piece.len(), "more leaves bytes", after)?;
        let grown = after.held_len == bytes.len() && bytes.len() < 512;
        ensure(grown, "the wrong bytes are held", after)?;
        return ensure(decode(&bytes).is_none(), "a whole command is held", after);
    }
    let whole = undivided(&bytes, target, fed.taken, &written);
    ensure(*after == whole, "not the undivided call", after)
}

/// The outcome by the library's call with a whole command.
fn undivided(command: &[u8], target: &Target, taken: usize, held: &[u8]) -> Outcome {
    let Target { table, time, reply } = target.clone();
    let call = Case { table, time, command: command.to_vec(), reply }.run(compare::library);
    let fed = reference::Fed { number: call.answer.number, taken, len: call.answer.len };
    Outcome { fed, held_len: 0, held: held.to_vec(), table: call.table, reply: call.reply }
}

/// The words of a line, as a command.
fn line(text: &str) -> Vec<u8> {
    encode(&text.split_whitespace().collect::<Vec<_>>())
}

/// A good table of one empty record, a time and a reply buffer.
fn good_target() -> Target {
    Target { table: vec![0; 128], time: 1000, reply: (0..140).map(|i| 0x40 | i as u8).collect() }
}

/// Targets that would be refused by 1, 2, 3, and by all of them.
fn bad_targets() -> [Target; 4] {
    let good = good_target();
    let (table, time, reply) = (vec![3; 128], u64::MAX, vec![9; 127]);
    [
        Target { table: table.clone(), ..good.clone() },
        Target { time, ..good.clone() },
        Target { reply: reply.clone(), ..good.clone() },
        Target { table, time, reply },
    ]
}
