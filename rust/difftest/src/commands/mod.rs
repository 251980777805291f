//! Random commands on the keys of a table, with faults on demand.

mod bitfield;
mod choices;
mod draft;
mod faults;
mod spoil;
mod subject;

pub use bitfield::bitfield_words;
pub use faults::Faults;

use crate::{frames, resp, Rng};
use draft::Draft;

/// A whole command of a name, encoded.
pub fn command(
    rng: &mut Rng,
    faults: &Faults,
    name: &'static str,
    table: &[u8],
    time: u64,
) -> Vec<u8> {
    let words = words_of(rng, faults, name, table, time);
    let mut command = resp::encode(&words);
    if rng.chance(1) {
        command = frames::stretch(rng, words);
    }
    if faults.has(4) {
        frames::damage(rng, &mut command);
    }
    command
}

/// The words of any command.
pub fn command_words(rng: &mut Rng, faults: &Faults, table: &[u8], time: u64) -> Vec<Vec<u8>> {
    let name = pick_name(rng, faults);
    words_of(rng, faults, name, table, time)
}

fn words_of(
    rng: &mut Rng,
    faults: &Faults,
    name: &'static str,
    table: &[u8],
    time: u64,
) -> Vec<Vec<u8>> {
    let mut draft = Draft::new(rng, faults, name, table, time);
    draft.spoil(rng, faults);
    draft.words
}

/// A name whose command can have the faults that are asked for.
pub fn pick_name(rng: &mut Rng, faults: &Faults) -> &'static str {
    let names: &[&str] = if faults.has(11) {
        &["EXINCRBY"]
    } else if faults.has(10) {
        &["EXSET", "EXINCRBY", "EXCAS", "EXGAE"]
    } else if faults.has(9) {
        &[
            "EXSET", "EXSETVER", "EXINCRBY", "EXCAS", "EXCAD", "EXAPPEND", "EXPREPEND", "EXGAE",
            "BITFIELD",
        ]
    } else if faults.has(8) {
        &["EXSET", "EXGET", "EXINCRBY", "EXCAS", "EXAPPEND", "EXPREPEND", "EXGAE", "BITFIELD"]
    } else {
        &[
            "EXSET", "EXSET", "EXGET", "EXSETVER", "EXINCRBY", "EXINCRBY", "EXINCRBY", "EXCAS",
            "EXCAS", "EXCAD", "EXAPPEND", "EXPREPEND", "EXGAE", "DEL", "BITFIELD", "BITFIELD",
        ]
    };
    rng.pick(names)
}

/// The word in upper, lower or mixed case.
pub fn any_case(rng: &mut Rng, word: &str) -> Vec<u8> {
    match rng.below(3) {
        0 => word.into(),
        1 => word.to_ascii_lowercase().into(),
        _ => word
            .bytes()
            .map(|byte| if rng.chance(50) { byte.to_ascii_lowercase() } else { byte })
            .collect(),
    }
}
