//! The ways in which transactions make a new value.

use crate::layout::MAX_VALUE;
use crate::{words, Rng};

/// A way to make a new value from any value.
#[derive(Clone, Debug)]
pub enum Update {
    Same,
    Replace(Vec<u8>),
    Append(Vec<u8>),
    Reverse,
    Half,
    AddToEach(u8),
}

impl Update {
    pub fn random(rng: &mut Rng) -> Update {
        match rng.below(7) {
            0 | 1 => Update::Same,
            2 => Update::Replace(words::value(rng)),
            3 => Update::Append(words::value(rng)),
            4 => Update::Reverse,
            5 => Update::Half,
            _ => Update::AddToEach(rng.next_u64() as u8),
        }
    }

    pub fn apply(&self, value: &[u8]) -> Vec<u8> {
        let mut new: Vec<u8> = match self {
            Update::Same => value.to_vec(),
            Update::Replace(other) => other.clone(),
            Update::Append(more) => [value, more].concat(),
            Update::Reverse => value.iter().rev().copied().collect(),
            Update::Half => value[..value.len() / 2].to_vec(),
            Update::AddToEach(n) => value.iter().map(|byte| byte.wrapping_add(*n)).collect(),
        };
        new.truncate(MAX_VALUE);
        new
    }
}
