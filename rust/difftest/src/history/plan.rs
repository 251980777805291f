//! The order of a history's calls.

use crate::Rng;

/// A step of a history: the next call of a transaction, or a call of none.
#[derive(Clone, Copy)]
pub enum Step {
    Transaction(usize),
    Other,
    Refused,
    /// A call of the other party.
    Foreign,
}

pub struct Plan {
    pub list: Vec<Step>,
    pub transactions: usize,
}

/// A random order of all steps. A transaction that stands twice in the list
/// reads at the first place and writes at the second.
pub fn plan(rng: &mut Rng) -> Plan {
    let transactions = rng.between(1, 8);
    let mut list = Vec::new();
    for index in 0..transactions {
        list.push(Step::Transaction(index));
        if rng.chance(85) {
            list.push(Step::Transaction(index));
        }
    }
    list.extend(vec![Step::Other; rng.below(10)]);
    list.extend(vec![Step::Refused; rng.below(6)]);
    if rng.chance(70) {
        rng.shuffle(&mut list);
    } else {
        // Nearly in order, so that more transactions are answered OK.
        for _ in 0..list.len() / 2 {
            let at = rng.below(list.len());
            let beside = (at + 1) % list.len();
            list.swap(at, beside);
        }
    }
    Plan { list, transactions }
}

impl Plan {
    /// The same with calls of the other party at random places.
    pub fn with_foreign(mut self, rng: &mut Rng) -> Plan {
        for _ in 0..rng.below(12) {
            let at = rng.below(self.list.len() + 1);
            self.list.insert(at, Step::Foreign);
        }
        self
    }
}
