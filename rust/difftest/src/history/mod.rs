//! Random histories of transactions on one record.
//!
//! A transaction reads the record with EXGET and may later send EXCAS with
//! KEEPTTL, the version that it got, in any form, and a value made from the one it
//! read.
//! Among these calls come commands on other keys and refused calls. The
//! answers decide which transactions count: a serial execution of those
//! answered OK, in the order of their EXCAS, must leave the same record.
//!
//! Where two parties share the table, the record is one party's, and any calls of
//! the other come among them.

mod plan;
mod run;
mod update;

use crate::{Answer, Rng};
use plan::{plan, Plan, Step};
use reference::View;
use run::{Run, State};

/// What the calls of a history came to.
#[derive(Clone, Copy, Debug, Default, PartialEq, Eq)]
pub struct Summary {
    /// Transactions answered OK.
    pub ok: usize,
    /// Transactions answered stale.
    pub stale: usize,
    /// Those answered whose EXCAS had its version with a plus or extra zeros.
    pub long_versions: usize,
    /// Transactions whose EXCAS was refused.
    pub refused_writes: usize,
    /// Transactions that sent no EXCAS.
    pub reads_only: usize,
    /// Commands on other keys that were answered.
    pub others: usize,
    /// Those of them that were BITFIELD.
    pub bitfields: usize,
    /// Refused calls that belong to no transaction, commands on other keys
    /// among them.
    pub refused: usize,
    /// Calls of the other party that were answered.
    pub foreign: usize,
    /// Those of them that changed its part.
    pub foreign_writes: usize,
    /// Those that changed it under the key of the record.
    pub foreign_same_key: usize,
    /// Calls of the other party that were refused.
    pub foreign_refused: usize,
}

impl Summary {
    pub fn add(&mut self, other: &Summary) {
        self.ok += other.ok;
        self.stale += other.stale;
        self.long_versions += other.long_versions;
        self.refused_writes += other.refused_writes;
        self.reads_only += other.reads_only;
        self.others += other.others;
        self.bitfields += other.bitfields;
        self.refused += other.refused;
        self.foreign += other.foreign;
        self.foreign_writes += other.foreign_writes;
        self.foreign_same_key += other.foreign_same_key;
        self.foreign_refused += other.foreign_refused;
    }
}

/// Runs one random history on a store. The error tells which rule a call or
/// the end broke.
pub fn check<S>(rng: &mut Rng, mut store: S) -> Result<Summary, String>
where
    S: FnMut(&mut [u8], u64, &[u8], &mut [u8]) -> Answer,
{
    let plan = plan(rng);
    let on_all = |_, table: &mut [u8], time, command: &[u8], reply: &mut [u8]| {
        store(table, time, command, reply)
    };
    let run = Run::new(rng, on_all, plan.transactions);
    follow(rng, plan, run)
}

/// Runs one random history of two parties on a store.
pub fn check_shared<S>(rng: &mut Rng, store: S) -> Result<Summary, String>
where
    S: FnMut(View, &mut [u8], u64, &[u8], &mut [u8]) -> Answer,
{
    let plan = plan(rng).with_foreign(rng);
    let run = Run::new(rng, store, plan.transactions).shared(rng);
    follow(rng, plan, run)
}

fn follow<S>(rng: &mut Rng, plan: Plan, mut run: Run<S>) -> Result<Summary, String>
where
    S: FnMut(View, &mut [u8], u64, &[u8], &mut [u8]) -> Answer,
{
    for step in plan.list {
        match step {
            Step::Transaction(index) => match run.transactions[index].clone() {
                State::NotBegun => run.read(rng, index)?,
                State::HasRead(read) => run.write(rng, index, &read)?,
                State::Done => {}
            },
            Step::Other => run.other_key(rng)?,
            Step::Refused => run.refused_call(rng)?,
            Step::Foreign => run.foreign_call(rng)?,
        }
        run.compare_record()?;
    }
    run.summary.reads_only =
        run.transactions.iter().filter(|state| matches!(state, State::HasRead(_))).count();
    Ok(run.summary)
}
