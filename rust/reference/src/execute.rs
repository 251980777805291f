//! What a command does to the slots: an answer, with or without one slot stored
//! anew, or a refusal 12 to 17.

use crate::checked::{check, given, Checked};
use crate::command::{
    Action, Change, Command, End, Expire, Increment, Join, Presence, Set, Swap, Terms,
};
use crate::number::read_signed;
use crate::resp::Reply;
use crate::search::{lookup, slot_for, Lookup};
use crate::subcommands::{run, Subcommand};
use crate::table::{Record, Slot, HIGHEST_VERSION, VALUE_LIMIT};

/// A reply, or the new contents of a slot and a reply.
pub enum Effect {
    Answer(Reply),
    Store(usize, Slot, Reply),
}

/// What a command does to the slots at a time.
pub fn execute(time: u64, slots: &[Slot], command: &Command) -> Checked<Effect> {
    let found = lookup(time, &command.key, slots);
    let slot = slot_for(time, slots, found);
    Place { key: &command.key, found, slot }.act(&command.action)
}

/// A key, what stands under it, and the slot that a write takes.
struct Place<'a> {
    key: &'a [u8],
    found: Lookup<'a>,
    slot: Option<usize>,
}

impl Place<'_> {
    fn act(&self, action: &Action) -> Checked<Effect> {
        match action {
            Action::Exset(set) => self.exset(set),
            Action::Exincrby(increment) => self.exincrby(increment),
            Action::Exjoin(join) => self.exjoin(join),
            Action::Excas(swap) => self.excas(swap),
            Action::Exget { with_flags } => Ok(self.exget(*with_flags)),
            Action::Exsetver { version } => Ok(self.exsetver(*version)),
            Action::Excad { version } => Ok(self.excad(*version)),
            Action::Exgae { expire } => Ok(self.exgae(*expire)),
            Action::Del => Ok(self.del()),
            Action::Bitfield(subcommands) => self.bitfield(subcommands),
        }
    }

    fn exset(&self, set: &Set) -> Checked<Effect> {
        if !self.allowed(set.terms.presence) {
            return Ok(Effect::Answer(Reply::Nil));
        }
        check(12, self.agrees(set.terms.change))?;
        let (slot, record) = self.put(&set.terms, Some(set.flags), set.value.clone())?;
        let reply = if set.with_version { number(record.version) } else { Reply::Simple("OK") };
        Ok(Effect::Store(slot, Some(record), reply))
    }

    fn exincrby(&self, increment: &Increment) -> Checked<Effect> {
        if !self.allowed(increment.terms.presence) {
            return Ok(Effect::Answer(Reply::Nil));
        }
        check(12, self.agrees(increment.terms.change))?;
        let sum = sum(increment, self.counter()?)?;
        let (slot, record) = self.put(&increment.terms, None, sum.to_string().into_bytes())?;
        let reply = match increment.with_version {
            true => Reply::Array(vec![Reply::Integer(sum), number(record.version)]),
            false => Reply::Integer(sum),
        };
        Ok(Effect::Store(slot, Some(record), reply))
    }

    /// EXAPPEND and EXPREPEND.
    fn exjoin(&self, join: &Join) -> Checked<Effect> {
        if !self.allowed(join.terms.presence) {
            return Ok(Effect::Answer(Reply::Nil));
        }
        check(12, self.agrees(join.terms.change))?;
        let value = match join.end {
            End::Back => [self.value(), &join.value].concat(),
            End::Front => [&join.value, self.value()].concat(),
        };
        let (slot, record) = self.put(&join.terms, None, value)?;
        let reply = number(record.version);
        Ok(Effect::Store(slot, Some(record), reply))
    }

    fn excas(&self, swap: &Swap) -> Checked<Effect> {
        let Lookup::Live(_, old) = self.found else {
            return Ok(Effect::Answer(Reply::Integer(-1)));
        };
        if swap.version != old.version {
            let stale = Reply::Simple("ERR update version is stale");
            let items = vec![stale, Reply::Bulk(old.value.clone()), number(old.version)];
            return Ok(Effect::Answer(Reply::Array(items)));
        }
        let (presence, change) = (Presence::Always, Change::Raise);
        let terms = Terms { presence, change, expire: swap.expire };
        let (slot, record) = self.put(&terms, None, swap.value.clone())?;
        let items = vec![Reply::Simple("OK"), Reply::Simple(""), number(record.version)];
        Ok(Effect::Store(slot, Some(record), Reply::Array(items)))
    }

    fn exget(&self, with_flags: bool) -> Effect {
        match self.found {
            Lookup::Live(_, record) => Effect::Answer(get_reply(with_flags, record)),
            _ => Effect::Answer(Reply::Nil),
        }
    }

    fn exsetver(&self, version: u64) -> Effect {
        match self.found {
            Lookup::Live(slot, record) => {
                Effect::Store(slot, Some(Record { version, ..record.clone() }), number(1))
            }
            _ => Effect::Answer(number(0)),
        }
    }

    fn excad(&self, version: u64) -> Effect {
        match self.found {
            Lookup::Live(slot, record) if record.version == version => {
                Effect::Store(slot, None, number(1))
            }
            Lookup::Live(..) => Effect::Answer(number(0)),
            _ => Effect::Answer(Reply::Integer(-1)),
        }
    }

    fn exgae(&self, expire: Expire) -> Effect {
        match self.found {
            Lookup::Live(slot, record) => {
                let new = Record { expiry: self.expiry_after(expire), ..record.clone() };
                Effect::Store(slot, Some(new), get_reply(true, record))
            }
            _ => Effect::Answer(Reply::Nil),
        }
    }

    fn del(&self) -> Effect {
        match self.found {
            Lookup::Live(slot, _) => Effect::Store(slot, None, number(1)),
            _ => Effect::Answer(number(0)),
        }
    }

    /// 16 is tested before anything runs, and so before 15. The key gets a record,
    /// or its record a new version, only if something was written.
    fn bitfield(&self, subcommands: &[Subcommand]) -> Checked<Effect> {
        check(16, subcommands.iter().all(Subcommand::fits))?;
        let ran = run(subcommands, self.value());
        let answer = |answer: Option<i64>| answer.map_or(Reply::Nil, Reply::Integer);
        let reply = Reply::Array(ran.answers.into_iter().map(answer).collect());
        let Some(value) = ran.written else {
            return Ok(Effect::Answer(reply));
        };
        let (presence, change) = (Presence::Always, Change::Raise);
        let terms = Terms { presence, change, expire: Expire::Keep };
        let (slot, record) = self.put(&terms, None, value)?;
        Ok(Effect::Store(slot, Some(record), reply))
    }

    /// NX and XX.
    fn allowed(&self, presence: Presence) -> bool {
        match presence {
            Presence::Always => true,
            Presence::IfAbsent => self.found.live_record().is_none(),
            Presence::IfLive => self.found.live_record().is_some(),
        }
    }

    /// VER against a live record's version; an absent key has none to compare.
    fn agrees(&self, change: Change) -> bool {
        match (change, self.found) {
            (Change::RaiseFrom(version), Lookup::Live(_, record)) => version == record.version,
            _ => true,
        }
    }

    /// The value that stands there: an absent key's is empty.
    fn value(&self) -> &[u8] {
        self.found.live_record().map_or(&b""[..], |record| &record.value)
    }

    /// The number that EXINCRBY counts from: an absent key's is 0.
    fn counter(&self) -> Checked<i64> {
        match self.found {
            Lookup::Live(_, record) => given(13, read_signed(&record.value)),
            _ => Ok(0),
        }
    }

    /// Tests 15 to 17 of a new value, and the record with all its fields at the
    /// slot that it takes. Flags are kept where none are given.
    fn put(&self, terms: &Terms, flags: Option<u32>, value: Vec<u8>) -> Checked<(usize, Record)> {
        let version = self.version_after(terms.change)?;
        check(16, value.len() <= VALUE_LIMIT)?;
        let slot = given(17, self.slot)?;
        let kept = self.found.live_record().map_or(0, |record| record.flags);
        let (flags, expiry) = (flags.unwrap_or(kept), self.expiry_after(terms.expire));
        Ok((slot, Record { key: self.key.to_vec(), value, flags, version, expiry }))
    }

    /// ABS stores its version; otherwise an absent key starts at 1 and a live
    /// one rises.
    fn version_after(&self, change: Change) -> Checked<u64> {
        match (change, self.found) {
            (Change::Set(version), _) => Ok(version),
            (_, Lookup::Live(_, record)) => {
                check(15, record.version < HIGHEST_VERSION)?;
                Ok(record.version + 1)
            }
            _ => Ok(1),
        }
    }

    fn expiry_after(&self, expire: Expire) -> u64 {
        match expire {
            Expire::Clear => 0,
            Expire::Keep => self.found.live_record().map_or(0, |record| record.expiry),
            Expire::At(expiry) => expiry,
        }
    }
}

/// NONEGATIVE makes 0 of an exact sum below 0, of any size; only then come the
/// tests against 64 bits, MIN and MAX.
fn sum(increment: &Increment, counter: i64) -> Checked<i64> {
    let exact = i128::from(counter) + i128::from(increment.by);
    let kept = if increment.non_negative { exact.max(0) } else { exact };
    let sum = given(14, i64::try_from(kept).ok())?;
    check(14, increment.min.is_none_or(|min| sum >= min))?;
    check(14, increment.max.is_none_or(|max| sum <= max))?;
    Ok(sum)
}

/// Value and version, and perhaps flags.
fn get_reply(with_flags: bool, record: &Record) -> Reply {
    let mut items = vec![Reply::Bulk(record.value.clone()), number(record.version)];
    if with_flags {
        items.push(number(record.flags.into()));
    }
    Reply::Array(items)
}

/// Versions and flags as integers.
fn number(number: u64) -> Reply {
    Reply::Integer(number as i64)
}
