//! A history on its way: the calls, and the serial execution beside them.

use super::update::Update;
use super::Summary;
use crate::commands::{self, Faults};
use crate::layout::{self, Fields, Record, MAX_TIME, MAX_VERSION, RECORD};
use crate::numerals::{form, numeral};
use crate::resp::{self, Reply};
use crate::shared::{other, part_beside, part_of};
use crate::{tables, words, Answer, Rng};
use reference::{Party, View};
use std::ops::Range;

/// What a transaction got from its EXGET.
#[derive(Clone)]
pub struct Read {
    value: Vec<u8>,
    version: i64,
    update: Update,
    /// How many transactions had been answered OK by then.
    ok_before: usize,
}

#[derive(Clone)]
pub enum State {
    NotBegun,
    HasRead(Read),
    Done,
}

/// A history on its way.
pub struct Run<S> {
    store: S,
    table: Vec<u8>,
    /// The part of the table in which the record stands.
    view: View,
    slot: usize,
    key: Vec<u8>,
    /// The record by serial execution: only answers of OK change it.
    serial: Record,
    pub transactions: Vec<State>,
    pub summary: Summary,
}

impl<S> Run<S>
where
    S: FnMut(View, &mut [u8], u64, &[u8], &mut [u8]) -> Answer,
{
    /// A table that holds the record in a random slot.
    pub fn new(rng: &mut Rng, store: S, transactions: usize) -> Run<S> {
        let now = words::time(rng);
        let mut table = tables::good(rng, 6, now);
        let slot = rng.below(layout::records(&table).len());
        let key = loop {
            let key = words::key(rng);
            if layout::find(&table, &key).is_none_or(|other| other == slot) {
                break key;
            }
        };
        let highest = MAX_VERSION - transactions as u64;
        let serial = Fields {
            key: key.clone(),
            value: words::value(rng),
            flags: rng.next_u64() as u32,
            version: match rng.chance(30) {
                true => highest - rng.below(2) as u64,
                false => tables::version(rng).min(highest),
            },
            expiry: rng.pick(&[0, 0, 1, 2, 1000, 5000, MAX_TIME]),
        }
        .record();
        layout::records_mut(&mut table)[slot] = serial;
        let transactions = vec![State::NotBegun; transactions];
        let (view, summary) = (View::Whole, Summary::default());
        Run { store, table, view, slot, key, serial, transactions, summary }
    }

    /// The same with the table as one party's part, beside one of the other's.
    pub fn shared(mut self, rng: &mut Rng) -> Run<S> {
        let now = words::time(rng);
        let others = part_beside(rng, &self.table, 6, now);
        let party = rng.pick(&[Party::Owner, Party::Installer]);
        let (boundary, table) = match party {
            Party::Owner => (self.table.len() / RECORD, [self.table, others].concat()),
            Party::Installer => (others.len() / RECORD, [others, self.table].concat()),
        };
        if party == Party::Installer {
            self.slot += boundary;
        }
        Run { table, view: View::SharedBy { party, boundary }, ..self }
    }

    /// The bytes of a part.
    fn part(&self, view: View) -> Range<usize> {
        match view {
            View::Whole => 0..self.table.len(),
            View::SharedBy { party, boundary } => part_of(party, boundary, self.table.len()),
        }
    }

    /// A time at which the record is live, often the last such one.
    fn live_time(&self, rng: &mut Rng) -> u64 {
        match layout::expiry(&self.serial) {
            0 => words::time(rng),
            expiry if rng.chance(30) => expiry - 1,
            expiry => rng.next_u64() % expiry,
        }
    }

    /// Calls the store for who has the record; gives back number and reply.
    fn call(
        &mut self,
        time: u64,
        words: &[Vec<u8>],
        room: usize,
    ) -> Result<(u32, Vec<u8>), String> {
        self.call_in(self.view, time, words, room)
    }

    /// Calls the store for a part. No other byte may change.
    fn call_in(
        &mut self,
        view: View,
        time: u64,
        words: &[Vec<u8>],
        room: usize,
    ) -> Result<(u32, Vec<u8>), String> {
        let before = self.table.clone();
        let mut reply = vec![0xa5; room];
        let answer = (self.store)(view, &mut self.table, time, &resp::encode(words), &mut reply);
        let Range { start, end } = self.part(view);
        if self.table[..start] != before[..start] || self.table[end..] != before[end..] {
            return Err(format!("{view:?} changes the other part: {words:?}"));
        }
        Ok((answer.number, reply[..answer.len].to_vec()))
    }

    /// The EXGET of a transaction.
    pub fn read(&mut self, rng: &mut Rng, index: usize) -> Result<(), String> {
        let time = self.live_time(rng);
        let mut words = vec![commands::any_case(rng, "EXGET"), self.key.clone()];
        if rng.chance(30) {
            words.push(commands::any_case(rng, "WITHFLAGS"));
        }
        let (number, reply) = self.call(time, &words, 128)?;
        if number != 0 {
            return Err(format!("EXGET of a live record is refused by {number}"));
        }
        let items = array(&reply)?;
        let [Reply::Bulk(value), Reply::Integer(version), ..] = &items[..] else {
            return Err(format!("EXGET gives {items:?}"));
        };
        self.transactions[index] = State::HasRead(Read {
            value: value.clone(),
            version: *version,
            update: Update::random(rng),
            ok_before: self.summary.ok,
        });
        Ok(())
    }

    /// The EXCAS of a transaction, sometimes made to be refused.
    pub fn write(&mut self, rng: &mut Rng, index: usize, read: &Read) -> Result<(), String> {
        self.transactions[index] = State::Done;
        let words = [
            commands::any_case(rng, "EXCAS"),
            self.key.clone(),
            read.update.apply(&read.value),
            numeral(rng, read.version),
            commands::any_case(rng, "KEEPTTL"),
        ];
        if rng.chance(10) {
            return self.refused_write(rng, &words);
        }
        let time = self.live_time(rng);
        let (number, reply) = self.call(time, &words, 200)?;
        if number != 0 {
            return Err(format!("EXCAS of a live record is refused by {number}"));
        }
        self.summary.long_versions += usize::from(form(&words[3]) != "short");
        let stale_is_due = self.summary.ok != read.ok_before;
        match (is_stale(&reply)?, stale_is_due) {
            (true, true) => self.summary.stale += 1,
            (false, false) => {
                self.summary.ok += 1;
                let value = read.update.apply(layout::value(&self.serial));
                let version = layout::version(&self.serial) + 1;
                layout::store(&mut self.serial, &value, version);
            }
            (stale, _) => return Err(format!("stale: {stale}, due: {stale_is_due}")),
        }
        Ok(())
    }

    /// The EXCAS of a transaction, at a time or with a buffer that is refused.
    fn refused_write(&mut self, rng: &mut Rng, words: &[Vec<u8>]) -> Result<(), String> {
        let (time, room) = rng.pick(&[(MAX_TIME + 1, 128), (0, 127), (u64::MAX, 0)]);
        let (number, _) = self.call(time, words, room)?;
        self.summary.refused_writes += 1;
        if number == 0 {
            return Err("an EXCAS out of range is answered".into());
        }
        Ok(())
    }

    /// Any command on any other key.
    pub fn other_key(&mut self, rng: &mut Rng) -> Result<(), String> {
        let time = self.live_time(rng);
        let faults = if rng.chance(20) { Faults::random(rng) } else { Faults::NONE };
        let words = loop {
            let part = &self.table[self.part(self.view)];
            let words = commands::command_words(rng, &faults, part, time);
            if words.get(1) != Some(&self.key) {
                break words;
            }
        };
        let (number, _) = self.call(time, &words, 128)?;
        if number != 0 {
            self.summary.refused += 1;
            return Ok(());
        }
        self.summary.others += 1;
        self.summary.bitfields += usize::from(words[0].eq_ignore_ascii_case(b"BITFIELD"));
        Ok(())
    }

    /// Any call of the other party at any time, often on its record with the same
    /// key.
    pub fn foreign_call(&mut self, rng: &mut Rng) -> Result<(), String> {
        let View::SharedBy { party, boundary } = self.view else {
            panic!("there is no other party");
        };
        let view = View::SharedBy { party: other(party), boundary };
        let faults = if rng.chance(30) { Faults::random(rng) } else { Faults::NONE };
        let time = if faults.has(2) { MAX_TIME + 1 } else { words::time(rng) };
        let room = if faults.has(3) { rng.below(128) } else { 128 };
        let part = &self.table[self.part(view)];
        let mut words = commands::command_words(rng, &faults, part, time);
        if let (true, Some(key)) = (rng.chance(30), words.get_mut(1)) {
            key.clone_from(&self.key);
        }
        let before = self.table.clone();
        let (number, _) = self.call_in(view, time, &words, room)?;
        let wrote = self.table != before;
        match number {
            0 => self.summary.foreign += 1,
            _ => self.summary.foreign_refused += 1,
        }
        self.summary.foreign_writes += usize::from(wrote);
        self.summary.foreign_same_key += usize::from(wrote && words[1] == self.key);
        Ok(())
    }

    /// A call that must be refused, at any time, often on the record's key.
    pub fn refused_call(&mut self, rng: &mut Rng) -> Result<(), String> {
        let words = self.refused_words(rng);
        let mut command = resp::encode(&words);
        let mut time = self.live_time(rng);
        let mut room = 128;
        let mut table = None;
        if !refused_by_itself(&words) {
            match rng.below(4) {
                0 => time = rng.pick(&[MAX_TIME + 1, u64::MAX]),
                1 => room = rng.below(128),
                2 => command.truncate(rng.below(command.len())),
                // A table without its last byte
                _ => table = self.table.pop(),
            }
        }
        let before = self.table.clone();
        let mut reply = vec![0x5a; room];
        let answer = (self.store)(self.view, &mut self.table, time, &command, &mut reply);
        self.summary.refused += 1;
        if answer.number == 0 {
            return Err(format!("a call that must be refused is answered: {words:?}"));
        }
        if self.table != before {
            return Err(format!("a refused call changes the table: {words:?}"));
        }
        self.table.extend(table);
        Ok(())
    }

    /// Words of a command on the record; some are refused by themselves.
    fn refused_words(&self, rng: &mut Rng) -> Vec<Vec<u8>> {
        let version = layout::version(&self.serial);
        // A digit too many makes the right version no number.
        let long = format!("{version:0>21}");
        let mut number = |number: u64| String::from_utf8(numeral(rng, number)).unwrap();
        let (right, wrong, zero) = (number(version), number(version ^ 1), number(0));
        let line = match rng.below(14) {
            0 => vec!["EXSET", "", "v", "VER", &wrong],
            1 => vec!["EXAPPEND", "", "v", "VER", &wrong],
            2 => vec!["EXCAS", "", "v", &right, "NOPE"],
            3 => vec!["EXCAS", "", "v", &long, "KEEPTTL"],
            4 => vec!["EXINCRBY", "", "1", "MIN", "2", "MAX", "1"],
            5 => vec!["EXGAE", "", "EX", &zero],
            6 => vec!["DEL", ""],
            7 => vec!["EXCAD", "", &right],
            8 => vec!["EXSETVER", "", "5"],
            9 => vec!["BITFIELD", "", "SET", "u8", "0", "1", "GET"],
            10 => vec!["BITFIELD", "", "SET", "u8", "0", "1", "SET", "u8", "0", "256"],
            11 => vec!["BITFIELD", "", "SET", "u8", "0", "1", "INCRBY", "u8", "505", "0"],
            12 => vec!["BITFIELD", "", "SET", "u8", "0", "1", "OVERFLOW", "NOPE"],
            _ => vec!["EXGET", ""],
        };
        let mut words: Vec<Vec<u8>> = line.into_iter().map(|word| word.into()).collect();
        words[1] = self.key.clone();
        words
    }

    /// The record must be that of the serial execution after every call.
    pub fn compare_record(&self) -> Result<(), String> {
        let record = layout::records(&self.table)[self.slot];
        if record == self.serial {
            return Ok(());
        }
        Err(format!("the record is {record:?}, by serial execution {:?}", self.serial))
    }
}

/// Whether these words of `refused_words` are refused on a live record at any
/// time in range: the longer ones are.
fn refused_by_itself(words: &[Vec<u8>]) -> bool {
    words.len() > 3
}

/// Whether an EXCAS was answered stale; otherwise it must be OK.
fn is_stale(reply: &[u8]) -> Result<bool, String> {
    let items = array(reply)?;
    match items.first() {
        Some(Reply::Simple(text)) if text == b"OK" => Ok(false),
        Some(Reply::Simple(text)) if text == b"ERR update version is stale" => Ok(true),
        _ => Err(format!("EXCAS gives {items:?}")),
    }
}

/// The items of a reply that is one array and nothing more.
fn array(reply: &[u8]) -> Result<Vec<Reply>, String> {
    match resp::decode_reply(reply) {
        Some((Reply::Array(items), [])) => Ok(items),
        _ => Err(format!("no array: {}", reply.escape_ascii())),
    }
}
