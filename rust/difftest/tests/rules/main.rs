//! The rules by hand-made calls, each on the library and the reference at once.
//! What every call must keep is checked in `Store::send`.

mod answers;
mod bench_sheet;
mod current_value;
mod decimals;
mod fields;
mod number_words;
mod overflows;
mod rulings;
mod sessions;
mod sums;
mod tables;

use difftest::compare::LIBRARY;
use difftest::expect::ERRORS;
use difftest::resp::encode;
use difftest::{Answer, Case};

/// 2^62, the latest time and expiry.
const TOP_TIME: u64 = 4_611_686_018_427_387_904;

/// 2^63 - 1, the highest version.
const TOP_VERSION: &str = "9223372036854775807";

/// A call of both stores, which must agree.
fn call(table: &mut [u8], time: u64, command: &[u8], reply: &mut [u8]) -> Answer {
    let case =
        Case { table: table.to_vec(), time, command: command.to_vec(), reply: reply.to_vec() };
    let outcome = case.compare(&LIBRARY).unwrap_or_else(|difference| panic!("{difference}"));
    table.copy_from_slice(&outcome.table);
    reply.copy_from_slice(&outcome.reply);
    outcome.answer
}

/// The words as a command.
fn command(words: &[&[u8]]) -> Vec<u8> {
    encode(words)
}

/// The words of a line, as a command.
fn line(text: &str) -> Vec<u8> {
    encode(&text.split_whitespace().collect::<Vec<_>>())
}

/// A record with these bytes at these places and zeros elsewhere.
fn record(parts: &[(usize, &[u8])]) -> [u8; 128] {
    let mut record = [0; 128];
    for (at, bytes) in parts {
        record[*at..at + bytes.len()].copy_from_slice(bytes);
    }
    record
}

/// A table and a time, for a run of commands.
#[derive(Clone)]
struct Store {
    table: Vec<u8>,
    time: u64,
}

impl Store {
    /// Empty records at time 1000.
    fn new(records: usize) -> Store {
        Store { table: vec![0; 128 * records], time: 1000 }
    }

    fn with(records: &[[u8; 128]]) -> Store {
        Store { table: records.concat(), time: 1000 }
    }

    /// Sends a command and gives back number and reply.
    fn send(&mut self, command: &[u8]) -> (u32, Vec<u8>) {
        let before = self.table.clone();
        let mut reply: Vec<u8> = (0..200).map(|i| 0x80 | i as u8).collect();
        let room = reply.clone();
        let Answer { number, len } = call(&mut self.table, self.time, command, &mut reply);
        assert_eq!(reply[len..], room[len..], "bytes past the reply stay");
        assert_eq!(len == 0, (1..=4).contains(&number));
        if number != 0 {
            assert_eq!(self.table, before, "a refusal leaves the table");
        }
        (number, reply[..len].to_vec())
    }

    /// Sends a line and expects this number and reply.
    #[track_caller]
    fn expect(&mut self, text: &str, number: u32, reply: &str) {
        let (got, bytes) = self.send(&line(text));
        assert_eq!(
            (got, bytes.escape_ascii().to_string()),
            (number, reply.as_bytes().escape_ascii().to_string()),
            "{text}"
        );
    }

    /// Sends a line and expects this reply, with number 0.
    #[track_caller]
    fn answer(&mut self, text: &str, reply: &str) {
        self.expect(text, 0, reply);
    }

    /// Sends a line and expects this refusal with its text.
    #[track_caller]
    fn refuse(&mut self, text: &str, number: u32) {
        self.expect(text, number, error(number));
    }

    /// Sends words and expects this refusal with its text.
    #[track_caller]
    fn refuse_words(&mut self, words: &[&[u8]], number: u32) {
        let (got, bytes) = self.send(&command(words));
        assert_eq!(got, number);
        assert_eq!(bytes, error(number).as_bytes());
    }

    fn record(&self, slot: usize) -> [u8; 128] {
        self.table[128 * slot..128 * (slot + 1)].try_into().unwrap()
    }
}

/// The error reply of a number; 1 to 4 have none.
fn error(number: u32) -> &'static str {
    match number {
        1..=4 => "",
        _ => ERRORS[number as usize - 5],
    }
}
