//! The rules of shared calls by hand-made ones, each on the library and the
//! reference at once.

use difftest::layout::Fields;
use difftest::resp::encode;
use difftest::shared::{SharedCase, LIBRARY};
use difftest::Case;
use reference::Party::{self, Installer, Owner};
use reference::Shown;

/// A table that is shared at a boundary, at time 1000.
#[derive(Clone)]
struct Shared {
    table: Vec<u8>,
    boundary: usize,
}

impl Shared {
    /// Records in use with these keys, or empty ones; the value tells the slot.
    fn with(keys: &[&str], boundary: usize) -> Shared {
        let record = |(slot, key): (usize, &&str)| match *key {
            "" => [0; 128],
            key => fields(key, &slot.to_string()).record(),
        };
        Shared { table: keys.iter().enumerate().flat_map(record).collect(), boundary }
    }

    fn case(&self, party: Party, command: &[u8]) -> SharedCase {
        let (table, command) = (self.table.clone(), command.to_vec());
        let call = Case { table, time: 1000, command, reply: vec![7; 128] };
        SharedCase { party, boundary: self.boundary, call }
    }

    /// Sends a line and expects this number, and the reply if it is 0.
    #[track_caller]
    fn expect(&mut self, party: Party, text: &str, number: u32, reply: &str) {
        let case = self.case(party, &line(text));
        let outcome = case.compare(&LIBRARY).unwrap_or_else(|difference| panic!("{difference}"));
        assert_eq!(outcome.answer.number, number, "{text}");
        if number == 0 {
            assert_eq!(
                outcome.reply().escape_ascii().to_string(),
                reply.escape_default().to_string()
            );
        }
        self.table = outcome.table;
    }

    #[track_caller]
    fn answer(&mut self, party: Party, text: &str, reply: &str) {
        self.expect(party, text, 0, reply);
    }

    /// Expects both parties to be refused by this number, 1 or 18: nothing is
    /// touched and no value shown.
    #[track_caller]
    fn refuse(&self, number: u32) {
        for party in [Owner, Installer] {
            let case = self.case(party, &line("EXGET foo"));
            let outcome =
                case.compare(&LIBRARY).unwrap_or_else(|difference| panic!("{difference}"));
            assert_eq!((outcome.answer.number, outcome.answer.len), (number, 0), "{party:?}");
            assert!(outcome.table == self.table && outcome.reply == [7; 128]);
            assert_eq!(case.compare_current_value(&LIBRARY), Ok(None));
        }
    }

    #[track_caller]
    fn shown(&self, party: Party, text: &str) -> Option<Shown> {
        self.case(party, &line(text)).compare_current_value(&LIBRARY).unwrap()
    }

    fn record(&self, slot: usize) -> &[u8] {
        &self.table[128 * slot..][..128]
    }
}

/// The words of a line, as a command.
fn line(text: &str) -> Vec<u8> {
    encode(&text.split_whitespace().collect::<Vec<_>>())
}

fn fields(key: &str, value: &str) -> Fields {
    Fields { key: key.into(), value: value.into(), flags: 0, version: 1, expiry: 0 }
}

fn expired(key: &str) -> [u8; 128] {
    Fields { expiry: 1, ..fields(key, "x") }.record()
}

#[test]
fn each_party_has_a_record_under_the_same_key() {
    let mut shared = Shared::with(&["", "", ""], 1);
    shared.answer(Owner, "EXSET foo a WITHVERSION", ":1\r\n");
    shared.answer(Installer, "EXGET foo", "$-1\r\n");
    shared.answer(Installer, "EXSET foo b WITHVERSION", ":1\r\n");
    shared.answer(Installer, "EXSET foo c WITHVERSION", ":2\r\n");
    shared.answer(Owner, "EXGET foo", "*2\r\n$1\r\na\r\n:1\r\n");
    shared.answer(Installer, "EXCAS foo d 2", "*3\r\n+OK\r\n+\r\n:3\r\n");
    shared.answer(
        Owner,
        "EXCAS foo e 3",
        "*3\r\n+ERR update version is stale\r\n$1\r\na\r\n:1\r\n",
    );
    shared.answer(Owner, "DEL foo", ":1\r\n");
    shared.answer(Installer, "EXGET foo", "*2\r\n$1\r\nd\r\n:3\r\n");
    assert_eq!(shared.table[..128], [0; 128]);
}

#[test]
fn a_command_takes_records_of_its_part_only() {
    // The owner's part is full, the installer's has an empty record.
    let mut shared = Shared::with(&["a", "b", "c", ""], 2);
    for text in ["EXSET foo v", "EXINCRBY foo 1", "EXAPPEND foo v", "BITFIELD foo SET u8 0 1"] {
        shared.expect(Owner, text, 17, "");
    }
    shared.answer(Installer, "EXSET foo v", "+OK\r\n");
    assert_eq!(shared.record(3), fields("foo", "v").record());
    shared.expect(Installer, "EXSET bar v", 17, "");

    // And the other way round.
    let mut shared = Shared::with(&["a", "", "b", "c"], 2);
    shared.expect(Installer, "EXSET foo v", 17, "");
    shared.answer(Owner, "EXSET foo v", "+OK\r\n");
    assert_eq!(shared.record(1), fields("foo", "v").record());

    // An expired record of the other part is not taken either, nor one with the key.
    let mut shared = Shared::with(&["a", "b", "c"], 2);
    shared.table[256..].copy_from_slice(&expired("foo"));
    shared.expect(Owner, "EXSET foo v", 17, "");
    shared.answer(Installer, "EXSET bar v", "+OK\r\n");
    assert_eq!(shared.record(2), fields("bar", "v").record());
}

/// Its own record first, then the lowest empty one, then the lowest expired one:
/// all of the caller's part.
#[test]
fn a_write_takes_the_lowest_record_of_its_part() {
    let full = Shared::with(&["", "a", "b", "", "c", ""], 3);
    let mut shared = full.clone();
    shared.answer(Installer, "EXSET foo v", "+OK\r\n");
    assert_eq!(shared.record(3), fields("foo", "v").record());

    let mut shared = full.clone();
    shared.table[512..640].copy_from_slice(&expired("foo"));
    shared.answer(Installer, "EXSET foo v", "+OK\r\n");
    assert_eq!(shared.record(4), fields("foo", "v").record());

    let mut shared = Shared::with(&["a", "", "b", "c", "d"], 2);
    shared.table[384..512].copy_from_slice(&expired("c"));
    shared.table[512..].copy_from_slice(&expired("d"));
    shared.answer(Installer, "EXSET foo v", "+OK\r\n");
    assert_eq!(shared.record(3), fields("foo", "v").record());
    assert_eq!(shared.record(1), [0; 128]);
}

#[test]
fn a_boundary_leaves_a_record_to_each() {
    for records in [1, 2, 3, 16, 17, 255, 256] {
        let shared = |boundary| Shared { table: vec![0; 128 * records], boundary };
        let wraps = (1 << 57) + 1;
        for boundary in [0, records, records + 1, 128 * records, wraps, usize::MAX] {
            shared(boundary).refuse(18);
        }
        for boundary in [1, records / 2, records - 1] {
            if (1..records).contains(&boundary) {
                shared(boundary).answer(Owner, "EXGET foo", "$-1\r\n");
                shared(boundary).answer(Installer, "EXGET foo", "$-1\r\n");
            }
        }
    }
}

#[test]
fn length_and_records_come_before_the_boundary() {
    for boundary in [0, 1, 2, 3, usize::MAX] {
        for len in [0, 127, 129, 257 * 128] {
            Shared { table: vec![0; len], boundary }.refuse(1);
        }
        // A record of either part
        for slot in 0..2 {
            let mut shared = Shared::with(&["a", "b"], boundary);
            shared.table[128 * slot + 3] = 1;
            shared.refuse(1);
        }
    }
    // 256 records are not too many, and each part may not have 256.
    Shared { table: vec![0; 256 * 128], boundary: 128 }.answer(Owner, "EXGET foo", "$-1\r\n");
    Shared { table: vec![0; 300 * 128], boundary: 150 }.refuse(1);
    Shared { table: vec![0; 512 * 128], boundary: 256 }.refuse(1);
}

#[test]
fn equal_keys_come_after_the_boundary_in_either_part() {
    let keys = ["a", "b", "a", "c"];
    for (boundary, number) in [(0, 18), (3, 1), (4, 18), (5, 18), (usize::MAX, 18)] {
        Shared::with(&keys, boundary).refuse(number);
    }
    for boundary in [1, 2] {
        let mut shared = Shared::with(&keys, boundary);
        shared.answer(Owner, "EXGET a", "*2\r\n$1\r\n0\r\n:1\r\n");
        shared.answer(Installer, "EXGET a", "*2\r\n$1\r\n2\r\n:1\r\n");
    }
    // Equal keys in the owner's part, then in the installer's, for both parties.
    Shared::with(&["a", "a", "b", "c"], 2).refuse(1);
    Shared::with(&["a", "b", "c", "c"], 2).refuse(1);
    Shared::with(&["a", "", "a", "c", "c"], 2).refuse(1);
}

/// All keys share a bucket of the library's index, and each stands in both parts.
#[test]
fn keys_that_meet_in_the_index_are_told_apart() {
    let keys = difftest::collisions::keys(128);
    let keys: Vec<&str> = keys.iter().chain(&keys).map(|key| &key[..]).collect();
    let mut shared = Shared::with(&keys, 128);
    for slot in [0, 1, 77, 126, 127] {
        shared.answer(Owner, &format!("EXSETVER {} 5", keys[slot]), ":1\r\n");
        shared.answer(Installer, &format!("EXSETVER {} 6", keys[slot]), ":1\r\n");
        assert_eq!((shared.record(slot)[8], shared.record(128 + slot)[8]), (5, 6));
    }
    for (from, to) in [(0, 127), (77, 126), (128, 255), (200, 129)] {
        let mut shared = shared.clone();
        shared.table.copy_within(128 * from..128 * (from + 1), 128 * to);
        shared.refuse(1);
    }
}

/// Time, reply buffer and command come after the table and the boundary.
#[test]
fn the_table_and_the_boundary_come_first() {
    let number = |keys: &[&str], boundary, time, room: usize, command: &[u8]| {
        let mut case = Shared::with(keys, boundary).case(Owner, command);
        case.call.time = time;
        case.call.reply.truncate(room);
        case.compare(&LIBRARY).unwrap_or_else(|difference| panic!("{difference}")).answer.number
    };
    assert_eq!(number(&["a", "b"], 2, u64::MAX, 127, b""), 18);
    assert_eq!(number(&["a", "b", "b"], 1, u64::MAX, 127, b""), 1);
    assert_eq!(number(&["a", "b"], 1, u64::MAX, 127, b""), 2);
    assert_eq!(number(&["a", "b"], 1, 0, 127, b""), 3);
    assert_eq!(number(&["a", "b"], 1, 0, 128, b""), 4);
    assert_eq!(number(&["a", "b"], 1, 0, 128, &line("EXGET a")), 0);
}

#[test]
fn a_place_is_counted_from_the_start_of_the_table() {
    let shared = Shared::with(&["a", "foo", "b", "foo"], 2);
    let in_table = |slot: usize| Some(Shown { in_command: false, start: 128 * slot + 48, len: 1 });
    assert_eq!(shared.shown(Owner, "EXGET foo"), in_table(1));
    assert_eq!(shared.shown(Installer, "EXGET foo"), in_table(3));
    assert_eq!(shared.shown(Installer, "EXCAS foo x 7"), in_table(3));
    // *4 CR LF, $5 CR LF EXCAS CR LF, $3 CR LF foo CR LF, $1 CR LF: 4 + 11 + 9 + 4
    let in_command = Some(Shown { in_command: true, start: 28, len: 1 });
    assert_eq!(shared.shown(Owner, "EXCAS foo x 1"), in_command);
    assert_eq!(shared.shown(Installer, "EXCAS foo x 1"), in_command);
    assert_eq!(shared.shown(Owner, "EXGET b"), None);
    assert_eq!(shared.shown(Installer, "EXGET a"), None);
}
