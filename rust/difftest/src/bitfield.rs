//! What the rules ask of every BITFIELD that is answered, told without either
//! store, and what came up in it.

use crate::compare::Outcome;
use crate::fields::Field;
use crate::layout::{self, Record};
use crate::resp::{decode, decode_reply, Reply};
use crate::Case;

/// What came up in a command.
#[derive(Default)]
pub struct Seen {
    /// Some of `KINDS`, perhaps one twice.
    pub kinds: Vec<&'static str>,
    /// The subcommands: name, whether the field is signed, and its width.
    pub types: Vec<(&'static str, bool, u64)>,
}

/// All kinds of things that can come up.
pub const KINDS: [&str; 32] = [
    "FAIL above", "FAIL below", "FAIL in range", "GET", "GET far past the end",
    "GET past the end in part", "INCRBY", "SAT above", "SAT below", "SAT in range", "SET",
    "WRAP above", "WRAP below", "WRAP in range", "a field of 64 bits", "a field over nine bytes",
    "a full table kept", "a nil beside a write grew nothing", "a nil that grew nothing",
    "a record made", "a record taken over", "a sum outside 64 bits", "a version at its top kept",
    "an OVERFLOW for a second INCRBY", "an expired record of the key", "an increment of 0", "grew",
    "no subcommand", "nothing written", "offset in fields", "past 2^32 by #",
    "the last bit of all",
];

/// Panics unless an answered BITFIELD did what its words say; tells what came up.
pub fn check(before: &Case, after: &Outcome) -> Seen {
    let words = decode(&before.command).unwrap();
    let mut seen = Seen::default();
    let subcommands = read(&words[2..], &mut seen);
    let mut judge = Judge::new(before, after, &words[1], seen);
    let answers = judge.answers();
    judge.run(&subcommands, &answers);
    judge.note(&subcommands, &answers);
    match judge.wrote {
        true => judge.check_record(),
        false => judge.check_kept(),
    }
    judge.seen
}

/// Panics unless a BITFIELD with number 0, 15, 16 or 17 has what that number
/// says. 16 comes first.
pub fn check_number(before: &Case, after: &Outcome) {
    let number = after.answer.number;
    if (1..15).contains(&number) {
        return;
    }
    let words = decode(&before.command).unwrap();
    let judge = Judge::new(before, after, &words[1], Seen::default());
    let past_end = |(name, field): &(&str, Field)| *name != "GET" && field.bytes() > 64;
    let is_so = match (number, fields(&words).iter().any(past_end)) {
        (_, true) => number == 16,
        (15, _) => judge.at_top(),
        (17, _) => judge.slot().is_none(),
        _ => number == 0,
    };
    if !is_so {
        judge.fail("not by this number");
    }
}

/// The subcommands of an answered command that have an answer: names and fields.
pub fn fields(words: &[Vec<u8>]) -> Vec<(&'static str, Field)> {
    let subcommands = read(&words[2..], &mut Seen::default());
    subcommands.into_iter().map(|Subcommand { name, field, .. }| (name, field)).collect()
}

/// A subcommand that has an answer: its name, its field, its number if it has
/// one, and the overflow that holds.
struct Subcommand {
    name: &'static str,
    field: Field,
    number: i128,
    overflow: &'static str,
}

/// The subcommands of words that were found good.
fn read(words: &[Vec<u8>], seen: &mut Seen) -> Vec<Subcommand> {
    let mut subcommands = Vec::new();
    let (mut overflow, mut used) = ("WRAP", false);
    let mut words = words.iter().map(|word| std::str::from_utf8(word).unwrap());
    while let Some(word) = words.next() {
        let name = known(word, &["GET", "SET", "INCRBY", "OVERFLOW"]);
        if name == "OVERFLOW" {
            (overflow, used) = (known(words.next().unwrap(), &["WRAP", "SAT", "FAIL"]), false);
            continue;
        }
        let field = read_field(words.next().unwrap(), words.next().unwrap(), seen);
        let number = if name == "GET" { 0 } else { words.next().unwrap().parse().unwrap() };
        subcommands.push(Subcommand { name, field, number, overflow });
        if name == "INCRBY" {
            seen.add("an OVERFLOW for a second INCRBY", used && overflow != "WRAP");
            used = true;
        }
    }
    subcommands
}

/// The one of these names that the word spells in any case.
fn known(word: &str, names: &[&'static str]) -> &'static str {
    names.iter().find(|name| name.eq_ignore_ascii_case(word)).unwrap()
}

fn read_field(kind: &str, offset: &str, seen: &mut Seen) -> Field {
    let (signed, width) = (kind.starts_with('i'), kind[1..].parse().unwrap());
    let count = offset.strip_prefix('#');
    seen.add("offset in fields", count.is_some());
    let offset = match count {
        Some(count) => natural(count) * width,
        None => natural(offset),
    };
    Field { signed, width, offset }
}

/// A number that is not below 0; it may be written as -0.
fn natural(text: &str) -> u64 {
    text.parse::<i64>().unwrap().try_into().unwrap()
}

impl Seen {
    fn add(&mut self, kind: &'static str, came_up: bool) {
        if came_up {
            self.kinds.push(kind);
        }
    }
}

/// An answered command, with the value as it stands after some subcommands.
struct Judge<'a> {
    before: &'a Case,
    after: &'a Outcome,
    key: &'a [u8],
    /// The record of the key, live or not.
    old: Option<Record>,
    live: Option<Record>,
    value: Vec<u8>,
    wrote: bool,
    seen: Seen,
}

impl<'a> Judge<'a> {
    fn new(before: &'a Case, after: &'a Outcome, key: &'a [u8], seen: Seen) -> Judge<'a> {
        let slot = layout::find(&before.table, key);
        let old = slot.map(|slot| layout::records(&before.table)[slot]);
        let live = old.filter(|record| layout::is_live(record, before.time));
        let value = live.map_or(Vec::new(), |record| layout::value(&record).to_vec());
        Judge { before, after, key, old, live, value, wrote: false, seen }
    }

    fn fail(&self, why: &str) -> ! {
        panic!("{why}: {}", self.before.again())
    }

    fn answers(&self) -> Vec<Reply> {
        match decode_reply(self.after.reply()) {
            Some((Reply::Array(answers), [])) if self.after.answer.len <= 96 => answers,
            _ => self.fail("no array of at most 96 bytes"),
        }
    }

    /// Holds each answer to the value that the ones before leave.
    fn run(&mut self, subcommands: &[Subcommand], answers: &[Reply]) {
        if answers.len() != subcommands.len() {
            self.fail("not one answer for each subcommand");
        }
        for (subcommand, answer) in subcommands.iter().zip(answers) {
            let Subcommand { name, field, .. } = subcommand;
            self.seen.kinds.push(name);
            self.seen.types.push((name, field.signed, field.width));
            let stored = field.read(&self.value);
            let number = match (*name, answer) {
                ("INCRBY", answer) => self.sum(subcommand, stored + subcommand.number, answer),
                (_, Reply::Integer(old)) if i128::from(*old) != stored => self.fail("not the old"),
                ("GET", Reply::Integer(_)) => None,
                ("SET", Reply::Integer(_)) if field.holds(subcommand.number) => {
                    Some(subcommand.number)
                }
                _ => self.fail("not an answer"),
            };
            if let Some(number) = number {
                field.write(&mut self.value, number);
                self.wrote = true;
            }
        }
    }

    /// The number that an INCRBY stores, by its answer, which must be right for
    /// this exact sum; none for a nil.
    fn sum(&mut self, subcommand: &Subcommand, exact: i128, answer: &Reply) -> Option<i128> {
        let Subcommand { field, number: increment, overflow, .. } = subcommand;
        self.note_sum(subcommand, exact);
        let (least, greatest) = field.range();
        let number = match answer {
            Reply::Integer(number) => i128::from(*number),
            Reply::Nil if *overflow == "FAIL" && !field.holds(exact) => return None,
            _ => self.fail("not an answer"),
        };
        let right = match *overflow {
            _ if field.holds(exact) => number == exact,
            "WRAP" => field.holds(number) && (number - exact) % (1 << field.width) == 0,
            // Only an increment can lead up, and only a decrement down.
            "SAT" if *increment > 0 => number == greatest,
            "SAT" => number == least,
            _ => false,
        };
        if !right {
            self.fail("not the sum");
        }
        Some(number)
    }

    fn note_sum(&mut self, subcommand: &Subcommand, exact: i128) {
        let Subcommand { field, number, overflow, .. } = subcommand;
        let (least, greatest) = field.range();
        self.seen.kinds.push(match (*overflow, exact > greatest, exact < least) {
            ("WRAP", true, _) => "WRAP above",
            ("WRAP", _, true) => "WRAP below",
            ("WRAP", ..) => "WRAP in range",
            ("SAT", true, _) => "SAT above",
            ("SAT", _, true) => "SAT below",
            ("SAT", ..) => "SAT in range",
            (_, true, _) => "FAIL above",
            (_, _, true) => "FAIL below",
            _ => "FAIL in range",
        });
        self.seen.add("a sum outside 64 bits", i64::try_from(exact).is_err());
        self.seen.add("an increment of 0", *number == 0);
    }

    /// Tells what came up in the fields, once all have run.
    fn note(&mut self, subcommands: &[Subcommand], answers: &[Reply]) {
        let len = self.value.len() as u64;
        self.seen.add("grew", self.live.map_or(0, |old| layout::value(&old).len()) < len as usize);
        self.seen.add("no subcommand", subcommands.is_empty());
        for (Subcommand { name, field, .. }, answer) in subcommands.iter().zip(answers) {
            let (gets, past_end) = (*name == "GET", field.bytes() > len);
            let nil_past_end = *answer == Reply::Nil && past_end;
            for (kind, came_up) in [
                ("GET past the end in part", gets && past_end && field.offset < 8 * len),
                ("GET far past the end", gets && field.offset > 512),
                ("past 2^32 by #", field.offset >= 1 << 32),
                ("a field of 64 bits", field.width == 64),
                ("a field over nine bytes", field.offset % 8 + field.width > 64),
                ("the last bit of all", !gets && field.offset + field.width == 512),
                ("a nil that grew nothing", nil_past_end),
                ("a nil beside a write grew nothing", nil_past_end && self.wrote),
            ] {
                self.seen.add(kind, came_up);
            }
        }
    }

    /// Where nothing was written the table stays.
    fn check_kept(&mut self) {
        if self.after.table != self.before.table {
            self.fail("a table changed without a write");
        }
        self.seen.kinds.push("nothing written");
        self.seen.add("a version at its top kept", self.at_top());
        self.seen.add("a full table kept", self.slot().is_none());
    }

    /// The key's record has the value, a version one higher than before, and its
    /// flags and expiry; a new one has version 1 and neither.
    fn check_record(&mut self) {
        let fresh = || {
            let key = self.key.to_vec();
            layout::Fields { key, value: Vec::new(), flags: 0, version: 0, expiry: 0 }.record()
        };
        let mut expected = self.live.unwrap_or_else(fresh);
        let version = layout::version(&expected) + 1;
        layout::store(&mut expected, &self.value, version);
        let Some(slot) = self.slot() else {
            self.fail("no record to take");
        };
        if layout::records(&self.after.table)[slot] != expected {
            self.fail("not the record");
        }
        let taken = layout::in_use(&layout::records(&self.before.table)[slot]);
        let expired = self.old.is_some() && self.live.is_none();
        self.seen.add("an expired record of the key", expired);
        self.seen.add("a record taken over", self.old.is_none() && taken);
        self.seen.add("a record made", self.old.is_none() && !taken);
    }

    fn at_top(&self) -> bool {
        self.live.is_some_and(|record| layout::version(&record) == layout::MAX_VERSION)
    }

    /// The slot that a write takes: that of the key's record, live or not, else
    /// the lowest empty one, else the lowest expired one.
    fn slot(&self) -> Option<usize> {
        let records = layout::records(&self.before.table);
        let empty = || records.iter().position(|record| !layout::in_use(record));
        let time = self.before.time;
        let expired = || records.iter().position(|record| !layout::is_live(record, time));
        layout::find(&self.before.table, self.key).or_else(empty).or_else(expired)
    }
}
