//! A random command without faults of its own, word by word.

use super::choices::{self, Choice};
use super::subject::Subject;
use super::{any_case, bitfield, Faults};
use crate::numerals::numeral;
use crate::{words, Rng};

/// A command in the making.
pub struct Draft {
    pub words: Vec<Vec<u8>>,
    /// The name, in upper case.
    pub name: &'static str,
    /// How many words it must have.
    pub fixed: usize,
    /// Whether its third word is a value.
    pub has_value: bool,
    /// Which words are numbers.
    pub numbers: Vec<usize>,
}

impl Draft {
    pub fn new(
        rng: &mut Rng,
        faults: &Faults,
        name: &'static str,
        table: &[u8],
        time: u64,
    ) -> Draft {
        let subject = Subject::new(rng, table);
        let mut draft = Draft {
            words: vec![any_case(rng, name), subject.key.clone()],
            name,
            fixed: 2,
            has_value: false,
            numbers: Vec::new(),
        };
        let mut choices = match name {
            "EXSET" => draft.set(rng, faults, &subject, time),
            "EXINCRBY" => draft.increment(rng, faults, &subject, time),
            "EXAPPEND" | "EXPREPEND" => draft.join(rng, &subject),
            "EXCAS" => draft.swap(rng, faults, &subject, time),
            "EXGAE" => choices::time_word(rng, faults, time, 100).into_iter().collect(),
            "EXGET" => choices::plain(rng, "WITHFLAGS", 50).into_iter().collect(),
            _ => Vec::new(),
        };
        match name {
            "EXSETVER" | "EXCAD" => draft.number(subject.version_word(rng)),
            "BITFIELD" => draft.words.extend(bitfield::subcommands(rng, faults, &subject.value)),
            _ => {}
        }
        rng.shuffle(&mut choices);
        draft.add(rng, choices);
        draft
    }

    fn set(&mut self, rng: &mut Rng, faults: &Faults, subject: &Subject, time: u64) -> Vec<Choice> {
        self.value(words::value(rng));
        let flags = if faults.has(9) { 75 } else { 25 };
        let choices = [
            choices::time_word(rng, faults, time, 30),
            choices::condition(rng),
            choices::version(rng, subject),
            choices::flags(rng, flags),
            choices::plain(rng, "WITHVERSION", 30),
        ];
        choices.into_iter().flatten().collect()
    }

    fn increment(
        &mut self,
        rng: &mut Rng,
        faults: &Faults,
        subject: &Subject,
        time: u64,
    ) -> Vec<Choice> {
        let increment = subject.increment(rng);
        self.number(numeral(rng, increment));
        let choices = [
            choices::time_word(rng, faults, time, 25),
            choices::condition(rng),
            choices::version(rng, subject),
            choices::plain(rng, "NONEGATIVE", 25),
            choices::plain(rng, "WITHVERSION", 30),
        ];
        let bounds = choices::bounds(rng, faults, subject.number() + i128::from(increment));
        choices.into_iter().flatten().chain(bounds).collect()
    }

    fn join(&mut self, rng: &mut Rng, subject: &Subject) -> Vec<Choice> {
        self.value(subject.joined_value(rng));
        [choices::condition(rng), choices::version(rng, subject)].into_iter().flatten().collect()
    }

    fn swap(
        &mut self,
        rng: &mut Rng,
        faults: &Faults,
        subject: &Subject,
        time: u64,
    ) -> Vec<Choice> {
        self.value(words::value(rng));
        self.number(subject.version_word(rng));
        let time_word = choices::time_word(rng, faults, time, 35);
        time_word.or_else(|| choices::plain(rng, "KEEPTTL", 50)).into_iter().collect()
    }

    /// Adds the options in this order.
    fn add(&mut self, rng: &mut Rng, choices: Vec<Choice>) {
        for (word, number) in choices {
            self.words.push(any_case(rng, word));
            if let Some(number) = number {
                self.numbers.push(self.words.len());
                self.words.push(number);
            }
        }
    }

    fn value(&mut self, value: Vec<u8>) {
        self.words.push(value);
        self.fixed += 1;
        self.has_value = true;
    }

    fn number(&mut self, number: Vec<u8>) {
        self.numbers.push(self.words.len());
        self.words.push(number);
        self.fixed += 1;
    }
}
