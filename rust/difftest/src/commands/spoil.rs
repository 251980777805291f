//! Faults in the words of a command, for numbers 5 to 9.

use super::draft::Draft;
use super::{any_case, bitfield, Faults};
use crate::number_words::NUMBERED;
use crate::numerals::{bad_number, numeral};
use crate::{words, Rng};

impl Draft {
    /// Puts in the faults that are asked for.
    pub fn spoil(&mut self, rng: &mut Rng, faults: &Faults) {
        // Those of the words come first: counts and names change which words there are.
        for number in [9, 7, 8, 6, 5].into_iter().filter(|number| faults.has(*number)) {
            match number {
                9 => self.spoil_number(rng),
                7 => self.spoil_length(rng),
                8 if self.name == "BITFIELD" => self.spoil_subcommands(rng),
                8 => self.spoil_options(rng),
                6 => self.spoil_count(rng),
                _ => self.spoil_name(rng),
            }
        }
    }

    fn spoil_number(&mut self, rng: &mut Rng) {
        if self.numbers.is_empty() {
            return;
        }
        let at = rng.pick(&self.numbers);
        let number: i128 = match rng.below(4) {
            // a signed number, but no version or flags
            0 => words::number(rng).into(),
            1 => rng.pick(&[-1, 1 << 32, (1 << 32) + 5, 1 << 63]),
            _ => {
                self.words[at] = bad_number(rng, 70);
                return;
            }
        };
        self.words[at] = numeral(rng, number);
    }

    fn spoil_length(&mut self, rng: &mut Rng) {
        if self.has_value && rng.chance(50) {
            let len = rng.pick(&[65, 65, 66, 100, 255, 256, 300]);
            self.words[2] = vec![b'v'; len];
        } else {
            let len = rng.pick(&[0, 0, 25, 25, 26, 100, 256, 300]);
            self.words[1] = vec![b'k'; len];
        }
    }

    fn spoil_options(&mut self, rng: &mut Rng) {
        let at = rng.between(self.fixed, self.words.len());
        let has_options = self.words.len() > self.fixed;
        match rng.below(10) {
            // one that is unknown
            0 => {
                let word = rng.pick(&["", "NOPE", "EXX", "N", "5", "NX\0", "PXATT"]);
                self.words.insert(at, word.into());
            }
            // one that may be there already, or that this command does not take
            1..=3 => {
                let option = option_words(rng, ALL_OPTIONS);
                self.words.splice(at..at, option);
            }
            // one without its number
            4 => {
                let word = rng.pick(&NUMBERED);
                self.words.push(any_case(rng, word));
            }
            // one twice, or a number twice
            5 if has_options => {
                let from = rng.between(self.fixed, self.words.len() - 1);
                self.words.insert(at, self.words[from].clone());
            }
            // a word less
            6 if has_options => {
                self.words.remove(rng.between(self.fixed, self.words.len() - 1));
            }
            7 | 8 => self.double_option(rng),
            _ => self.misplace_option(rng),
        }
        self.words.truncate(16);
    }

    fn spoil_subcommands(&mut self, rng: &mut Rng) {
        let mut words = self.words.split_off(self.fixed);
        bitfield::spoil(rng, &mut words);
        self.words.extend(words);
        self.words.truncate(16);
    }

    /// Two options where one is allowed, first and last.
    fn double_option(&mut self, rng: &mut Rng) {
        let group = rng.pick(groups(self.name));
        let first = option_words(rng, group);
        let last = option_words(rng, group);
        self.words.splice(self.fixed..self.fixed, first);
        self.words.extend(last);
    }

    /// No option for EXGAE; for others one in the place of a number.
    fn misplace_option(&mut self, rng: &mut Rng) {
        self.words.truncate(self.fixed);
        if self.name != "EXGAE" {
            self.words.extend([any_case(rng, "EX"), any_case(rng, "EX"), b"5".to_vec()]);
        }
    }

    fn spoil_count(&mut self, rng: &mut Rng) {
        let exact = matches!(self.name, "EXSETVER" | "EXCAD" | "DEL");
        if exact && rng.chance(60) {
            let word = rng.pick(&["5", "KEEPTTL", "NX", ""]);
            self.words.push(word.into());
        } else {
            self.words.truncate(rng.between(1, self.fixed - 1));
        }
    }

    fn spoil_name(&mut self, rng: &mut Rng) {
        let name = &mut self.words[0];
        let at = rng.below(name.len());
        match rng.below(6) {
            0 => {
                *name = rng.pick(&["", "GET", "SET", "CAS", "CAD", "EXINCRBYFLOAT", "BITOP"]).into()
            }
            1 => name.push(0),
            2 => name.truncate(name.len() - 1),
            // Bit 5 alone makes a letter of the other case.
            3 => name[at] ^= rng.pick(&[0x80, 0x40, 0x10, 1]),
            4 => name[at] |= 0x80,
            _ => *name = rng.bytes(5),
        }
    }
}

const ALL_OPTIONS: &[&str] = &[
    "EX", "PX", "EXAT", "PXAT", "KEEPTTL", "NX", "XX", "VER", "ABS", "FLAGS", "MIN", "MAX",
    "NONEGATIVE", "WITHVERSION", "WITHFLAGS",
];

/// The sets of options of which a command takes at most one.
fn groups(name: &str) -> &'static [&'static [&'static str]] {
    const TIME: &[&str] = &["EX", "PX", "EXAT", "PXAT"];
    const TIME_OR_KEEP: &[&str] = &["EX", "PX", "EXAT", "PXAT", "KEEPTTL", "KEEPTTL"];
    const CONDITION: &[&str] = &["NX", "XX"];
    const VERSION: &[&str] = &["VER", "ABS"];
    match name {
        "EXSET" => &[TIME, CONDITION, VERSION, &["FLAGS"], &["WITHVERSION"]],
        "EXINCRBY" => {
            &[TIME, CONDITION, VERSION, &["MIN"], &["MAX"], &["NONEGATIVE"], &["WITHVERSION"]]
        }
        "EXAPPEND" | "EXPREPEND" => &[CONDITION, VERSION],
        "EXCAS" => &[TIME_OR_KEEP],
        "EXGAE" => &[TIME],
        _ => &[&["WITHFLAGS"]],
    }
}

/// One of these options, with a number if it takes one.
fn option_words(rng: &mut Rng, options: &[&str]) -> Vec<Vec<u8>> {
    let option = rng.pick(options);
    let mut words = vec![any_case(rng, option)];
    if NUMBERED.contains(&option) {
        words.push(numeral(rng, 5));
    }
    words
}
