//! Random subcommands of BITFIELD, aimed at the bits that stand under the key.

use super::subject::within;
use super::{any_case, Faults};
use crate::fields::Field;
use crate::numerals::{bad_number, numeral};
use crate::{words, Rng};

/// The most words after name and key.
const MOST_WORDS: usize = 14;

/// The bits of the longest value.
const MOST_BITS: u64 = 512;

/// The widths beside which mistakes are likely.
const WIDTHS: [u64; 12] = [1, 2, 7, 8, 9, 16, 31, 32, 33, 62, 63, 64];

/// A BITFIELD on a key with this value. Numbers 8 and 9 may arise, and 16.
pub fn bitfield_words(rng: &mut Rng, key: &[u8], value: &[u8]) -> Vec<Vec<u8>> {
    let faults = if rng.chance(15) { Faults::only(9) } else { Faults::NONE };
    let mut subcommands = subcommands(rng, &faults, value);
    if rng.chance(10) {
        spoil(rng, &mut subcommands);
    }
    let mut words = vec![any_case(rng, "BITFIELD"), key.to_vec()];
    words.extend(subcommands);
    words
}

/// The words after the key, on a key with this value. Types, offsets and numbers
/// may be wrong if that is asked for.
pub fn subcommands(rng: &mut Rng, faults: &Faults, value: &[u8]) -> Vec<Vec<u8>> {
    if rng.chance(3) {
        return soup(rng);
    }
    // Four answers have room only if two of them are of GET.
    let reads = rng.chance(15);
    let count = if reads { 4 } else { rng.pick(&[0, 1, 1, 2, 2, 3, 3]) };
    let mut maker = Maker { reads, value: value.to_vec(), field: None };
    let mut words = Vec::new();
    for _ in 0..count {
        let mut next = maker.overflow(rng);
        next.extend(maker.subcommand(rng, faults));
        if words.len() + next.len() > MOST_WORDS {
            break;
        }
        words.extend(next);
    }
    words
}

/// Makes one subcommand after another.
struct Maker {
    /// Whether most are to be GET.
    reads: bool,
    /// About the value that the ones before leave, so that numbers can be aimed.
    value: Vec<u8>,
    /// The last field.
    field: Option<Field>,
}

impl Maker {
    /// Sometimes an OVERFLOW.
    fn overflow(&self, rng: &mut Rng) -> Vec<Vec<u8>> {
        if !rng.chance(if self.reads { 10 } else { 35 }) {
            return Vec::new();
        }
        let word = rng.pick(&["WRAP", "SAT", "SAT", "FAIL", "FAIL"]);
        vec![any_case(rng, "OVERFLOW"), any_case(rng, word)]
    }

    fn subcommand(&mut self, rng: &mut Rng, faults: &Faults) -> Vec<Vec<u8>> {
        let name = match self.reads {
            true => rng.pick(&["GET", "GET", "GET", "SET", "INCRBY"]),
            false => rng.pick(&["GET", "SET", "INCRBY", "INCRBY"]),
        };
        let (field, offset) = self.field(rng, name != "GET");
        let kind = format!("{}{}", if field.signed { 'i' } else { 'u' }, field.width);
        let mut words = vec![any_case(rng, name), kind.into(), offset];
        match name {
            "SET" => {
                let number = self.set_number(rng, field);
                words.push(numeral(rng, number));
            }
            "INCRBY" => {
                let increment = self.increment(rng, field);
                words.push(numeral(rng, increment));
            }
            _ => {}
        }
        if faults.has(9) && rng.chance(60) {
            spoil_argument(rng, field, name, &mut words);
        }
        words
    }

    /// A field and the word of its offset; often the last one again, or one that
    /// overlaps it. One that may write mostly ends at bit 511 or before.
    fn field(&mut self, rng: &mut Rng, writes: bool) -> (Field, Vec<u8>) {
        let (signed, width, offset, counted) = match self.field {
            Some(last) if rng.chance(30) => (last.signed, last.width, last.offset, false),
            Some(last) if rng.chance(20) => {
                let (signed, width) = pick_type(rng);
                (signed, width, last.offset + rng.below(9) as u64, false)
            }
            _ => {
                let (signed, width) = pick_type(rng);
                let (offset, counted) = self.offset(rng, width);
                (signed, width, offset, counted)
            }
        };
        let last_offset = MOST_BITS - width;
        let offset = match writes && offset > last_offset && rng.chance(90) {
            true if counted => last_offset / width * width,
            true => last_offset,
            false => offset,
        };
        let field = Field { signed, width, offset };
        self.field = (offset <= last_offset).then_some(field);
        match counted {
            true => (field, [b"#", &numeral(rng, offset / width)[..]].concat()),
            false => (field, numeral(rng, offset)),
        }
    }

    /// A place for a field of this width, and whether it is told in fields.
    fn offset(&self, rng: &mut Rng, width: u64) -> (u64, bool) {
        let end = 8 * self.value.len() as u64;
        let around = |rng: &mut Rng, place: u64| (place + rng.below(17) as u64).saturating_sub(8);
        match rng.below(12) {
            0 | 1 => (rng.below(20) as u64, false),
            2 => (around(rng, end), false),
            3 => (around(rng, end.saturating_sub(width)), false),
            4 => (around(rng, MOST_BITS - width), false),
            5 => (rng.between(504, 513) as u64, false),
            6 | 7 => (rng.below(10) as u64 * width, true),
            8 => ((MOST_BITS / width + 1 - rng.below(3) as u64) * width, true),
            9 | 10 => (rng.below(512) as u64, false),
            _ => far(rng, width),
        }
    }

    /// A number that fits, often at an end.
    fn set_number(&mut self, rng: &mut Rng, field: Field) -> i128 {
        let (least, greatest) = field.range();
        let number = match rng.below(8) {
            0 => least,
            1 => greatest,
            2 => least + 1,
            3 => greatest - 1,
            4 => 0,
            5 => field.read(&self.value),
            _ => least + i128::from(rng.next_u64()) % (greatest - least + 1),
        };
        self.note(field, number);
        number
    }

    /// An increment whose sum is often at an end of the type, or just past it.
    fn increment(&mut self, rng: &mut Rng, field: Field) -> i64 {
        let stored = field.read(&self.value);
        let (least, greatest) = field.range();
        let exact = match rng.below(14) {
            0 => greatest - stored,
            1 | 2 => greatest - stored + 1,
            3 => least - stored,
            4 | 5 => least - stored - 1,
            6 => 0,
            7 => rng.pick(&[1, -1]),
            // all the way round
            8 => (1 << field.width) * rng.pick(&[1, -1]) + rng.below(3) as i128 - 1,
            9 => rng.pick(&[i64::MAX, i64::MIN]).into(),
            _ => words::number(rng).into(),
        };
        let increment = within(exact);
        let sum = stored + i128::from(increment);
        if field.holds(sum) {
            self.note(field, sum);
        }
        increment
    }

    /// Keeps what a subcommand wrote, if it may write there.
    fn note(&mut self, field: Field, number: i128) {
        if field.offset + field.width <= MOST_BITS {
            field.write(&mut self.value, number);
        }
    }
}

/// i or u and a width; u64 is none.
fn pick_type(rng: &mut Rng) -> (bool, u64) {
    let signed = rng.chance(50);
    let width = if rng.chance(50) { rng.pick(&WIDTHS) } else { rng.between(1, 64) as u64 };
    (signed, if signed { width } else { width.min(63) })
}

/// A place far past every value, up to the last ones.
fn far(rng: &mut Rng, width: u64) -> (u64, bool) {
    let last = u64::from(u32::MAX);
    let number = match rng.below(5) {
        0 => last,
        1 => last + 1 - width,
        2 => last - rng.below(70) as u64,
        3 => 1 << rng.between(9, 31),
        _ => rng.next_u64() >> 32,
    };
    match rng.chance(50) {
        true => (number * width, true),
        false => (number, false),
    }
}

/// Makes the type, the offset or the number wrong.
fn spoil_argument(rng: &mut Rng, field: Field, name: &str, words: &mut [Vec<u8>]) {
    match rng.between(1, words.len() - 1) {
        1 => words[1] = bad_type(rng, field),
        2 => words[2] = bad_offset(rng),
        _ if name == "SET" && rng.chance(60) => {
            let (least, greatest) = field.range();
            let number = match rng.below(4) {
                0 => least - 1,
                1 => greatest + 1,
                2 => least - 1 - rng.below(1000) as i128,
                _ => greatest + 1 + rng.below(1000) as i128,
            };
            words[3] = numeral(rng, number);
        }
        _ => words[3] = bad_number(rng, 70),
    }
}

fn bad_type(rng: &mut Rng, field: Field) -> Vec<u8> {
    let width = field.width;
    match rng.below(6) {
        0 => rng.pick(&["i65", "u64", "u65", "i0", "u0", "i66", "i128", "u100"]).into(),
        1 => rng
            .pick(&["", "i", "u", "8", "x8", "#8", "ii8", "i8i", "u8\0", "GET", "-8", "+u8"])
            .into(),
        2 => format!("{}{width}", rng.pick(&['I', 'U', 's', ' '])).into(),
        3 => format!("{}{width}", rng.pick(&["i0", "u0", "i+", "u+", "i-", "u-", "i ", "u00"]))
            .into(),
        4 => format!("i{width}{}", rng.pick(&[" ", "0", "x", ".0", "\r\n"])).into(),
        // what wraps to a width in 8, 32 or 64 bits
        _ => {
            let wrapping = (1u128 << rng.pick(&[8, 32, 64])) + u128::from(width);
            format!("{}{wrapping}", rng.pick(&['i', 'u'])).into()
        }
    }
}

fn bad_offset(rng: &mut Rng) -> Vec<u8> {
    let mark = rng.pick(&["", "", "#"]);
    let number = match rng.below(4) {
        0 => rng.pick(&["", "##1", "1#", "5 ", "1x", "#+", "+#5", "-#0", "0#5"]).into(),
        1 => {
            let number = rng.pick(&[-1, -7, -(1 << 32) + 1, 1 << 32, (1 << 32) + 1, 1i64 << 33]);
            numeral(rng, number)
        }
        _ => bad_number(rng, 30),
    };
    [mark.as_bytes(), &number].concat()
}

/// Breaks the row of subcommands, for number 8.
pub fn spoil(rng: &mut Rng, words: &mut Vec<Vec<u8>>) {
    let at = rng.below(words.len() + 1);
    match rng.below(9) {
        0 => {
            let word = rng.pick(&["", "NOPE", "GETS", "INCRBYFLOAT", "5", "u8", "GET\0", "SAT"]);
            words.insert(at, word.into());
        }
        // an option of other commands
        1 => {
            let word = rng.pick(&["NX", "XX", "EX", "VER", "ABS", "KEEPTTL", "WITHVERSION"]);
            words.insert(at, any_case(rng, word));
        }
        2 | 3 => {
            let wrong = rng.pick(&["", "NOPE", "WRAPS", "SA", "0", "GET", "FAIL\0", "OVERFLOW"]);
            words.extend([any_case(rng, "OVERFLOW"), wrong.into()]);
        }
        // words missing at the end
        4 | 5 => {
            let line = rng.pick(&["GET", "GET u8", "SET i8 0", "INCRBY u8 #1", "SET", "OVERFLOW"]);
            words.extend(line.split(' ').map(|word| word.as_bytes().to_vec()));
        }
        6 if at < words.len() => {
            words.remove(at);
        }
        7 if at < words.len() && !words[at].is_empty() => {
            let letter = rng.below(words[at].len());
            words[at][letter] ^= rng.pick(&[0x80, 0x40, 0x10, 1]);
        }
        _ => words.truncate(at),
    }
}

/// Words of BITFIELD and of options, in any order.
fn soup(rng: &mut Rng) -> Vec<Vec<u8>> {
    const WORDS: [&str; 27] = [
        "GET", "GET", "SET", "SET", "INCRBY", "INCRBY", "OVERFLOW", "OVERFLOW", "WRAP", "SAT",
        "FAIL", "i8", "u8", "u1", "i64", "0", "0", "1", "#1", "-1", "+1", "007", "-0", "NX", "EX",
        "VER", "FLAGS",
    ];
    (0..rng.between(1, MOST_WORDS)).map(|_| rng.pick(&WORDS).into()).collect()
}
