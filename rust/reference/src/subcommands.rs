//! BITFIELD's subcommands: which are given (8); their types, offsets and numbers
//! (9); what they do to a value and answer.

use crate::bits::{bits_of, bytes_of, Field, Overflow};
use crate::command::look;
use crate::number::{read_flags, read_short, read_signed};
use crate::table::VALUE_LIMIT;

/// A subcommand that has an answer.
#[derive(Clone, Copy, Debug, PartialEq, Eq)]
pub enum Subcommand {
    Get(Field),
    Set(Field, i64),
    Incrby(Field, i64, Overflow),
}

/// A subcommand and its words, whose type, offset and number are not yet read.
#[derive(Debug, PartialEq, Eq)]
pub enum Given<'a> {
    Get([&'a [u8]; 2]),
    Set([&'a [u8]; 3]),
    Incrby([&'a [u8]; 3], Overflow),
}

/// The words that begin a subcommand.
#[derive(Clone, Copy)]
enum Keyword {
    Get,
    Set,
    Incrby,
    Overflow,
}

const KEYWORDS: [(&str, Keyword); 4] = [
    ("GET", Keyword::Get),
    ("SET", Keyword::Set),
    ("INCRBY", Keyword::Incrby),
    ("OVERFLOW", Keyword::Overflow),
];

const OVERFLOWS: [(&str, Overflow); 3] =
    [("WRAP", Overflow::Wrap), ("SAT", Overflow::Sat), ("FAIL", Overflow::Fail)];

/// Test 8: the subcommands that the words after the key give. A subcommand takes
/// the words after it as its own, also if they spell another. OVERFLOW holds for
/// every INCRBY up to the next OVERFLOW.
pub fn subcommands_in<'a>(words: &[&'a [u8]]) -> Option<Vec<Given<'a>>> {
    let mut subcommands = Vec::new();
    let mut overflow = Overflow::Wrap;
    let mut words = words.iter().copied();
    while let Some(word) = words.next() {
        let mut own = || words.next();
        match look(word, &KEYWORDS)? {
            Keyword::Get => subcommands.push(Given::Get([own()?, own()?])),
            Keyword::Set => subcommands.push(Given::Set([own()?, own()?, own()?])),
            Keyword::Incrby => {
                subcommands.push(Given::Incrby([own()?, own()?, own()?], overflow));
            }
            Keyword::Overflow => overflow = look(own()?, &OVERFLOWS)?,
        }
    }
    Some(subcommands)
}

/// Test 9 of all subcommands.
pub fn read_subcommands(given: &[Given]) -> Option<Vec<Subcommand>> {
    given.iter().map(read_subcommand).collect()
}

/// SET takes only a number that its field holds, INCRBY any that is signed.
fn read_subcommand(given: &Given) -> Option<Subcommand> {
    match *given {
        Given::Get([kind, offset]) => Some(Subcommand::Get(read_field(kind, offset)?)),
        Given::Set([kind, offset, number]) => {
            let (field, number) = (read_field(kind, offset)?, read_signed(number)?);
            field.holds(number.into()).then_some(Subcommand::Set(field, number))
        }
        Given::Incrby([kind, offset, increment], overflow) => {
            let (field, increment) = (read_field(kind, offset)?, read_signed(increment)?);
            Some(Subcommand::Incrby(field, increment, overflow))
        }
    }
}

fn read_field(kind: &[u8], offset: &[u8]) -> Option<Field> {
    let (signed, width) = read_type(kind)?;
    Some(Field { signed, width, offset: read_offset(offset, width)? })
}

/// A type is i1 to i64 or u1 to u63; the letter is a small one, and the width has
/// no sign and no extra zeros. It is told here by whether it is signed, and its
/// width.
fn read_type(word: &[u8]) -> Option<(bool, u64)> {
    let (letter, width) = word.split_first()?;
    let (signed, widest) = match letter {
        b'i' => (true, 64),
        b'u' => (false, 63),
        _ => return None,
    };
    let width = read_short(width)?;
    (1..=widest).contains(&width).then_some((signed, width))
}

/// An offset has the range of flags, 0 to 2^32 - 1. After # it counts fields of
/// this width.
fn read_offset(word: &[u8], width: u64) -> Option<u64> {
    match word.strip_prefix(b"#") {
        Some(count) => Some(u64::from(read_flags(count)?) * width),
        None => Some(read_flags(word)?.into()),
    }
}

impl Subcommand {
    /// Whether the field of one that may write is within the longest value.
    pub fn fits(&self) -> bool {
        match self {
            Subcommand::Get(_) => true,
            Subcommand::Set(field, _) | Subcommand::Incrby(field, ..) => {
                field.end() <= 8 * VALUE_LIMIT as u64
            }
        }
    }
}

/// What the subcommands of one command answer, nil for a failed INCRBY, and the
/// value that they leave; none if nothing was written.
#[derive(Debug, PartialEq, Eq)]
pub struct Run {
    pub answers: Vec<Option<i64>>,
    pub written: Option<Vec<u8>>,
}

/// Runs the subcommands on a value, each on what the one before left.
pub fn run(subcommands: &[Subcommand], value: &[u8]) -> Run {
    let mut bits = bits_of(value);
    let mut answers = Vec::new();
    let mut wrote = false;
    for subcommand in subcommands {
        let (answer, write) = match *subcommand {
            Subcommand::Get(field) => (Some(field.read(&bits)), None),
            Subcommand::Set(field, number) => {
                (Some(field.read(&bits)), Some((field, number.into())))
            }
            Subcommand::Incrby(field, increment, overflow) => {
                let sum = field.sum(field.read(&bits), increment.into(), overflow);
                (sum, sum.map(|sum| (field, sum)))
            }
        };
        if let Some((field, number)) = write {
            field.write(&mut bits, number);
            wrote = true;
        }
        // Every number of a field is one of 64 signed bits.
        answers.push(answer.map(|number| number as i64));
    }
    Run { answers, written: wrote.then(|| bytes_of(&bits)) }
}

#[cfg(test)]
mod tests {
    use super::*;

    fn words(line: &str) -> Vec<&[u8]> {
        line.split_whitespace().map(str::as_bytes).collect()
    }

    /// The subcommands of a line, or the number of the refusal.
    fn read(line: &str) -> Result<Vec<Subcommand>, u32> {
        let given = subcommands_in(&words(line)).ok_or(8u32)?;
        read_subcommands(&given).ok_or(9)
    }

    /// What the subcommands of a line do to a value.
    fn on(value: &[u8], line: &str) -> Run {
        run(&read(line).unwrap(), value)
    }

    fn field(signed: bool, width: u64, offset: u64) -> Field {
        Field { signed, width, offset }
    }

    #[test]
    fn subcommands_are_taken_apart() {
        assert_eq!(read(""), Ok(vec![]));
        assert_eq!(read("get i5 #3"), Ok(vec![Subcommand::Get(field(true, 5, 15))]));
        assert_eq!(
            read("OVERFLOW sat Set u8 7 255 iNCRBY u63 0 -5 overflow FAIL"),
            Ok(vec![
                Subcommand::Set(field(false, 8, 7), 255),
                Subcommand::Incrby(field(false, 63, 0), -5, Overflow::Sat),
            ])
        );
    }

    #[test]
    fn unknown_and_missing_words_are_8() {
        for line in [
            "GET", "GET u8", "SET u8 0", "INCRBY u8 0", "OVERFLOW", "OVERFLOW NOPE", "NX", "VER 1",
            "GETS u8 0", "u8", "GET u8 0 0", "SET u8 0 1 1", "GET u8 0 SET", "OVERFLOW OVERFLOW",
            "SET GET u8", "WRAP", "GET u8 0 OVERFLOW FAIL SAT",
        ] {
            assert_eq!(read(line), Err(8), "{line}");
        }
    }

    #[test]
    fn eight_comes_before_nine() {
        assert_eq!(read("GET x y NOPE"), Err(8));
        assert_eq!(read("SET x y z OVERFLOW NOPE"), Err(8));
        assert_eq!(read("GET GET SET"), Err(9));
        assert_eq!(read("INCRBY GET u8 0"), Err(9));
        assert_eq!(read("SET u8 GET u8 GET u8 0"), Err(9));
    }

    #[test]
    fn overflow_holds_until_the_next() {
        let line = "INCRBY u1 0 1 OVERFLOW SAT INCRBY u1 0 1 GET u1 0 INCRBY u1 0 1 \
                    OVERFLOW FAIL OVERFLOW WRAP INCRBY u1 0 1";
        let overflows: Vec<_> = read(line)
            .unwrap()
            .into_iter()
            .filter_map(|subcommand| match subcommand {
                Subcommand::Incrby(_, _, overflow) => Some(overflow),
                _ => None,
            })
            .collect();
        assert_eq!(overflows, [Overflow::Wrap, Overflow::Sat, Overflow::Sat, Overflow::Wrap]);
    }

    #[test]
    fn types_have_one_form() {
        for width in 1..=64 {
            assert_eq!(read_type(format!("i{width}").as_bytes()), Some((true, width)));
            let unsigned = (width < 64).then_some((false, width));
            assert_eq!(read_type(format!("u{width}").as_bytes()), unsigned);
        }
        for word in [
            "", "i", "u", "8", "U8", "I8", "u08", "u0", "i0", "i65", "u+8", "u-8", "i-1", "u8 ",
            " u8", "u8x", "x8", "u18446744073709551624", "i4294967297", "i257", "#8", "u8\0",
            "+u8", "i08", "i+8", "i008", "u-0", "u00000000000000000008", "0u8",
        ] {
            assert_eq!(read_type(word.as_bytes()), None, "{word}");
        }
    }

    #[test]
    fn offsets_count_bits_or_fields() {
        assert_eq!(read_offset(b"0", 5), Some(0));
        assert_eq!(read_offset(b"4294967295", 64), Some(4_294_967_295));
        assert_eq!(read_offset(b"#0", 5), Some(0));
        assert_eq!(read_offset(b"#7", 5), Some(35));
        assert_eq!(read_offset(b"#4294967295", 64), Some(274_877_906_880));
        for (word, offset) in [
            ("+5", 5),
            ("#+5", 40),
            ("007", 7),
            ("#007", 56),
            ("-0", 0),
            ("#-0", 0),
            ("00000000000000000009", 9),
            ("#+00000000000000000009", 72),
        ] {
            assert_eq!(read_offset(word.as_bytes(), 8), Some(offset), "{word}");
        }
        for word in [
            "", "#", "##1", "-1", "#-1", "+#5", "-#0", "0#5", "#+", "#-", "#+-5", "#--0", "#0x5",
            "4294967296", "#4294967296", "18446744073709551616", "000000000000000000005",
            "#000000000000000000005", "1#", "# 1", "x",
        ] {
            assert_eq!(read_offset(word.as_bytes(), 8), None, "{word}");
        }
    }

    #[test]
    fn set_takes_what_fits_and_incrby_any_number() {
        let top = i128::from(i64::MAX);
        for (kind, least, greatest) in [
            ("u8", 0, 255),
            ("i8", -128, 127),
            ("i1", -1, 0),
            ("u1", 0, 1),
            ("u63", 0, top),
            ("i64", -top - 1, top),
        ] {
            for (number, fits) in
                [(least - 1, false), (least, true), (greatest, true), (greatest + 1, false)]
            {
                let set = read(&format!("SET {kind} 0 {number}"));
                assert_eq!(set.is_ok(), fits, "{kind} {number}");
                assert!(fits || set == Err(9));
                let incrby = read(&format!("INCRBY {kind} 0 {number}"));
                assert_eq!(incrby.is_ok(), i64::try_from(number).is_ok(), "{kind} {number}");
            }
        }
        for number in ["x", "", "+", "+-1", "1.0", "000000000000000000001"] {
            let words = [&b"INCRBY"[..], b"u8", b"0", number.as_bytes()];
            assert_eq!(read_subcommands(&subcommands_in(&words).unwrap()), None, "{number}");
        }
    }

    #[test]
    fn numbers_have_signs_and_zeros() {
        let field = field(true, 8, 0);
        for (text, number) in [("+5", 5), ("007", 7), ("-0", 0), ("-007", -7)] {
            let set = read(&format!("SET i8 0 {text}"));
            assert_eq!(set, Ok(vec![Subcommand::Set(field, number)]));
            let incrby = read(&format!("INCRBY i8 0 {text}"));
            assert_eq!(incrby, Ok(vec![Subcommand::Incrby(field, number, Overflow::Wrap)]));
        }
        assert_eq!(read("SET i8 0 +0128"), Err(9));
        assert_eq!(read("SET u8 0 -007"), Err(9));
    }

    #[test]
    fn only_what_may_write_must_fit() {
        for (line, fits) in [
            ("GET u8 4294967295", true),
            ("SET u8 504 0", true),
            ("SET u8 505 0", false),
            ("SET u1 511 0", true),
            ("SET u1 512 0", false),
            ("INCRBY i64 #7 0", true),
            ("INCRBY i64 #8 0", false),
            ("INCRBY u63 449 0", true),
            ("OVERFLOW FAIL INCRBY u63 450 -1", false),
            ("SET i64 #4294967295 0", false),
        ] {
            assert_eq!(read(line).unwrap().iter().all(Subcommand::fits), fits, "{line}");
        }
    }

    #[test]
    fn each_runs_on_what_the_one_before_left() {
        let ran = on(b"", "SET u8 0 200 GET i8 0 INCRBY u4 0 -1 GET u8 0");
        assert_eq!(ran.answers, [Some(0), Some(-56), Some(11), Some(0xb8)]);
        assert_eq!(ran.written, Some(vec![0xb8]));
    }

    #[test]
    fn what_writes_and_what_grows() {
        let nothing = |answers: &[Option<i64>]| Run { answers: answers.to_vec(), written: None };
        assert_eq!(on(b"a", ""), nothing(&[]));
        assert_eq!(on(b"a", "GET u8 0 GET u8 8"), nothing(&[Some(97), Some(0)]));
        assert_eq!(on(b"a", "OVERFLOW FAIL INCRBY u8 504 -1"), nothing(&[None]));
        // By 0, at a limit, and the number that is there: all write.
        assert_eq!(on(b"", "INCRBY u1 8 0").written, Some(vec![0, 0]));
        assert_eq!(on(b"", "OVERFLOW SAT INCRBY u1 0 -1").written, Some(vec![0]));
        assert_eq!(on(b"a", "SET u8 0 97").written, Some(vec![97]));
        // A failed one grows nothing, also beside one that writes.
        let ran = on(b"", "SET u1 8 1 OVERFLOW FAIL INCRBY u8 504 -1");
        assert_eq!(ran, Run { answers: vec![Some(0), None], written: Some(vec![0, 0x80]) });
    }
}
