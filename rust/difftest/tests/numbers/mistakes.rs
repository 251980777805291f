//! Stores with one mistake each in reading or writing numbers: the random calls find
//! every one, wherever a number stands.

use super::*;
use difftest::case;
use difftest::layout::Record;
use difftest::number_words::{number_words, replaced, KINDS};
use difftest::numerals::value;
use std::collections::BTreeSet;

/// What a wrong reader takes a text for; none where it reads it right.
type Reader = fn(&str) -> Option<String>;

/// Refuses a text by taking it for one that is no number.
fn refuse_if(is_refused: bool) -> Option<String> {
    is_refused.then(|| "x".into())
}

/// A sign, if there is one, and what follows it.
fn parts(text: &str) -> (&str, &str) {
    text.split_at(usize::from(text.starts_with(['+', '-'])))
}

fn is_number(text: &str) -> bool {
    value(text.as_bytes()).is_some()
}

/// The exact number of a sign and any digits that stay within 128 bits.
fn exact(text: &str) -> Option<i128> {
    let has_digits_only = parts(text).1.bytes().all(|byte| byte.is_ascii_digit());
    text.parse().ok().filter(|_| has_digits_only)
}

/// The exact number of at most twenty digits, where it is out of range.
fn out_of_range(text: &str) -> Option<i128> {
    exact(text).filter(|_| !is_number(text) && parts(text).1.len() <= 20)
}

const NEAREST: &str = "a number out of range is the nearest in it";

const READERS: [(&str, Reader); 15] = [
    ("a plus is refused", |text| refuse_if(is_number(text) && text.starts_with('+'))),
    ("zeros are refused", |text| {
        let (_, digits) = parts(text);
        refuse_if(is_number(text) && digits.len() > 1 && digits.starts_with('0'))
    }),
    ("minus zero is refused", |text| refuse_if(text == "-0")),
    ("minus zero with zeros is refused", |text| {
        refuse_if(value(text.as_bytes()) == Some(0) && text.starts_with("-00"))
    }),
    ("twenty digits are refused", |text| refuse_if(is_number(text) && parts(text).1.len() == 20)),
    ("a sign counts among the digits", |text| refuse_if(is_number(text) && text.len() == 21)),
    ("too many zeros are taken", |text| {
        let number = i64::try_from(exact(text)?).ok()?;
        (parts(text).1.len() > 20).then(|| number.to_string())
    }),
    ("what is out of range wraps", |text| Some((out_of_range(text)? as i64).to_string())),
    (NEAREST, |text| Some(out_of_range(text)?.clamp(i64::MIN.into(), i64::MAX.into()).to_string())),
    ("zeros make it octal", |text| {
        let (sign, digits) = parts(text);
        let octal = i64::from_str_radix(digits, 8).ok().filter(|_| digits.starts_with('0'))?;
        (is_number(text) && octal > 7).then(|| format!("{sign}{octal}"))
    }),
    ("zeros hide the minus", |text| {
        let number = value(text.as_bytes()).filter(|number| *number < 0)?;
        text.starts_with("-0").then(|| number.unsigned_abs().to_string())
    }),
    ("a sign alone is 0", |text| matches!(text, "+" | "-").then(|| "0".into())),
    ("no byte is 0", |text| text.is_empty().then(|| "0".into())),
    ("a second sign is taken", |text| {
        let (sign, rest) = parts(text);
        let has_two = !sign.is_empty() && rest.starts_with(['+', '-']);
        (has_two && is_number(rest)).then(|| rest.to_string())
    }),
    ("a blank is passed over", |text| {
        let rest = text.replace(' ', "");
        (rest != text && is_number(&rest)).then_some(rest)
    }),
];

impl Call {
    /// Whether a store does something else if it takes other words for the command's.
    fn differs_with(&self, words: &[Vec<u8>]) -> bool {
        let command = resp::encode(words);
        Case { command, ..self.case.clone() }.run(reference::call) != self.outcome
    }

    /// Whether a store does something else if it takes another text for the one that
    /// EXINCRBY counts from.
    fn differs_with_stored(&self, slot: usize, text: &[u8]) -> bool {
        let mut case = self.case.clone();
        let record = &mut layout::records_mut(&mut case.table)[slot];
        layout::store(record, text, layout::version(record));
        let outcome = case.run(reference::call);
        outcome.answer != self.outcome.answer || outcome.reply != self.outcome.reply
    }
}

/// The readers that take something else for a text, and what they take it for.
fn other_readings(text: &[u8]) -> Vec<(&'static str, Vec<u8>)> {
    let text = std::str::from_utf8(text).unwrap_or("x");
    let other = |(name, reader): (&'static str, Reader)| Some((name, reader(text)?.into_bytes()));
    READERS.into_iter().filter_map(other).collect()
}

#[test]
fn a_wrong_reader_is_found_at_every_kind_of_number() {
    let mut found = BTreeSet::new();
    for call in calls() {
        for word in number_words(&call.words) {
            for (name, text) in other_readings(word.text) {
                if call.differs_with(&replaced(&call.words, word, &text)) {
                    found.insert((name, word.kind));
                }
            }
        }
        let (Some(slot), Some(stored)) = (call.counted_slot(), call.counted_text()) else {
            continue;
        };
        for (name, text) in other_readings(stored) {
            if call.differs_with_stored(slot, &text) {
                found.insert((name, "stored"));
            }
        }
    }
    for (name, _) in READERS {
        for kind in KINDS.into_iter().chain(["stored"]).filter(|kind| can_tell(name, kind)) {
            assert!(found.contains(&(name, kind)), "{kind}: not found that {name}");
        }
    }
}

/// Whether a mistake can be seen at a kind of number: what is at an end of 64 bits
/// is still out of the range of flags and offsets.
fn can_tell(name: &str, kind: &str) -> bool {
    name != NEAREST || !["FLAGS", "offset", "# offset"].contains(&kind)
}

/// Fails unless some call finds a store that takes other words.
fn is_found(other_words: impl Fn(&[Vec<u8>]) -> Option<Vec<Vec<u8>>>) {
    let is_found =
        calls().any(|call| other_words(&call.words).is_some_and(|words| call.differs_with(&words)));
    assert!(is_found);
}

/// The words with another one for the first that a test takes.
fn with_first(words: &[Vec<u8>], other: impl Fn(&[u8]) -> Option<Vec<u8>>) -> Option<Vec<Vec<u8>>> {
    let mut words = words.to_vec();
    let (at, word) = words.iter().enumerate().find_map(|(at, word)| Some((at, other(word)?)))?;
    words[at] = word;
    Some(words)
}

#[test]
fn a_sign_before_the_mark_of_an_offset_is_found() {
    for sign in [b'+', b'-'] {
        is_found(|words| {
            with_first(words, |word| match word {
                [first, b'#', ..] if *first == sign => Some(word[1..].to_vec()),
                _ => None,
            })
        });
    }
}

/// A type's width is read as a number word.
#[test]
fn a_type_with_a_sign_or_zeros_is_found() {
    let width = |word: &[u8]| match word {
        [b'i' | b'u', first @ (b'+' | b'0'), ..] => Some((*first, value(&word[1..])?)),
        _ => None,
    };
    for mark in [b'+', b'0'] {
        is_found(|words| {
            with_first(words, |word| {
                let (_, width) = width(word).filter(|(first, _)| *first == mark)?;
                Some([&word[..1], width.to_string().as_bytes()].concat())
            })
        });
    }
}

/// Fails unless some EXINCRBY that counts finds a store that writes its record
/// otherwise.
fn is_found_in_record(other: impl Fn(&Record, &mut Record)) {
    let is_found = calls().any(|call| {
        let Some(slot) = call.counted_slot() else {
            return false;
        };
        let old = layout::records(&call.case.table)[slot];
        let new = layout::records(&call.outcome.table)[slot];
        let mut record = new;
        if old != new {
            other(&old, &mut record);
        }
        record != new
    });
    assert!(is_found);
}

#[test]
fn a_sum_written_as_the_old_text_was_is_found() {
    // a plus stays
    is_found_in_record(|old, new| {
        if let ([b'+', ..], Some(0..)) = (layout::value(old), value(layout::value(new))) {
            let text = [b"+", layout::value(new)].concat();
            layout::store(new, &text, layout::version(new));
        }
    });
    // zeros stay
    is_found_in_record(|old, new| {
        if let [b'0', _, ..] = layout::value(old) {
            let (width, sum) = (layout::value(old).len(), value(layout::value(new)));
            let text = format!("{:0>width$}", sum.unwrap());
            layout::store(new, text.as_bytes(), layout::version(new));
        }
    });
    // a text that says the sum already stays
    is_found_in_record(|old, new| {
        if value(layout::value(old)) == value(layout::value(new)) {
            layout::store(new, layout::value(old), layout::version(new));
        }
    });
}

/// The words of a command whose count and lengths are read as number words.
fn decode_freely(command: &[u8]) -> Option<Vec<Vec<u8>>> {
    let (count, mut rest) = head(b'*', command)?;
    let mut words = Vec::new();
    for _ in 0..count {
        let (len, after) = head(b'$', rest)?;
        let (word, after) = after.split_at_checked(len)?;
        words.push(word.to_vec());
        rest = after.strip_prefix(b"\r\n")?;
    }
    rest.is_empty().then_some(words)
}

fn head(mark: u8, bytes: &[u8]) -> Option<(usize, &[u8])> {
    let line = bytes.strip_prefix(&[mark])?;
    let end = line.windows(2).position(|pair| pair == b"\r\n")?;
    Some((value(&line[..end])?.try_into().ok()?, &line[end + 2..]))
}

/// RESP2's count and lengths with a sign or zeros, which number 4 refuses.
#[test]
fn a_length_with_a_sign_or_zeros_is_found() {
    let mut missing = vec![(false, '+'), (false, '-'), (false, '0'), (true, '+'), (true, '0')];
    let mut rng = Rng::new(12);
    for _ in 0..CALLS {
        let case = case(&mut rng);
        let Some(words) = decode_freely(&case.command) else { continue };
        let strict = Case { command: resp::encode(&words), ..case.clone() };
        let mut bytes = case.command.iter().zip(&strict.command).enumerate();
        let Some((at, (byte, _))) = bytes.find(|(_, (a, b))| a != b) else { continue };
        if strict.run(reference::call) != case.run(reference::call) {
            missing.retain(|kind| *kind != (at < 3, char::from(*byte)));
        }
        if missing.is_empty() {
            return;
        }
    }
    panic!("not found: {missing:?}");
}
