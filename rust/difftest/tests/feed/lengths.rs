//! The digits of counts and lengths: each digit is taken exactly if a command of
//! 1 to 16 words in at most 512 bytes can have it there.

use super::*;
use difftest::resp::encode_word;
use std::collections::BTreeSet;

/// What else may stand in the place of a digit.
const OTHERS: &[u8] = b"\r\n/:-+ *$x\0\xb1";

/// The bytes before a number, and the texts of all numbers that can stand there.
struct Place {
    before: Vec<u8>,
    numbers: BTreeSet<String>,
}

/// The count at the start.
fn count() -> Place {
    Place { before: b"*".to_vec(), numbers: (1..=16).map(|count| count.to_string()).collect() }
}

/// The length of a word after these words, of so many in all.
fn length(words: &[&[u8]], count: usize) -> Place {
    let mut before = format!("*{count}\r\n").into_bytes();
    before.extend(words.iter().flat_map(|word| encode_word(word)));
    let rest = encode_word(b"").len() * (count - words.len() - 1);
    let room = 512 - before.len() - rest;
    let fits = |len: &usize| encode_word(&vec![b'x'; *len]).len() <= room;
    let numbers = (0..512).filter(fits).map(|len| len.to_string()).collect();
    before.push(b'$');
    Place { before, numbers }
}

fn places() -> Vec<Place> {
    let mut places = vec![count()];
    places.extend((1..=16).map(|count| length(&[], count)));
    places.push(length(&[&b""[..]; 15], 16));
    places.push(length(&[&b"a\r\n"[..]; 8], 9));
    // As much room for the last word as it takes for one more byte or digit of
    // its length to fit, and less.
    for room in (6..=18).chain(104..=110) {
        let first = 512 - "*2\r\n".len() - "$123\r\n\r\n".len() - room;
        let place = length(&[&vec![b'x'; first]], 2);
        assert_eq!(place.before.len(), 512 - room + 1);
        places.push(place);
    }
    places
}

/// Every byte that may matter, behind every beginning of a number that can stand
/// here.
fn check_place(feed: Feed, place: &Place) -> Verdict {
    let can_begin = |text: &str| place.numbers.iter().any(|number| number.starts_with(text));
    let mut texts = vec![String::new()];
    while let Some(text) = texts.pop() {
        let held = [&place.before, text.as_bytes()].concat();
        for byte in OTHERS {
            let is_end = *byte == b'\r' && place.numbers.contains(&text);
            check_byte(feed, &held, *byte, is_end)?;
        }
        for digit in '0'..='9' {
            let longer = format!("{text}{digit}");
            check_byte(feed, &held, digit as u8, can_begin(&longer))?;
            texts.extend(can_begin(&longer).then_some(longer));
        }
    }
    Ok(())
}

/// A byte behind these.
fn check_byte(feed: Feed, held: &[u8], byte: u8, is_taken: bool) -> Verdict {
    let mut assembler = Assembler::holding(feed, held);
    match is_taken {
        true => assembler.feed_more(&[byte], &good_target()),
        false => assembler.feed_refused(&[byte], 1, &good_target()),
    }
}

pub fn check(feed: Feed) -> Verdict {
    places().iter().try_for_each(|place| check_place(feed, place))
}

#[test]
fn a_digit_is_taken_exactly_if_a_command_can_have_it() {
    check(difftest::feed::library).unwrap();
}
