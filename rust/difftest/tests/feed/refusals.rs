//! Malformed commands: the byte after which no command can follow is refused, and
//! none before it.

use super::*;

/// No array. Here and below the last byte of each is the one that is refused.
const ARRAYS: &[&str] = &["+", "-", ":", "$", "x", "0", " ", "\0", "\r", "\n"];

/// No count of 1 to 16, or no CR LF after it.
const COUNTS: &[&str] = &[
    "**", "*$", "*\r", "*\n", "*-", "*+", "* ", "*x", "*0", "*17", "*18", "*19", "*20", "*30",
    "*90", "*100", "*160", "*1x", "*1-", "*1 ", "*16 ", "*1$", "*1*", "*1\n", "*1\r\r", "*1\rx",
    "*1\r1", "*1\r$", "*16\n", "*16\r\r",
];

/// No word, no length, or no CR LF after it.
const LENGTHS: &[&str] = &[
    "*1\r\n*", "*1\r\n+", "*1\r\n\r", "*1\r\n1", "*1\r\nx", "*1\r\n$$", "*1\r\n$\r", "*1\r\n$-",
    "*1\r\n$+", "*1\r\n$ ", "*1\r\n$x", "*1\r\n$00", "*1\r\n$01", "*1\r\n$09", "*1\r\n$1 ",
    "*1\r\n$1-", "*1\r\n$12x", "*1\r\n$0x", "*1\r\n$3\n", "*1\r\n$3\r\r", "*1\r\n$3\r3",
    "*1\r\n$3\ra", "*1\r\n$500\r\r", "*1\r\n$500\n",
];

/// Too long for 512 bytes.
const TOO_LONG: &[&str] = &[
    "*1\r\n$501", "*1\r\n$509", "*1\r\n$510", "*1\r\n$600", "*1\r\n$999", "*1\r\n$1000",
    "*1\r\n$1234", "*2\r\n$495", "*9\r\n$453", "*10\r\n$446", "*16\r\n$410", "*16\r\n$500",
    "*16\r\n$1000", "*2\r\n$1\r\na\r\n$500", "*2\r\n$1\r\na\r\n$494",
];

/// A word longer or shorter than it says, or not ended by CR LF.
const WORDS: &[&str] = &[
    "*1\r\n$0\r\nx", "*1\r\n$0\r\n\n", "*1\r\n$0\r\n\r\r", "*1\r\n$3\r\nabcd", "*1\r\n$3\r\nabc\n",
    "*1\r\n$3\r\nabc\r\r", "*1\r\n$3\r\nabc\rx", "*1\r\n$3\r\nabc$", "*1\r\n$5\r\nEXGT\r\n",
    "*2\r\n$6\r\nEXGET\r\n", "*2\r\n$1\r\na\r\n$2\r\nab\n",
];

/// A second word that is none.
const SECOND_WORDS: &[&str] = &[
    "*2\r\n$4\r\nEXGE\r\n\r", "*2\r\n$5\r\nEXGET\r\nf", "*2\r\n$1\r\na\r\n*",
    "*2\r\n$1\r\na\r\n\r", "*2\r\n$1\r\na\r\n+", "*2\r\n$1\r\na\r\n$\r", "*2\r\n$1\r\na\r\n$-",
    "*2\r\n$1\r\na\r\n$02",
];

/// What may follow a byte that is refused.
const AFTER: [&str; 4] = ["\r\n", "1", "*1\r\n$0\r\n\r\n", "\0garbage"];

/// The row in one piece, in every two pieces, byte by byte, and with bytes behind
/// it.
fn check_row(feed: Feed, text: &[u8], target: &Target) -> Verdict {
    let len = text.len();
    let mut bytes = Assembler::new(feed);
    for at in 0..len {
        let mut two = Assembler::new(feed);
        two.feed_more(&text[..at], target)?;
        two.feed_more(b"", target)?;
        two.feed_refused(&text[at..], len - at, target)?;
        match at + 1 == len {
            true => bytes.feed_refused(&text[at..], 1, target)?,
            false => bytes.feed_more(&text[at..=at], target)?,
        }
    }
    for after in AFTER {
        let piece = [text, after.as_bytes()].concat();
        Assembler::new(feed).feed_refused(&piece, len, target)?;
        Assembler::holding(feed, &text[..len - 1]).feed_refused(&piece[len - 1..], 1, target)?;
    }
    Ok(())
}

/// Every mark, CR and LF of a command, in the place of which any other byte is
/// refused.
fn check_marks(feed: Feed, words: &[&[u8]]) -> Verdict {
    let command = encode(words);
    for at in marks(words) {
        for byte in (0..=255).filter(|byte| *byte != command[at]) {
            // Where the digits end another digit can follow; `lengths` tries those.
            if command[at] == b'\r' && byte.is_ascii_digit() {
                continue;
            }
            let piece = [&command[..at], &[byte], b"\r\n$1"].concat();
            Assembler::new(feed).feed_refused(&piece, at + 1, &good_target())?;
        }
    }
    Ok(())
}

/// Where the bytes of a command stand that are no digits and no part of a word.
fn marks(words: &[&[u8]]) -> Vec<usize> {
    let head = |at: usize, text: String| [at, at + text.len() - 2, at + text.len() - 1];
    let mut marks = head(0, format!("*{}\r\n", words.len())).to_vec();
    let mut end = marks[2] + 1;
    for word in words {
        let text = format!("${}\r\n", word.len());
        marks.extend(head(end, text.clone()));
        end += text.len() + word.len() + 2;
        marks.extend([end - 2, end - 1]);
    }
    marks
}

pub fn check(feed: Feed) -> Verdict {
    let rows = [ARRAYS, COUNTS, LENGTHS, TOO_LONG, WORDS, SECOND_WORDS].concat();
    for text in rows {
        check_row(feed, text.as_bytes(), &good_target())?;
        for target in bad_targets() {
            check_row(feed, text.as_bytes(), &target)?;
        }
    }
    check_marks(feed, &[b"EXGET", b"foo"])?;
    check_marks(feed, &[b"EXSET", b"\r\n", b"", &[b'x'; 100]])?;
    check_marks(feed, &[&b""[..]; 16])
}

#[test]
fn a_malformed_command_is_refused_at_its_byte() {
    check(difftest::feed::library).unwrap();
}
