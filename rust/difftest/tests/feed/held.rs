//! Held bytes that cannot have come from feed: they are refused, and no byte is
//! taken.

use super::*;

/// Bytes that begin no command, or are a whole one.
fn impossible() -> Vec<Vec<u8>> {
    let texts = [
        "*0", "*17", "*01", "*x", "+OK\r\n", "$3\r\nDEL\r\n", "EXGET foo", "\0", "*1\r\n$501",
        "*1\n", "*1\r\n$1\r\nab", "*1\r\n$0\r\n\r\n*1\r\n", "*16\r\n$410", "*1\r\n$-1\r\n",
        "*2\r\n$0\r\n\r\n\r",
    ];
    let mut all: Vec<Vec<u8>> = texts.map(|text| text.into()).into();
    // whole commands, the last of 512 bytes
    all.extend([line("EXGET foo"), line("PING"), encode(&[""]), encode(&[""; 16])]);
    all.push(encode(&[vec![b'x'; 500]]));
    // as many bytes as a whole command has, or more
    all.extend([vec![b'*'; 511], vec![b'*'; 512], vec![b'*'; 513], vec![0; 520]]);
    let long = encode(&[vec![b'x'; 508]]);
    all.extend([512, 513, 519].map(|len| long[..len].to_vec()));
    all
}

/// Bytes that begin a command.
fn possible() -> Vec<Vec<u8>> {
    let texts = ["", "*", "*1", "*16\r", "*2\r\n$5\r\nEXGET\r\n$3", "*1\r\n$50", "*1\r\n$0\r\n\r"];
    let mut all: Vec<Vec<u8>> = texts.map(|text| text.into()).into();
    let long = encode(&[vec![b'x'; 500]]);
    all.extend([500, 510, 511].map(|len| long[..len].to_vec()));
    all
}

fn pieces() -> [Vec<u8>; 5] {
    [vec![], b"\r\n".to_vec(), b"x".to_vec(), line("EXSET foo bar"), vec![b'*'; 600]]
}

fn check_refused(assembler: &Assembler) -> Verdict {
    let targets = bad_targets().into_iter().chain([good_target()]);
    for target in targets {
        for piece in pieces() {
            let (held, held_len) = (assembler.held.clone(), assembler.held_len);
            let mut assembler = Assembler { feed: assembler.feed, held, held_len };
            assembler.feed_refused(&piece, 0, &target)?;
        }
    }
    Ok(())
}

/// A count above the buffer's length, or above what can be held.
fn check_counts(feed: Feed) -> Verdict {
    for held_len in [512, 513, 519, 520, 521, 522, 1 << 16, 1 << 32, usize::MAX - 1, usize::MAX] {
        for bytes in possible() {
            let mut assembler = Assembler::holding(feed, &bytes);
            assembler.held_len = held_len;
            check_refused(&assembler)?;
        }
    }
    Ok(())
}

/// A buffer that is too short, whatever it holds.
fn check_short_buffers(feed: Feed) -> Verdict {
    for len in [0, 1, 2, 100, 510, 511] {
        for bytes in possible().iter().filter(|bytes| bytes.len() <= len) {
            let mut assembler = Assembler::holding(feed, bytes);
            assembler.held.truncate(len);
            check_refused(&assembler)?;
        }
    }
    Ok(())
}

/// What can have come from feed is not refused, in a buffer that is just long
/// enough or longer.
fn check_possible(feed: Feed) -> Verdict {
    for bytes in possible() {
        for len in [512, 513, 1000] {
            let mut assembler = Assembler::holding(feed, &bytes);
            assembler.held.resize(len, 7);
            assembler.feed_more(b"", &bad_targets()[3])?;
        }
    }
    Ok(())
}

/// After a refusal the next byte begins a command.
fn check_next(feed: Feed) -> Verdict {
    let mut assembler = Assembler::holding(feed, b"*0");
    assembler.feed_refused(b"", 0, &good_target())?;
    let outcome = assembler.feed(&line("EXSET foo bar"), &good_target())?;
    ensure(outcome.fed.number == 0, "not answered", &outcome)
}

pub fn check(feed: Feed) -> Verdict {
    for bytes in impossible() {
        check_refused(&Assembler::holding(feed, &bytes))?;
    }
    check_counts(feed)?;
    check_short_buffers(feed)?;
    check_possible(feed)?;
    check_next(feed)
}

#[test]
fn held_bytes_that_cannot_be_are_refused() {
    check(difftest::feed::library).unwrap();
}
