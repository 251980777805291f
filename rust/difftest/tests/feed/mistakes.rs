//! Feeds with one mistake each: every check finds some, and every mistake is
//! found.

use super::*;
use reference::Fed;

/// Fails unless each of the checks finds the mistake.
fn is_found(feed: Feed, checks: &[fn(Feed) -> Verdict]) {
    for (at, check) in checks.iter().enumerate() {
        assert!(check(feed).is_err(), "check {at} finds nothing");
    }
}

fn streams(feed: Feed) -> Verdict {
    streams::check(feed, 20_000).map(drop)
}

#[test]
fn a_refusal_that_takes_a_byte_more() {
    is_found(
        |held, held_len, piece, table, time, reply| {
            let fed = reference::feed(held, held_len, piece, table, time, reply);
            let more = usize::from(fed.number == 4 && fed.taken < piece.len());
            Fed { taken: fed.taken + more, ..fed }
        },
        &[held::check, refusals::check, streams],
    );
}

#[test]
fn a_refusal_that_takes_a_byte_less() {
    is_found(
        |held, held_len, piece, table, time, reply| {
            let fed = reference::feed(held, held_len, piece, table, time, reply);
            let less = usize::from(fed.number == 4 && fed.taken > 0);
            Fed { taken: fed.taken - less, ..fed }
        },
        &[lengths::check, refusals::check, streams],
    );
}

/// While there is room it is held.
#[test]
fn a_digit_that_is_not_refused() {
    is_found(
        |held, held_len, piece, table, time, reply| {
            let before = *held_len;
            let fed = reference::feed(held, held_len, piece, table, time, reply);
            let at_digit = fed.taken > 0 && piece[fed.taken - 1].is_ascii_digit();
            let end = before.saturating_add(piece.len());
            if fed.number != 4 || !at_digit || end > 511 {
                return fed;
            }
            held[before..end].copy_from_slice(piece);
            *held_len = end;
            Fed { number: MORE, taken: piece.len(), len: 0 }
        },
        &[lengths::check, refusals::check, streams],
    );
}

#[test]
fn a_held_byte_that_is_lost() {
    is_found(
        |held, held_len, piece, table, time, reply| {
            let fed = reference::feed(held, held_len, piece, table, time, reply);
            *held_len -= usize::from(*held_len > 8);
            fed
        },
        &[cuts::check, lengths::check, refusals::check, held::check, streams],
    );
}

#[test]
fn a_table_that_is_looked_at_early() {
    is_found(
        |held, held_len, piece, table, time, reply| match reference::call(table, time, b"", reply)
            .number
        {
            4 => reference::feed(held, held_len, piece, table, time, reply),
            number => Fed { number, taken: piece.len(), len: 0 },
        },
        &[cuts::check, refusals::check, held::check, streams],
    );
}

#[test]
fn bytes_taken_past_the_command() {
    is_found(
        |held, held_len, piece, table, time, reply| {
            let fed = reference::feed(held, held_len, piece, table, time, reply);
            let taken = if fed.number == 4 { fed.taken } else { piece.len() };
            Fed { taken, ..fed }
        },
        &[cuts::check, streams],
    );
}

#[test]
fn bytes_held_after_an_answer() {
    is_found(
        |held, held_len, piece, table, time, reply| {
            let before = *held_len;
            let fed = reference::feed(held, held_len, piece, table, time, reply);
            if fed.number != MORE {
                *held_len = before;
            }
            fed
        },
        &[cuts::check, refusals::check, held::check, streams],
    );
}

#[test]
fn a_buffer_that_is_cleared() {
    is_found(
        |held, held_len, piece, table, time, reply| {
            let fed = reference::feed(held, held_len, piece, table, time, reply);
            if let Some(rest) = held.get_mut(*held_len..) {
                rest.fill(0);
            }
            fed
        },
        &[cuts::check, lengths::check, refusals::check, held::check, streams],
    );
}

/// Impossible bytes are dropped, and the piece is taken.
#[test]
fn impossible_bytes_that_are_not_refused() {
    is_found(
        |held, held_len, piece, table, time, reply| {
            let fed = reference::feed(held, held_len, b"", table, time, reply);
            match fed.number {
                4 if held.len() < 512 => fed,
                _ => reference::feed(held, held_len, piece, table, time, reply),
            }
        },
        &[held::check, streams],
    );
}

#[test]
fn a_reply_buffer_that_is_touched_early() {
    is_found(
        |held, held_len, piece, table, time, reply| {
            let fed = reference::feed(held, held_len, piece, table, time, reply);
            if let (MORE, Some(byte)) = (fed.number, reply.first_mut()) {
                *byte ^= 1;
            }
            fed
        },
        &[cuts::check, lengths::check, refusals::check, held::check, streams],
    );
}
