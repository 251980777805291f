//! Whole commands, cut everywhere into two and three pieces: the last piece gets
//! the answer of the undivided call. What the earlier ones are given beside the
//! bytes does not matter.

use super::*;
use difftest::layout::{Fields, MAX_TIME, MAX_VERSION};
use difftest::Rng;
use std::collections::BTreeSet;

/// A command, and the number of its answer.
struct Row {
    number: u32,
    command: Vec<u8>,
    target: Target,
}

/// From so many bytes on, not every cut of a command into three pieces is tried.
const LONG: usize = 120;

/// How many are.
const SAMPLES: usize = 1000;

fn record(key: &str, value: &[u8], version: u64) -> [u8; 128] {
    let (key, value) = (key.into(), value.to_vec());
    Fields { key, value, flags: 0, version, expiry: 0 }.record()
}

/// Three records, and an empty one behind them.
fn table() -> Vec<u8> {
    let records = [
        record("foo", b"100", 1),
        record("text", &[b'x'; 64], 5),
        record("top", b"7", MAX_VERSION),
        [0; 128],
    ];
    records.concat()
}

fn target() -> Target {
    Target { table: table(), ..good_target() }
}

/// The words with one more, so long that the command has 512 bytes.
fn stretched(words: &[&[u8]]) -> Vec<u8> {
    let commands = (0..512).map(|len| encode(&[words, &[&vec![b'x'; len][..]]].concat()));
    commands.into_iter().find(|command| command.len() == 512).unwrap()
}

fn rows() -> Vec<Row> {
    let lines = [
        (0, "EXSET foo 200"),
        (0, "DEL foo"),
        (0, "EXGET foo WITHFLAGS"),
        (0, "EXGET none"),
        (0, "EXCAS foo bar 1 KEEPTTL"),
        (0, "BITFIELD k OVERFLOW SAT SET u8 0 1 INCRBY u8 8 1 INCRBY i4 0 9"),
        (5, "PING"),
        (6, "EXGET"),
        (7, "EXGET a-key-of-twenty-five-bytes"),
        (8, "EXSET foo 1 NOPE"),
        (9, "EXINCRBY foo x"),
        (10, "EXSET foo 1 EX 0"),
        (11, "EXINCRBY foo 1 MIN 5 MAX 1"),
        (12, "EXSET foo 1 VER 9"),
        (13, "EXINCRBY text 1"),
        (14, "EXINCRBY foo 1 MAX 5"),
        (15, "EXAPPEND top x"),
        (16, "EXAPPEND text x"),
    ];
    let words: [(u32, &[&[u8]]); 6] = [
        (0, &[b"EXSET", b"\r\n*1\r\n$3\r\nDEL\r\n", b"$0\r\n\r\n*2\r\n$"]),
        (0, &[b"EXAPPEND", b"foo", b""]),
        (0, &[b"exset", b"\0", b"\r"]),
        (5, &[b""]),
        (5, &[&b""[..]; 16]),
        (7, &[b"DEL", b""]),
    ];
    let long = [
        (5, stretched(&[])),
        (7, stretched(&[b"EXSET", b"foo"])),
        (8, stretched(&[&[&b"EXGET"[..], b"foo"][..], &[&b""[..]; 13]].concat())),
    ];
    let lines = lines.map(|(number, text)| (number, line(text)));
    let words = words.map(|(number, words)| (number, encode(words)));
    let commands = lines.into_iter().chain(words).chain(long);
    let mut rows: Vec<Row> =
        commands.map(|(number, command)| Row { number, command, target: target() }).collect();
    rows.extend(refused_targets());
    rows
}

/// A command on tables, times and reply buffers that are refused, and on a table
/// that is full.
fn refused_targets() -> Vec<Row> {
    let mut stray = table();
    stray[500] = 1;
    let of_table = |table| Target { table, ..target() };
    let of_reply = |len| Target { reply: vec![7; len], ..target() };
    let targets = [
        (17, of_table(table()[..3 * 128].to_vec())),
        (1, of_table(stray.clone())),
        (1, of_table(Vec::new())),
        (1, of_table(vec![0; 129])),
        (1, Target { table: stray, time: u64::MAX, reply: Vec::new() }),
        (2, Target { time: MAX_TIME + 1, ..target() }),
        (2, Target { time: u64::MAX, ..of_reply(0) }),
        (3, of_reply(127)),
        (3, of_reply(0)),
    ];
    let row = |(number, target)| Row { number, command: line("EXSET new 1"), target };
    targets.map(row).into()
}

/// The pieces between these places.
fn cut(command: &[u8], first: usize, second: usize) -> [&[u8]; 3] {
    [&command[..first], &command[first..second], &command[second..]]
}

/// Feeds the pieces of a row's command. Once it is whole, what is left is empty.
fn feed_pieces(feed: Feed, row: &Row, pieces: &[&[u8]]) -> Verdict {
    let mut assembler = Assembler::new(feed);
    let mut left = row.command.len();
    for (at, piece) in pieces.iter().enumerate() {
        let is_last = left > 0 && piece.len() == left;
        left -= piece.len();
        if is_last {
            let outcome = assembler.feed(piece, &row.target)?;
            let fed = (outcome.fed.number, outcome.fed.taken);
            ensure(fed == (row.number, piece.len()), "another answer", &outcome)?;
        } else {
            assembler.feed_more(piece, &bad_targets()[(at + left) % 4])?;
        }
    }
    Ok(())
}

/// The end of the command and the beginning of another in one piece.
fn feed_with_next(feed: Feed, row: &Row, at: usize) -> Verdict {
    let mut assembler = Assembler::new(feed);
    let (before, rest) = row.command.split_at(at);
    assembler.feed_more(before, &bad_targets()[at % 4])?;
    let outcome = assembler.feed(&[rest, b"*1\r\n$0\r\n\r\n*"].concat(), &row.target)?;
    ensure(outcome.fed.taken == rest.len(), "the next command is taken", &outcome)
}

/// Every two places of a command of so many bytes, or of a long one some.
fn places(rng: &mut Rng, len: usize) -> Vec<(usize, usize)> {
    if len < LONG {
        return (0..=len)
            .flat_map(|first| (first..=len).map(move |second| (first, second)))
            .collect();
    }
    let mut sample = || {
        let second = rng.between(0, len);
        (rng.between(0, second), second)
    };
    (0..SAMPLES).map(|_| sample()).collect()
}

fn check_row(feed: Feed, row: &Row, rng: &mut Rng) -> Verdict {
    let command = &row.command;
    for at in 0..=command.len() {
        feed_pieces(feed, row, &[&command[..at], &command[at..]])?;
    }
    for at in 0..command.len() {
        feed_with_next(feed, row, at)?;
    }
    for (first, second) in places(rng, command.len()) {
        feed_pieces(feed, row, &cut(command, first, second))?;
    }
    let bytes: Vec<&[u8]> = command.chunks(1).collect();
    feed_pieces(feed, row, &bytes)
}

pub fn check(feed: Feed) -> Verdict {
    let mut rng = Rng::new(1);
    rows().iter().try_for_each(|row| check_row(feed, row, &mut rng))
}

#[test]
fn every_cut_gets_the_answer_of_the_undivided_call() {
    check(difftest::feed::library).unwrap();
    let numbers: BTreeSet<u32> = rows().iter().map(|row| row.number).collect();
    assert!(numbers.into_iter().eq((0..=17).filter(|number| *number != 4)));
}
