//! Commands that are no RESP2 commands, or only just.

use crate::{resp, Rng};

/// The words and one more, so long that the command has 512 or 513 bytes.
pub fn stretch(rng: &mut Rng, mut words: Vec<Vec<u8>>) -> Vec<u8> {
    let total = rng.pick(&[512, 512, 513]);
    words.truncate(15);
    for len in 0..total {
        let mut longer = words.clone();
        longer.push(vec![b'x'; len]);
        let command = resp::encode(&longer);
        if command.len() == total {
            return command;
        }
    }
    // Too long already, or its length's digits skip that size.
    resp::encode(&words)
}

/// What is no command at all.
const FRAGMENTS: &[&str] =
    &["", "*", "$", "*1", "*1\r", "*1\r\n", "*0\r\n", "EXGET foo\r\n", "$-1\r\n", "+OK\r\n"];

/// Breaks the command's form in one of many ways.
pub fn damage(rng: &mut Rng, command: &mut Vec<u8>) {
    match rng.below(14) {
        0 => command.truncate(rng.below(command.len())),
        1 => {
            let extra = rng.pick(&["\r\n", "\0", "x", "$1\r\na\r\n", "*1\r\n$3\r\nDEL\r\n"]);
            command.extend(extra.bytes());
        }
        2 | 3 => wrong_count(rng, command),
        4..=6 => wrong_length(rng, command),
        7 | 8 => wrong_line_end(rng, command),
        9 => wrong_kind(rng, command),
        10 => *command = too_many_words(rng),
        11 => {
            let at = rng.below(command.len());
            command[at] ^= 1 << rng.below(8);
        }
        12 => *command = rng.pick(FRAGMENTS).into(),
        _ => {
            let len = rng.below(600);
            *command = rng.bytes(len);
            if rng.chance(50) {
                command.splice(0..0, *b"*2\r\n$3\r\n");
            }
        }
    }
}

/// The places of the heads: the array's, then each word's, as start and end
/// of the digits after the type byte.
fn heads(command: &[u8]) -> Vec<(usize, usize)> {
    let end_of = |at: usize| command[at..].iter().position(|byte| *byte == b'\r').map(|n| at + n);
    let mut heads = Vec::new();
    let mut at = 0;
    while at < command.len() {
        let Some(end) = end_of(at) else { break };
        heads.push((at + 1, end));
        let word = match command[at] {
            b'$' => digits(&command[at + 1..end]) + 2,
            _ => 0,
        };
        at = end + 2 + word;
    }
    heads
}

fn digits(text: &[u8]) -> usize {
    text.iter().fold(0, |sum, byte| sum * 10 + usize::from(byte - b'0'))
}

fn wrong_count(rng: &mut Rng, command: &mut Vec<u8>) {
    let (start, end) = heads(command)[0];
    let text = other_number(rng, digits(&command[start..end]));
    command.splice(start..end, text.bytes());
}

fn wrong_length(rng: &mut Rng, command: &mut Vec<u8>) {
    let all = heads(command);
    let (start, end) = all[rng.between(1, all.len() - 1)];
    let text = other_number(rng, digits(&command[start..end]));
    command.splice(start..end, text.bytes());
}

/// A text in the place of this number.
fn other_number(rng: &mut Rng, number: usize) -> String {
    let big = |power: u32| ((1u128 << power) + number as u128).to_string();
    match rng.below(18) {
        0 => (number + 1).to_string(),
        1 => number.saturating_sub(1).to_string(),
        // forms that a number word may have
        2 => format!("0{number}"),
        3 => format!("+{number}"),
        4 => format!("-{number}"),
        5 => format!("{number:0>3}"),
        6 => format!("{number:0>20}"),
        7 => "-0".into(),
        8 => "-1".into(),
        9 => "0".into(),
        10 => "".into(),
        11 => rng.pick(&["17", "16", "512", "513", "1000", "99999999999999999999999"]).into(),
        12 => format!("{number} "),
        13 => format!(" {number}"),
        14 => format!("{number}\r"),
        15 => big(32),
        16 => big(64),
        _ => big(rng.pick(&[8, 16])),
    }
}

/// A CR LF that is something else.
fn wrong_line_end(rng: &mut Rng, command: &mut Vec<u8>) {
    let all = heads(command);
    let (start, end) = all[rng.below(all.len())];
    // After the head, or after the word that follows it
    let at = match command[start - 1] {
        b'$' if rng.chance(50) => end + 2 + digits(&command[start..end]),
        _ => end,
    };
    match rng.below(6) {
        0 => command[at] = rng.next_u64() as u8,
        1 => command[at + 1] = rng.next_u64() as u8,
        2 => command.swap(at, at + 1),
        3 => {
            command.remove(at);
        }
        4 => {
            command.remove(at + 1);
        }
        _ => {
            command.splice(at..at + 2, []);
        }
    }
}

/// A type byte that is another.
fn wrong_kind(rng: &mut Rng, command: &mut [u8]) {
    let all = heads(command);
    let (start, _) = all[rng.below(all.len())];
    command[start - 1] = rng.pick(&[b'+', b'-', b':', b'$', b'*', b'%', 0]);
}

fn too_many_words(rng: &mut Rng) -> Vec<u8> {
    let mut words: Vec<Vec<u8>> = vec![b"EXGET".to_vec(), b"foo".to_vec()];
    words.resize(rng.pick(&[16, 17, 17, 18, 32]), b"NX".to_vec());
    resp::encode(&words)
}
