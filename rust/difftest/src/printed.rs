//! A reply that the wrapper has taken apart, told as bytes again.

use crate::resp::{decode, encode_word};
use pietrunel::Reply;

/// The reply of a command, taken apart as that command's.
pub fn parse<'r>(command: &[u8], reply: &'r [u8]) -> Reply<'r> {
    match is_bitfield(command) {
        true => Reply::parse_bitfield(reply),
        false => Reply::parse(reply),
    }
}

fn is_bitfield(command: &[u8]) -> bool {
    decode(command).is_some_and(|words| words[0].eq_ignore_ascii_case(b"BITFIELD"))
}

/// The bytes of the reply in RESP2.
pub fn bytes(reply: &Reply) -> Vec<u8> {
    match reply {
        Reply::Ok => simple("OK"),
        Reply::Nil => b"$-1\r\n".to_vec(),
        Reply::Integer(number) => integer(number),
        Reply::Value { value, version, flags: None } => {
            array(&[encode_word(value), integer(version)])
        }
        Reply::Value { value, version, flags: Some(flags) } => {
            array(&[encode_word(value), integer(version), integer(flags)])
        }
        Reply::Counted { sum, version } => array(&[integer(sum), integer(version)]),
        Reply::Swapped { version } => array(&[simple("OK"), simple(""), integer(version)]),
        Reply::Stale { value, version } => {
            array(&[simple("ERR update version is stale"), encode_word(value), integer(version)])
        }
        Reply::Fields(answers) => {
            let item = |answer: &Option<i64>| answer.map_or(b"$-1\r\n".to_vec(), integer);
            array(&answers.iter().map(item).collect::<Vec<_>>())
        }
        Reply::Error(text) => [b"-", *text, b"\r\n"].concat(),
        Reply::Other(bytes) => bytes.to_vec(),
        later => panic!("{later:?}"),
    }
}

fn simple(text: &str) -> Vec<u8> {
    format!("+{text}\r\n").into()
}

fn integer(number: impl ToString) -> Vec<u8> {
    format!(":{}\r\n", number.to_string()).into()
}

fn array(items: &[Vec<u8>]) -> Vec<u8> {
    [format!("*{}\r\n", items.len()).into_bytes(), items.concat()].concat()
}
