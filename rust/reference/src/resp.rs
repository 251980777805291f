//! RESP2: a command as an array of bulk strings, and the replies.

use crate::number::read_short;

/// The longest command.
pub const COMMAND_LIMIT: usize = 512;

/// The most words of a command.
pub const WORD_LIMIT: usize = 16;

/// The words of a command: 1 to 16 bulk strings, and nothing after the last.
pub fn decode(command: &[u8]) -> Option<Vec<&[u8]>> {
    if command.len() > COMMAND_LIMIT {
        return None;
    }
    let (count, mut rest) = read_line(b'*', command)?;
    if !(1..=WORD_LIMIT).contains(&count) {
        return None;
    }
    let mut words = Vec::new();
    for _ in 0..count {
        let (word, after) = read_bulk(rest)?;
        words.push(word);
        rest = after;
    }
    rest.is_empty().then_some(words)
}

/// A bulk string, and the bytes after it.
fn read_bulk(bytes: &[u8]) -> Option<(&[u8], &[u8])> {
    let (length, rest) = read_line(b'$', bytes)?;
    let (word, rest) = rest.split_at_checked(length)?;
    Some((word, rest.strip_prefix(b"\r\n")?))
}

/// A line of a mark, a number in decimal without extra zeros, and CR LF; the
/// number, and the bytes after the line.
fn read_line(mark: u8, bytes: &[u8]) -> Option<(usize, &[u8])> {
    let rest = bytes.strip_prefix(&[mark])?;
    let digits = rest.iter().take_while(|byte| byte.is_ascii_digit()).count();
    let (number, rest) = rest.split_at(digits);
    Some((read_short(number)? as usize, rest.strip_prefix(b"\r\n")?))
}

/// A line of a mark and a number.
pub fn line(mark: char, number: usize) -> Vec<u8> {
    format!("{mark}{number}\r\n").into_bytes()
}

/// A bulk string: its length, its bytes, CR LF.
pub fn bulk_bytes(bytes: &[u8]) -> Vec<u8> {
    [&line('$', bytes.len()), bytes, b"\r\n"].concat()
}

/// A reply.
#[derive(Debug)]
pub enum Reply {
    Simple(&'static str),
    Error(String),
    Integer(i64),
    Bulk(Vec<u8>),
    Nil,
    Array(Vec<Reply>),
}

pub fn reply_bytes(reply: &Reply) -> Vec<u8> {
    match reply {
        Reply::Simple(text) => format!("+{text}\r\n").into_bytes(),
        Reply::Error(text) => format!("-{text}\r\n").into_bytes(),
        Reply::Integer(number) => format!(":{number}\r\n").into_bytes(),
        Reply::Bulk(bytes) => bulk_bytes(bytes),
        Reply::Nil => b"$-1\r\n".to_vec(),
        Reply::Array(items) => {
            let items: Vec<Vec<u8>> = items.iter().map(reply_bytes).collect();
            [line('*', items.len()), items.concat()].concat()
        }
    }
}

#[cfg(test)]
mod tests {
    use super::*;

    #[test]
    fn takes_words_apart() {
        assert_eq!(decode(b"*1\r\n$0\r\n\r\n"), Some(vec![&b""[..]]));
        assert_eq!(
            decode(b"*2\r\n$5\r\nEXGET\r\n$4\r\n\r\n\r\n\r\n"),
            Some(vec![&b"EXGET"[..], &b"\r\n\r\n"[..]])
        );
        let long = [&b"*1\r\n$123\r\n"[..], &[b'x'; 123], b"\r\n"].concat();
        assert_eq!(decode(&long), Some(vec![&[b'x'; 123][..]]));
    }

    #[test]
    fn takes_one_to_sixteen_words() {
        for count in 0..=17 {
            let mut command = format!("*{count}\r\n").into_bytes();
            command.extend(b"$1\r\na\r\n".repeat(count));
            assert_eq!(decode(&command).is_some(), (1..=16).contains(&count), "{count}");
        }
    }

    #[test]
    fn takes_at_most_512_bytes() {
        for len in 500..=503 {
            let mut command = format!("*1\r\n${len}\r\n").into_bytes();
            command.extend(vec![b'x'; len]);
            command.extend(b"\r\n");
            assert_eq!(decode(&command).is_some(), command.len() <= 512);
        }
    }

    #[test]
    fn refuses_every_cut_and_every_addition() {
        let command = b"*2\r\n$5\r\nEXGET\r\n$12\r\nabcdefghijkl\r\n";
        assert!(decode(command).is_some());
        for len in 0..command.len() {
            assert_eq!(decode(&command[..len]), None, "{len}");
        }
        for byte in 0..=255 {
            assert_eq!(decode(&[&command[..], &[byte]].concat()), None);
        }
    }

    #[test]
    fn refuses_other_lengths() {
        for length in [
            "", "-1", "+1", "01", "001", "+01", "-0", "+0", "00", "00000000000000000001", "1 ",
            " 1", "1a", "2", "0", "1\r", "18446744073709551617", "4294967297", "65537", "257",
            "1000",
        ] {
            let command = format!("*1\r\n${length}\r\na\r\n");
            assert_eq!(decode(command.as_bytes()), None, "{length:?}");
            let command = format!("*{length}\r\n$1\r\na\r\n");
            assert_eq!(decode(command.as_bytes()), None, "{length:?}");
        }
        for length in ["-0", "+0", "00"] {
            let command = format!("*1\r\n${length}\r\n\r\n");
            assert_eq!(decode(command.as_bytes()), None, "{length:?}");
        }
    }

    #[test]
    fn refuses_other_line_ends_and_types() {
        let command = b"*1\r\n$3\r\nabc\r\n";
        assert!(decode(command).is_some());
        for at in [0, 2, 3, 4, 6, 7, 11, 12] {
            for byte in 0..=255 {
                let mut other = *command;
                other[at] = byte;
                assert_eq!(decode(&other).is_some(), byte == command[at]);
            }
        }
    }
}
