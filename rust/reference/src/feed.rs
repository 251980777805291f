//! A command in pieces, document 02's E5. The papers' holder is an assembler;
//! what it holds between calls is `held`.

use crate::resp::{decode, line, COMMAND_LIMIT, WORD_LIMIT};
use crate::{call, Answer};

/// The number while no command is whole: "more".
pub const MORE: u32 = 100;

/// What a call of `feed` gives back: its number, how many bytes of the piece it
/// took, and how many bytes of the reply buffer are the reply.
#[derive(Clone, Copy, Debug, PartialEq, Eq)]
pub struct Fed {
    pub number: u32,
    pub taken: usize,
    pub len: usize,
}

/// Takes the next bytes of a command. The bytes before them are the first
/// `held_len` of `held`. Table, time and reply buffer count only once the command
/// is whole.
pub fn feed(
    held: &mut [u8],
    held_len: &mut usize,
    piece: &[u8],
    table: &mut [u8],
    time: u64,
    reply: &mut [u8],
) -> Fed {
    let Some(begun) = begun(held, *held_len) else {
        *held_len = 0;
        return Fed { number: 4, taken: 0, len: 0 };
    };
    for taken in 1..=piece.len() {
        let bytes = [&begun, &piece[..taken]].concat();
        if can_go_on(&bytes) {
            continue;
        }
        *held_len = 0;
        if decode(&bytes).is_none() {
            return Fed { number: 4, taken, len: 0 };
        }
        // A command that came in one piece is not copied.
        if !begun.is_empty() {
            held[..bytes.len()].copy_from_slice(&bytes);
        }
        let Answer { number, len } = call(table, time, &bytes, reply);
        return Fed { number, taken, len };
    }
    held[*held_len..][..piece.len()].copy_from_slice(piece);
    *held_len += piece.len();
    Fed { number: MORE, taken: piece.len(), len: 0 }
}

/// The bytes held, if they can have come from `feed`.
fn begun(held: &[u8], held_len: usize) -> Option<Vec<u8>> {
    let bytes = held.get(..held_len).filter(|_| held.len() >= COMMAND_LIMIT)?;
    can_go_on(bytes).then(|| bytes.to_vec())
}

/// Whether these bytes and at least one more can be a whole command.
fn can_go_on(bytes: &[u8]) -> bool {
    let completed = Draft { bytes: bytes.to_vec(), at: 0 }.complete();
    completed.is_some_and(|command| command.len() > bytes.len() && decode(&command).is_some())
}

/// Bytes that are read as a command. Whatever the reader finds missing at their
/// end is put there, so that they become the shortest command that begins with
/// them, if one does.
struct Draft {
    bytes: Vec<u8>,
    at: usize,
}

impl Draft {
    /// None where the bytes that are there do not read as a command.
    fn complete(mut self) -> Option<Vec<u8>> {
        for _ in 0..self.line('*', 1, WORD_LIMIT)? {
            let len = self.line('$', 0, COMMAND_LIMIT)?;
            self.skip(len);
            self.text(b"\r\n")?;
        }
        Some(self.bytes)
    }

    /// A line of a mark and a number, at most so much; the least number where there
    /// is no digit yet. Digits end where the bytes do: one more would ask for more.
    fn line(&mut self, mark: char, least: usize, most: usize) -> Option<usize> {
        let rest = &self.bytes[self.at..];
        if rest.len() < 2 {
            self.text(&line(mark, least))?;
            return Some(least);
        }
        let digits = rest[1..].iter().take_while(|byte| byte.is_ascii_digit()).count();
        let text = std::str::from_utf8(&rest[1..=digits]).ok()?;
        let number = text.parse().ok().filter(|number| *number <= most)?;
        self.text(&line(mark, number))?;
        Some(number)
    }

    /// So many bytes, whatever they are.
    fn skip(&mut self, len: usize) {
        self.at += len;
        if self.bytes.len() < self.at {
            self.bytes.resize(self.at, b'x');
        }
    }

    /// Just this text, or as much of it as is there.
    fn text(&mut self, text: &[u8]) -> Option<()> {
        let rest = &self.bytes[self.at..];
        let common = rest.len().min(text.len());
        if rest[..common] != text[..common] {
            return None;
        }
        self.bytes.extend(&text[common..]);
        self.at += text.len();
        Some(())
    }
}

#[cfg(test)]
mod tests {
    use super::*;
    use crate::resp::bulk_bytes;

    /// Whether one of the two begins with the other.
    fn agree(bytes: &[u8], text: &[u8]) -> bool {
        bytes.starts_with(text) || text.starts_with(bytes)
    }

    fn behind<'a>(bytes: &'a [u8], text: &[u8]) -> &'a [u8] {
        bytes.get(text.len()..).unwrap_or_default()
    }

    /// Whether a whole command of at least one more byte begins with these: looks
    /// through every number of words and every length of each word.
    fn is_beginning(bytes: &[u8]) -> bool {
        decode(bytes).is_none()
            && (1..=16).any(|count| {
                let head = line('*', count);
                agree(bytes, &head) && words_fit(behind(bytes, &head), count, 512 - head.len())
            })
    }

    /// Whether so many words, in at most so many bytes, can begin with these bytes.
    fn words_fit(bytes: &[u8], count: usize, room: usize) -> bool {
        if bytes.is_empty() {
            // The shortest word is $0 CR LF CR LF.
            return 6 * count <= room;
        }
        if count == 0 {
            return false;
        }
        (0..=room).any(|len| {
            let head = line('$', len);
            if !agree(bytes, &head) {
                return false;
            }
            let word = behind(bytes, &head);
            let end = behind(word, &vec![b'x'; len]);
            let size = head.len() + len + 2;
            size <= room
                && agree(end, b"\r\n")
                && words_fit(behind(end, b"\r\n"), count - 1, room - size)
        })
    }

    /// Each beginning, each with one more byte that may matter.
    fn check_beginnings(command: &[u8]) {
        for len in 0..=command.len() {
            let bytes = &command[..len];
            assert_eq!(can_go_on(bytes), is_beginning(bytes), "{}", bytes.escape_ascii());
            for byte in *b"*$\r\n0123456789-+x\0" {
                let bytes = [bytes, &[byte]].concat();
                assert_eq!(can_go_on(&bytes), is_beginning(&bytes), "{}", bytes.escape_ascii());
            }
        }
    }

    fn command(words: &[&[u8]]) -> Vec<u8> {
        let words: Vec<_> = words.iter().map(|word| bulk_bytes(word)).collect();
        [line('*', words.len()), words.concat()].concat()
    }

    #[test]
    fn a_beginning_is_that_of_some_command() {
        check_beginnings(b"*2\r\n$5\r\nEXGET\r\n$12\r\n*1\r\n$3\r\nDEL\r\r\n");
        check_beginnings(&command(&[&b""[..]; 16]));
        check_beginnings(&command(&[b"EXSET", b"\r\n", b"", b"$0\r\n\r\n", b"*"]));
        for len in [499, 500, 501] {
            check_beginnings(&command(&[&vec![b'x'; len]]));
        }
        for len in [399, 400, 401] {
            let words = [&vec![b'x'; len][..], &[b'y'; 80], b"", b"z"];
            check_beginnings(&command(&words));
        }
        for head in
            ["*1\r\n$50", "*16\r\n$40", "*16\r\n$41", "*9\r\n$45", "*10\r\n$44", "*4294967297"]
        {
            check_beginnings(head.as_bytes());
        }
    }

    fn feed_to(held: &mut [u8], held_len: &mut usize, piece: &[u8]) -> Fed {
        let (mut table, mut reply) = ([0; 128], [7; 128]);
        feed(held, held_len, piece, &mut table, 0, &mut reply)
    }

    #[test]
    fn what_comes_after_a_command_stays() {
        let (mut held, mut held_len) = ([7; 600], 0);
        let all = b"*1\r\n$1\r\na\r\n*1\r\n";
        let whole = feed_to(&mut held, &mut held_len, all);
        assert_eq!((whole.number, whole.taken, held_len), (5, 11, 0));
        assert_eq!(held, [7; 600]);
        let begun = feed_to(&mut held, &mut held_len, &all[11..]);
        assert_eq!(begun, Fed { number: MORE, taken: 4, len: 0 });
        assert_eq!((held_len, &held[..5]), (4, &b"*1\r\n\x07"[..]));
        let ended = feed_to(&mut held, &mut held_len, b"$1\r\nb\r\nc");
        assert_eq!((ended.number, ended.taken, held_len), (5, 7, 0));
        assert_eq!(&held[..12], b"*1\r\n$1\r\nb\r\n\x07");
    }

    #[test]
    fn the_byte_after_which_no_command_can_follow_is_taken() {
        for (text, taken) in [
            ("+OK\r\n", 1),
            ("*0\r\n", 2),
            ("*17\r\n", 3),
            ("*1\r\n$01\r\n", 7),
            ("*1\r\n$501\r\n", 8),
            ("*1\r\n$500\r\r", 10),
            ("*16\r\n$410\r\n", 9),
            ("*1\r\n$1\r\nab", 10),
        ] {
            let (mut held, mut held_len) = ([7; 512], 0);
            let fed = feed_to(&mut held, &mut held_len, text.as_bytes());
            assert_eq!(fed, Fed { number: 4, taken, len: 0 }, "{text:?}");
            assert_eq!((held, held_len), ([7; 512], 0));
        }
    }

    #[test]
    fn held_bytes_begin_a_command() {
        let mut short = [7; 511];
        let impossible = Fed { number: 4, taken: 0, len: 0 };
        assert_eq!(feed_to(&mut short, &mut 0, b"*"), impossible);
        for (text, len) in [("*0", 2), ("*1\r\n$0\r\n\r\n", 10), ("*1", 513), ("*1", usize::MAX)] {
            let (mut held, mut held_len) = ([7; 512], len);
            held[..text.len()].copy_from_slice(text.as_bytes());
            assert_eq!(feed_to(&mut held, &mut held_len, b""), impossible, "{text:?}");
            assert_eq!(held_len, 0);
        }
    }
}
