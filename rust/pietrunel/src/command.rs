//! A command made of words.

use crate::decimal::Decimal;
use crate::{call, ffi, shared_call, Answer, Party, Refusal, Reply, MAX_COMMAND, MAX_WORDS};
use core::fmt::{self, Display, Formatter};
use core::ops::Deref;

/// A command: its name and the words after it.
///
/// The count of the words comes first in RESP2, so they are kept until [`encode`](Command::encode)
/// or [`call`](Command::call). That is where too many words, or too long ones, are told.
///
/// ```
/// use pietrunel::Command;
///
/// let get = Command::new("EXGET").arg(b"foo");
/// assert_eq!(*get.encode().unwrap(), *b"*2\r\n$5\r\nEXGET\r\n$3\r\nfoo\r\n");
///
/// let long = [b'x'; 600];
/// assert!(Command::new("EXGET").arg(&long).encode().is_err());
/// ```
#[derive(Clone, Copy, Debug)]
pub struct Command<'a> {
    words: [Word<'a>; MAX_WORDS],
    /// How many words were given, perhaps more than there is room for.
    count: usize,
}

#[derive(Clone, Copy, Debug)]
enum Word<'a> {
    Bytes(&'a [u8]),
    Number(i128),
}

impl<'a> Command<'a> {
    /// A command of this name and no other words.
    pub fn new(name: &'a (impl AsRef<[u8]> + ?Sized)) -> Command<'a> {
        Command { words: [Word::Bytes(b""); MAX_WORDS], count: 0 }.arg(name)
    }

    /// The command with one more word: any bytes or text.
    pub fn arg(self, word: &'a (impl AsRef<[u8]> + ?Sized)) -> Command<'a> {
        self.with(Word::Bytes(word.as_ref()))
    }

    /// The command with one more word: a number as decimal text.
    pub fn number(self, number: impl Into<i128>) -> Command<'a> {
        self.with(Word::Number(number.into()))
    }

    fn with(mut self, word: Word<'a>) -> Command<'a> {
        if let Some(place) = self.words.get_mut(self.count) {
            *place = word;
        }
        self.count = self.count.saturating_add(1);
        self
    }

    /// The command's bytes in RESP2, made by the library.
    pub fn encode(&self) -> Result<Encoded, CommandTooLong> {
        let mut bytes = [0; MAX_COMMAND];
        let mut len = ffi::begin_command(&mut bytes, self.count);
        for word in self.words.iter().take(self.count) {
            // Once it is 0, for a refusal, it stays 0.
            len = match word {
                Word::Bytes(word) => ffi::add_word(&mut bytes, len, word),
                Word::Number(number) => ffi::add_word(&mut bytes, len, &Decimal::new(*number)),
            };
        }
        match len {
            0 => Err(CommandTooLong),
            len => Ok(Encoded { bytes, len }),
        }
    }

    /// Applies the command to a table, at a time in milliseconds, and takes its reply apart.
    ///
    /// ```
    /// use pietrunel::{Command, Error, Refusal, Reply};
    ///
    /// let mut table = [0; pietrunel::RECORD_SIZE];
    /// let mut room = [0; pietrunel::REPLY_ROOM];
    /// let add = Command::new("EXINCRBY").arg("foo").number(-5);
    /// assert_eq!(add.call(&mut table, 1000, &mut room), Ok(Reply::Integer(-5)));
    ///
    /// // NONEGATIVE makes 0 of a sum below 0, and MIN is tested after that.
    /// let drain = Command::new("EXINCRBY").arg("foo").number(-10);
    /// let drain = drain.arg("NONEGATIVE").arg("MIN").number(0);
    /// assert_eq!(drain.call(&mut table, 1000, &mut room), Ok(Reply::Integer(0)));
    ///
    /// let other = Command::new("EXSET").arg("bar").arg("x");
    /// let refused = other.call(&mut table, 1000, &mut room);
    /// assert_eq!(refused, Err(Refusal::Error(Error::TableFull)));
    /// assert_eq!(refused.unwrap_err().to_string(), "table is full");
    /// ```
    pub fn call<'r>(
        &self,
        table: &mut [u8],
        time_ms: u64,
        reply: &'r mut [u8],
    ) -> Result<Reply<'r>, Refusal> {
        self.parse(call(table, time_ms, &self.encode()?, reply))
    }

    /// Applies the command to a party's part of a table that is shared at a boundary, and takes its
    /// reply apart; see [`shared_call`]. [`Party`] has an example.
    pub fn shared_call<'r>(
        &self,
        party: Party,
        boundary: usize,
        table: &mut [u8],
        time_ms: u64,
        reply: &'r mut [u8],
    ) -> Result<Reply<'r>, Refusal> {
        self.parse(shared_call(party, boundary, table, time_ms, &self.encode()?, reply))
    }

    /// The reply to this command, taken apart.
    fn parse<'r>(&self, answer: Answer<'r>) -> Result<Reply<'r>, Refusal> {
        answer.result_by(if self.is_bitfield() { Reply::parse_bitfield } else { Reply::parse })
    }

    fn is_bitfield(&self) -> bool {
        matches!(self.words[0], Word::Bytes(name) if name.eq_ignore_ascii_case(b"BITFIELD"))
    }
}

/// A command in RESP2: a slice of at most 512 bytes.
#[derive(Clone, Copy, Debug)]
pub struct Encoded {
    bytes: [u8; MAX_COMMAND],
    len: usize,
}

impl Deref for Encoded {
    type Target = [u8];

    fn deref(&self) -> &[u8] {
        &self.bytes[..self.len]
    }
}

/// The words make no command: they are more than 16, or more than 512 bytes in RESP2.
#[derive(Clone, Copy, Debug, PartialEq, Eq)]
pub struct CommandTooLong;

impl Display for CommandTooLong {
    fn fmt(&self, f: &mut Formatter) -> fmt::Result {
        f.write_str("a command has at most 16 words and 512 bytes of RESP2")
    }
}

impl core::error::Error for CommandTooLong {}
