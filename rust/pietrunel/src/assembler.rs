//! Commands that arrive in pieces.

use crate::{feed, Answer, MAX_COMMAND};
use core::fmt::{self, Debug, Formatter};

/// Takes the bytes of a line as they arrive, holds those of a command that is not whole yet, and
/// applies each command once it is whole.
///
/// A command may be cut anywhere, and a piece may have no byte, or the end of one command and the
/// beginning of the next:
///
/// ```
/// use pietrunel::{Answer, Assembler, Progress};
///
/// let mut table = [0; 4 * pietrunel::RECORD_SIZE];
/// let mut reply = [0; pietrunel::REPLY_ROOM];
/// let mut assembler = Assembler::new();
///
/// let piece = b"*3\r\n$5\r\nEXSET\r\n$7\r\nuni";
/// assert_eq!(assembler.feed(piece, &mut table, 1000, &mut reply), Progress::More);
/// assert_eq!(assembler.held(), piece);
///
/// let piece = b"t-17\r\n$4\r\n3.1V\r\n*2\r\n";
/// let progress = assembler.feed(piece, &mut table, 1000, &mut reply);
/// assert_eq!(progress, Progress::Answer { taken: 16, answer: Answer::Reply(b"+OK\r\n") });
/// assert_eq!(assembler.held(), b"");
///
/// // The bytes that were not taken begin the next command.
/// assert_eq!(assembler.feed(&piece[16..], &mut table, 1000, &mut reply), Progress::More);
/// ```
#[derive(Clone)]
pub struct Assembler {
    bytes: [u8; MAX_COMMAND],
    len: usize,
}

impl Assembler {
    /// An assembler that holds no bytes.
    pub const fn new() -> Assembler {
        Assembler { bytes: [0; MAX_COMMAND], len: 0 }
    }

    /// The bytes held: those of the command that is not whole yet, at most 511.
    pub fn held(&self) -> &[u8] {
        &self.bytes[..self.len]
    }

    /// Drops the bytes held, so that the next byte begins a command.
    pub fn clear(&mut self) {
        self.len = 0;
    }

    /// Takes the bytes of a piece up to the end of a command, and applies the command if there is
    /// one; see [`feed`].
    pub fn feed<'r>(
        &mut self,
        piece: &[u8],
        table: &mut [u8],
        time_ms: u64,
        reply: &'r mut [u8],
    ) -> Progress<'r> {
        feed(&mut self.bytes, &mut self.len, piece, table, time_ms, reply)
    }

    /// Takes a whole piece and hands on the answer to each command that ends in it.
    ///
    /// A malformed command ends at the first byte after which none can follow, and the byte after it
    /// begins another. So behind a fault on the line many bytes may be refused, each by itself.
    ///
    /// ```
    /// use pietrunel::Assembler;
    ///
    /// let mut table = [0; 4 * pietrunel::RECORD_SIZE];
    /// let mut reply = [0; pietrunel::REPLY_ROOM];
    /// let mut assembler = Assembler::new();
    /// let mut numbers = Vec::new();
    /// for piece in ["*2\r\n$5\r\nEXG", "", "ET\r\n$1\r\nk\r\n*17\r\n*1\r\n", "$0\r\n\r", "\n"] {
    ///     assembler.feed_all(piece.as_bytes(), &mut table, 1000, &mut reply, |answer| {
    ///         numbers.push(answer.number());
    ///     });
    /// }
    /// // EXGET is answered, *17 is refused, and so are CR and LF behind it; the last has no name.
    /// assert_eq!(numbers, [0, 4, 4, 4, 5]);
    /// ```
    pub fn feed_all(
        &mut self,
        mut piece: &[u8],
        table: &mut [u8],
        time_ms: u64,
        reply: &mut [u8],
        mut answered: impl FnMut(Answer),
    ) {
        while let Progress::Answer { taken, answer } = self.feed(piece, table, time_ms, reply) {
            answered(answer);
            piece = &piece[taken..];
        }
    }
}

impl Default for Assembler {
    fn default() -> Assembler {
        Assembler::new()
    }
}

impl Debug for Assembler {
    fn fmt(&self, f: &mut Formatter) -> fmt::Result {
        write!(f, "Assembler {{ held: \"{}\" }}", self.held().escape_ascii())
    }
}

/// What became of a piece.
#[derive(Clone, Copy, Debug, PartialEq, Eq)]
pub enum Progress<'r> {
    /// The command is not whole yet. The whole piece is taken and held; table and reply buffer are
    /// untouched.
    More,
    /// The command is at its end, whole or malformed, and nothing is held any more. So many bytes of
    /// the piece were taken; those after them begin the next command.
    Answer { taken: usize, answer: Answer<'r> },
}

/// The number that stands for more.
const MORE: u32 = 100;

impl<'r> Progress<'r> {
    /// What the number says of a piece of so many bytes.
    pub(crate) fn new(
        number: u32,
        piece_len: usize,
        taken: usize,
        reply: &'r [u8],
    ) -> Progress<'r> {
        if number != MORE {
            return Progress::Answer { taken, answer: Answer::new(number, reply) };
        }
        assert_eq!((taken, reply.len()), (piece_len, 0), "more takes the whole piece");
        Progress::More
    }

    /// The number that the library gave back: 100 for more, or that of the answer.
    pub fn number(self) -> u32 {
        match self {
            Progress::More => MORE,
            Progress::Answer { answer, .. } => answer.number(),
        }
    }
}
