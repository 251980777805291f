//! Numbers 5 to 17, which come with an error reply.

use core::fmt::{self, Display, Formatter};

/// Why a command is refused with an error reply: numbers 5 to 17, tested in this order, but that
/// BITFIELD tests 16 before 15.
///
/// It prints as the text of the error reply after `-ERR `.
#[derive(Clone, Copy, Debug, PartialEq, Eq)]
pub enum Error {
    /// 5: its name is not known.
    UnknownCommand,
    /// 6: it has too few words, or too many for EXSETVER, EXCAD or DEL.
    WordCount,
    /// 7: the key is not 1 to 24 bytes long, or the value over 64.
    TooLong,
    /// 8: an option is wrong; in BITFIELD a subcommand or mode is unknown, or a word is missing.
    Syntax,
    /// 9: a number word is no number in its range; in BITFIELD also a type or an offset is wrong, or a
    /// number for SET does not fit its type.
    NotANumber,
    /// 10: the number of a time word is below 1, or the expiry above 2^62.
    ExpireTime,
    /// 11: MIN is above MAX.
    MinAboveMax,
    /// 12: VER differs from the live record's version.
    StaleVersion,
    /// 13: EXINCRBY on a value that is no number.
    StoredNotANumber,
    /// 14: the sum leaves 64 signed bits, or MIN and MAX. NONEGATIVE comes first: it makes 0 of a
    /// sum below 0, however far below.
    SumOutOfRange,
    /// 15: the version is at its top and would rise.
    VersionAtTop,
    /// 16: the joined value is over 64 bytes; or a field of SET or INCRBY goes past bit 511, even if
    /// nothing would be written.
    JoinedTooLong,
    /// 17: no record is free; in a shared call, of the caller's part.
    TableFull,
}

/// The errors by their numbers, from 5 on, with the texts of their replies.
const ERRORS: [(Error, &str); 13] = [
    (Error::UnknownCommand, "unknown command"),
    (Error::WordCount, "wrong number of arguments"),
    (Error::TooLong, "string exceeds maximum allowed size"),
    (Error::Syntax, "syntax error"),
    (Error::NotANumber, "value is not an integer or out of range"),
    (Error::ExpireTime, "invalid expire time"),
    (Error::MinAboveMax, "min or max is specified, but not valid"),
    (Error::StaleVersion, "update version is stale"),
    (Error::StoredNotANumber, "stored value is not an integer"),
    (Error::SumOutOfRange, "increment or decrement would overflow"),
    (Error::VersionAtTop, "version would overflow"),
    (Error::JoinedTooLong, "string exceeds maximum allowed size"),
    (Error::TableFull, "table is full"),
];

const FIRST_ERROR: u32 = 5;

impl Error {
    /// The error with this number.
    pub(crate) fn of_number(number: u32) -> Option<Error> {
        let at = number.checked_sub(FIRST_ERROR)?;
        ERRORS.get(at as usize).map(|(error, _)| *error)
    }

    /// The number that the library gives back for it.
    pub fn number(self) -> u32 {
        FIRST_ERROR + self as u32
    }
}

impl Display for Error {
    fn fmt(&self, f: &mut Formatter) -> fmt::Result {
        f.write_str(ERRORS[*self as usize].1)
    }
}

impl core::error::Error for Error {}
