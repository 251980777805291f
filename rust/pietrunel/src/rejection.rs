//! Numbers 1 to 4 and 18, which come without a reply.

use core::fmt::{self, Display, Formatter};

/// Why a call is refused without a reply: numbers 1 to 4, tested in this order. 18 is tested within 1,
/// before equal keys.
#[derive(Clone, Copy, Debug, PartialEq, Eq)]
#[non_exhaustive]
pub enum Rejection {
    /// 1: the table's length or a record breaks the layout's rules, or two records of it, in a shared
    /// call two of one part, have equal keys.
    DamagedTable,
    /// 2: the time is above 2^62.
    TimeOutOfRange,
    /// 3: the reply buffer is shorter than 128 bytes.
    ShortReplyBuffer,
    /// 4: the command is no RESP2 array of 1 to 16 bulk strings in at most 512 bytes.
    MalformedCommand,
    /// 18: the boundary of a shared call is 0, or not below the number of records.
    BadBoundary,
    /// A number above 18, of a later library.
    Other(u32),
}

impl Rejection {
    /// The rejection with this number, which is not 0 nor an error's.
    pub(crate) fn of_number(number: u32) -> Rejection {
        match number {
            1 => Rejection::DamagedTable,
            2 => Rejection::TimeOutOfRange,
            3 => Rejection::ShortReplyBuffer,
            4 => Rejection::MalformedCommand,
            18 => Rejection::BadBoundary,
            _ => Rejection::Other(number),
        }
    }

    /// The number that the library gives back for it.
    pub fn number(self) -> u32 {
        match self {
            Rejection::DamagedTable => 1,
            Rejection::TimeOutOfRange => 2,
            Rejection::ShortReplyBuffer => 3,
            Rejection::MalformedCommand => 4,
            Rejection::BadBoundary => 18,
            Rejection::Other(number) => number,
        }
    }
}

impl Display for Rejection {
    fn fmt(&self, f: &mut Formatter) -> fmt::Result {
        f.write_str(match self {
            Rejection::DamagedTable => "the table's length or a record breaks the layout's rules",
            Rejection::TimeOutOfRange => "the time is above 2^62",
            Rejection::ShortReplyBuffer => "the reply buffer is shorter than 128 bytes",
            Rejection::MalformedCommand => {
                "not a command: 1 to 16 words in at most 512 bytes of RESP2"
            }
            Rejection::BadBoundary => "the boundary is 0, or not below the number of records",
            Rejection::Other(number) => return write!(f, "refused with number {number}"),
        })
    }
}

impl core::error::Error for Rejection {}
