//! Why a command is not carried out. The table is untouched then.

use crate::{CommandTooLong, Error, Rejection};
use core::fmt::{self, Display, Formatter};

/// Why a [`Command`](crate::Command) is not carried out.
#[derive(Clone, Copy, Debug, PartialEq, Eq)]
pub enum Refusal {
    /// Its words are too many or too long, so the library was not called.
    CommandTooLong,
    /// The call was refused without a reply.
    Rejected(Rejection),
    /// The command was refused with an error reply.
    Error(Error),
}

impl From<CommandTooLong> for Refusal {
    fn from(_: CommandTooLong) -> Refusal {
        Refusal::CommandTooLong
    }
}

impl Display for Refusal {
    fn fmt(&self, f: &mut Formatter) -> fmt::Result {
        match self {
            Refusal::CommandTooLong => CommandTooLong.fmt(f),
            Refusal::Rejected(rejection) => rejection.fmt(f),
            Refusal::Error(error) => error.fmt(f),
        }
    }
}

impl core::error::Error for Refusal {}
