//! What a call answers: a reply, an error reply, or nothing at all.

use crate::{Error, Refusal, Rejection, Reply};

/// The answer of a call. Bytes of the reply buffer past the reply keep what they held.
#[derive(Clone, Copy, Debug, PartialEq, Eq)]
pub enum Answer<'r> {
    /// The command was carried out; this is its reply.
    Reply(&'r [u8]),
    /// The command was refused with this error reply; the table is untouched.
    Error(Error, &'r [u8]),
    /// The call was refused; table and reply buffer are untouched.
    Rejected(Rejection),
}

impl<'r> Answer<'r> {
    pub(crate) fn new(number: u32, reply: &'r [u8]) -> Answer<'r> {
        match (number, Error::of_number(number)) {
            (0, _) => Answer::Reply(reply),
            (_, Some(error)) => Answer::Error(error, reply),
            (_, None) => {
                assert!(reply.is_empty(), "the library gives no reply with number {number}");
                Answer::Rejected(Rejection::of_number(number))
            }
        }
    }

    /// The number that the library gave back: 0, or that of the refusal.
    pub fn number(self) -> u32 {
        match self {
            Answer::Reply(_) => 0,
            Answer::Error(error, _) => error.number(),
            Answer::Rejected(rejection) => rejection.number(),
        }
    }

    /// The reply's bytes; none if the call was rejected.
    pub fn reply(self) -> &'r [u8] {
        match self {
            Answer::Reply(reply) | Answer::Error(_, reply) => reply,
            Answer::Rejected(_) => b"",
        }
    }

    /// The reply taken apart, or why there is none. An answer does not tell its command: that of a
    /// BITFIELD is taken apart by [`Reply::parse_bitfield`].
    pub fn result(self) -> Result<Reply<'r>, Refusal> {
        self.result_by(Reply::parse)
    }

    pub(crate) fn result_by(self, parse: fn(&'r [u8]) -> Reply<'r>) -> Result<Reply<'r>, Refusal> {
        match self {
            Answer::Reply(reply) => Ok(parse(reply)),
            Answer::Error(error, _) => Err(Refusal::Error(error)),
            Answer::Rejected(rejection) => Err(Refusal::Rejected(rejection)),
        }
    }
}

#[cfg(test)]
mod tests {
    use super::*;

    #[test]
    fn every_number_comes_back() {
        for number in 0..30 {
            let reply: &[u8] = if number == 0 || (5..=17).contains(&number) { b"r" } else { b"" };
            let answer = Answer::new(number, reply);
            assert_eq!((answer.number(), answer.reply()), (number, reply));
            assert_eq!(matches!(answer, Answer::Error(..)), (5..=17).contains(&number));
            assert_eq!(matches!(answer, Answer::Rejected(_)), reply.is_empty());
        }
    }
}
