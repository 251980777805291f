//! A reply taken apart.

use crate::resp::{Item, Reader};
use crate::Fields;

/// A reply of the store. Values are parts of the reply buffer.
///
/// ```
/// use pietrunel::Reply;
///
/// assert_eq!(Reply::parse(b"+OK\r\n"), Reply::Ok);
/// assert_eq!(
///     Reply::parse(b"*2\r\n$4\r\n3.1V\r\n:7\r\n"),
///     Reply::Value { value: b"3.1V", version: 7, flags: None }
/// );
/// ```
#[derive(Clone, Copy, Debug, PartialEq, Eq)]
#[non_exhaustive]
pub enum Reply<'r> {
    /// EXSET stored its value.
    Ok,
    /// The key of an EXGET or EXGAE is absent, or NX or XX kept a command from writing.
    Nil,
    /// EXINCRBY: the sum. EXAPPEND, EXPREPEND and EXSET WITHVERSION: the new version. EXSETVER,
    /// EXCAD and DEL: 1 for done. On an absent key EXSETVER and DEL give 0, EXCAS and EXCAD -1; under
    /// another version EXCAD gives 0.
    Integer(i64),
    /// EXGET: the record; with WITHFLAGS, and of EXGAE, also its flags.
    Value { value: &'r [u8], version: u64, flags: Option<u32> },
    /// EXINCRBY WITHVERSION: the sum and the new version.
    Counted { sum: i64, version: u64 },
    /// EXCAS stored its value; the new version.
    Swapped { version: u64 },
    /// EXCAS stored nothing, since the record has another version; the record.
    Stale { value: &'r [u8], version: u64 },
    /// BITFIELD: the answers of its subcommands.
    Fields(Fields),
    /// An error reply: its text after the minus sign.
    Error(&'r [u8]),
    /// Bytes in none of these forms, perhaps of a later library.
    Other(&'r [u8]),
}

/// How a stale answer of EXCAS begins.
const STALE: &[u8] = b"ERR update version is stale";

impl<'r> Reply<'r> {
    /// Takes the bytes of one whole reply apart, of any command but BITFIELD: two numbers are
    /// those of EXINCRBY WITHVERSION here.
    pub fn parse(bytes: &'r [u8]) -> Reply<'r> {
        read(bytes).unwrap_or(Reply::Other(bytes))
    }

    /// Takes the bytes of one whole reply of a BITFIELD apart. [`Command::call`] does so by itself.
    ///
    /// ```
    /// use pietrunel::Reply;
    ///
    /// let bytes = b"*2\r\n:3\r\n:4\r\n";
    /// assert_eq!(Reply::parse(bytes), Reply::Counted { sum: 3, version: 4 });
    /// let Reply::Fields(answers) = Reply::parse_bitfield(bytes) else { panic!() };
    /// assert_eq!(*answers, [Some(3), Some(4)]);
    /// ```
    ///
    /// [`Command::call`]: crate::Command::call
    pub fn parse_bitfield(bytes: &'r [u8]) -> Reply<'r> {
        read_bitfield(bytes).unwrap_or(Reply::Other(bytes))
    }
}

fn read_bitfield(bytes: &[u8]) -> Option<Reply<'_>> {
    let mut items = Reader { rest: bytes };
    let reply = match items.item()? {
        Item::Array(count) => Reply::Fields(Fields::read(&mut items, count)?),
        Item::Error(text) => Reply::Error(text),
        _ => return None,
    };
    items.rest.is_empty().then_some(reply)
}

fn read(bytes: &[u8]) -> Option<Reply<'_>> {
    let mut items = Reader { rest: bytes };
    let reply = match items.item()? {
        Item::Array(2) => pair(items.item()?, items.item()?),
        Item::Array(3) => triple(items.item()?, items.item()?, items.item()?),
        item => single(item),
    };
    reply.filter(|_| items.rest.is_empty())
}

fn single(item: Item<'_>) -> Option<Reply<'_>> {
    Some(match item {
        Item::Simple(b"OK") => Reply::Ok,
        Item::Nil => Reply::Nil,
        Item::Integer(number) => Reply::Integer(number),
        Item::Error(text) => Reply::Error(text),
        _ => return None,
    })
}

fn pair<'r>(first: Item<'r>, last: Item<'r>) -> Option<Reply<'r>> {
    let version = natural(last)?;
    Some(match first {
        Item::Bulk(value) => Reply::Value { value, version, flags: None },
        Item::Integer(sum) => Reply::Counted { sum, version },
        _ => return None,
    })
}

fn triple<'r>(first: Item<'r>, second: Item<'r>, last: Item<'r>) -> Option<Reply<'r>> {
    let number = natural(last)?;
    Some(match (first, second) {
        (Item::Simple(b"OK"), Item::Simple(b"")) => Reply::Swapped { version: number },
        (Item::Simple(STALE), Item::Bulk(value)) => Reply::Stale { value, version: number },
        (Item::Bulk(value), version) => {
            let flags = Some(u32::try_from(number).ok()?);
            Reply::Value { value, version: natural(version)?, flags }
        }
        _ => return None,
    })
}

fn natural(item: Item<'_>) -> Option<u64> {
    match item {
        Item::Integer(number) => number.try_into().ok(),
        _ => None,
    }
}
