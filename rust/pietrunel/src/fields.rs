//! The answers of a BITFIELD.

use crate::resp::{Item, Reader};
use crate::MAX_FIELDS;
use core::ops::Deref;

/// The answers of a BITFIELD's subcommands, in their order: a slice of at most four.
///
/// GET answers the number of its field, SET the number that was there before, INCRBY the sum.
/// `None` stands for nil: an INCRBY under OVERFLOW FAIL whose sum does not fit.
///
/// ```
/// use pietrunel::{Command, Refusal, Reply};
///
/// let mut table = [0; pietrunel::RECORD_SIZE];
/// let mut room = [0; pietrunel::REPLY_ROOM];
///
/// // Fault 3 of a unit, which was not set; bit 3 of eight is worth 16.
/// let set = Command::new("BITFIELD").arg("faults").arg("SET").arg("u1").arg("#3").number(1);
/// let set = set.arg("GET").arg("u8").number(0);
/// let Reply::Fields(answers) = set.call(&mut table, 1000, &mut room)? else {
///     panic!("BITFIELD answers with fields");
/// };
/// assert_eq!(*answers, [Some(0), Some(16)]);
///
/// // A counter of four bits behind them, which goes to 15: by 16 it does not count.
/// let count = Command::new("BITFIELD").arg("faults").arg("OVERFLOW").arg("FAIL");
/// let count = count.arg("INCRBY").arg("u4").number(8).number(16);
/// let Reply::Fields(answers) = count.call(&mut table, 1000, &mut room)? else {
///     panic!("BITFIELD answers with fields");
/// };
/// assert_eq!(*answers, [None]);
/// # Ok::<(), Refusal>(())
/// ```
#[derive(Clone, Copy, Debug, PartialEq, Eq)]
pub struct Fields {
    answers: [Option<i64>; MAX_FIELDS],
    len: usize,
}

impl Fields {
    /// The answers that follow the head of an array of so many.
    pub(crate) fn read(items: &mut Reader, count: i64) -> Option<Fields> {
        let len = usize::try_from(count).ok().filter(|len| *len <= MAX_FIELDS)?;
        let mut answers = [None; MAX_FIELDS];
        for answer in &mut answers[..len] {
            *answer = match items.item()? {
                Item::Integer(number) => Some(number),
                Item::Nil => None,
                _ => return None,
            };
        }
        Some(Fields { answers, len })
    }
}

impl Deref for Fields {
    type Target = [Option<i64>];

    fn deref(&self) -> &[Option<i64>] {
        &self.answers[..self.len]
    }
}
