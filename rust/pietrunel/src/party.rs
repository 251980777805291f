//! Whose part of a table a call means.

/// Whose part of a table a call means, where two parties share it.
///
/// The call brings a boundary too, which counts records: the owner has the records below it, the
/// installer the rest. Neither finds or changes a record of the other:
///
/// ```
/// use pietrunel::{Command, Error, Party, Refusal, Rejection, Reply};
///
/// // The owner has the first record of three, the installer the other two.
/// let mut table = [0; 3 * pietrunel::RECORD_SIZE];
/// let mut room = [0; pietrunel::REPLY_ROOM];
/// let (boundary, now) = (1, 1_700_000_000_000);
///
/// let set = Command::new("EXSET").arg("unit-17").arg("3.1V").arg("WITHVERSION");
/// for (party, version) in [(Party::Owner, 1), (Party::Installer, 1), (Party::Owner, 2)] {
///     let reply = set.shared_call(party, boundary, &mut table, now, &mut room)?;
///     assert_eq!(reply, Reply::Integer(version));
/// }
///
/// // The owner's part is full, the installer's is not.
/// let other = Command::new("EXSET").arg("unit-18").arg("3.0V");
/// let owners = other.shared_call(Party::Owner, boundary, &mut table, now, &mut room);
/// assert_eq!(owners, Err(Refusal::Error(Error::TableFull)));
/// let installers = other.shared_call(Party::Installer, boundary, &mut table, now, &mut room);
/// assert_eq!(installers, Ok(Reply::Ok));
///
/// // The whole table has two records with equal keys.
/// let refused = set.call(&mut table, now, &mut room);
/// assert_eq!(refused, Err(Refusal::Rejected(Rejection::DamagedTable)));
/// # Ok::<(), Refusal>(())
/// ```
#[derive(Clone, Copy, Debug, PartialEq, Eq)]
pub enum Party {
    /// No party: the whole table. The boundary is not looked at.
    Whole,
    /// The owner, who has the records below the boundary.
    Owner,
    /// The installer, who has the records from the boundary on.
    Installer,
}

impl Party {
    /// The number by which the library knows it.
    pub fn number(self) -> u32 {
        match self {
            Party::Whole => 0,
            Party::Owner => 1,
            Party::Installer => 2,
        }
    }
}
