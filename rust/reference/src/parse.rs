//! The words of a command as a command, or the number of its refusal, 5 to 11.

use crate::checked::{check, given, Checked};
use crate::command::{look, Action, Command, End, Increment, Join, Name, Set, Swap, NAMES};
use crate::number::{read_signed, read_version};
use crate::options::{options_in, said_in, Said};
use crate::subcommands::{read_subcommands, subcommands_in, Subcommand};
use crate::table::{KEY_LIMIT, VALUE_LIMIT};

/// There is at least one word.
pub fn parse(time: u64, words: &[&[u8]]) -> Checked<Command> {
    let name = given(5, look(words[0], &NAMES))?;
    check(6, count_ok(name, words.len()))?;
    check(7, sizes_ok(name, words))?;
    let rest = &words[name.fixed()..];
    // Where other commands have options, BITFIELD has subcommands.
    let (option_words, subcommand_words) =
        if name == Name::Bitfield { (&[][..], rest) } else { (rest, &[][..]) };
    let options = given(8, options_in(name, option_words))?;
    let subcommands = given(8, subcommands_in(subcommand_words))?;
    let number = given(9, read_fixed(name, words))?;
    let subcommands = given(9, read_subcommands(&subcommands))?;
    let said = said_in(name, time, &options)?;
    let action = action_of(name, words, number, said, subcommands);
    Ok(Command { key: words[1].to_vec(), action })
}

fn count_ok(name: Name, count: usize) -> bool {
    count == name.fixed() || (count > name.fixed() && !name.is_exact())
}

fn sizes_ok(name: Name, words: &[&[u8]]) -> bool {
    let key_ok = !words[1].is_empty() && words[1].len() <= KEY_LIMIT;
    key_ok && (!name.has_value() || words[2].len() <= VALUE_LIMIT)
}

/// The number among the fixed words: EXINCRBY's, or a version; 0 where a
/// command has neither.
struct Fixed {
    by: i64,
    version: u64,
}

/// It is the last of the fixed words.
fn read_fixed(name: Name, words: &[&[u8]]) -> Option<Fixed> {
    let word = words[name.fixed() - 1];
    match name {
        Name::Exincrby => Some(Fixed { by: read_signed(word)?, version: 0 }),
        Name::Exsetver | Name::Excas | Name::Excad => {
            Some(Fixed { by: 0, version: read_version(word)? })
        }
        _ => Some(Fixed { by: 0, version: 0 }),
    }
}

/// The action of a name, with its value, its number, what its options say, and
/// its subcommands.
fn action_of(
    name: Name,
    words: &[&[u8]],
    number: Fixed,
    said: Said,
    subcommands: Vec<Subcommand>,
) -> Action {
    let value = if name.has_value() { words[2].to_vec() } else { Vec::new() };
    let Fixed { by, version } = number;
    let Said { terms, flags, min, max, non_negative, with_version, with_flags } = said;
    match name {
        Name::Exset => Action::Exset(Set { value, terms, flags, with_version }),
        Name::Exget => Action::Exget { with_flags },
        Name::Exsetver => Action::Exsetver { version },
        Name::Exincrby => {
            Action::Exincrby(Increment { by, terms, min, max, non_negative, with_version })
        }
        Name::Excas => Action::Excas(Swap { value, version, expire: terms.expire }),
        Name::Excad => Action::Excad { version },
        Name::Exappend => Action::Exjoin(Join { end: End::Back, value, terms }),
        Name::Exprepend => Action::Exjoin(Join { end: End::Front, value, terms }),
        Name::Exgae => Action::Exgae { expire: terms.expire },
        Name::Del => Action::Del,
        Name::Bitfield => Action::Bitfield(subcommands),
    }
}
