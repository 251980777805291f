//! The crate's limits and numbers are those of the C header.

use pietrunel::{Error, Party, Progress, Rejection};

const HEADER: &str = include_str!("../../../include/pietrunel.h");

/// The number that the header defines for this name.
fn defined(name: &str) -> u64 {
    let start = format!("#define PIETRUNEL_{name} ");
    let line = HEADER.lines().find_map(|line| line.strip_prefix(&start));
    let text = line.unwrap_or_else(|| panic!("no {name}")).split(' ').next().unwrap();
    let digits = text.strip_prefix("UINT64_C(").and_then(|text| text.strip_suffix(')'));
    digits.unwrap_or(text).parse().unwrap_or_else(|_| panic!("{name} is {text}"))
}

/// A variant's name as C spells it: `TableFull` is `TABLE_FULL`.
fn in_c(variant: String) -> String {
    let mut name = String::new();
    for letter in variant.chars() {
        if letter.is_uppercase() && !name.is_empty() {
            name.push('_');
        }
        name.extend(letter.to_uppercase());
    }
    name
}

#[test]
fn limits() {
    let lengths = [
        ("RECORD_SIZE", pietrunel::RECORD_SIZE),
        ("MAX_RECORDS", pietrunel::MAX_RECORDS),
        ("MAX_KEY", pietrunel::MAX_KEY),
        ("MAX_VALUE", pietrunel::MAX_VALUE),
        ("MAX_COMMAND", pietrunel::MAX_COMMAND),
        ("MAX_WORDS", pietrunel::MAX_WORDS),
        ("REPLY_ROOM", pietrunel::REPLY_ROOM),
    ];
    for (name, length) in lengths {
        assert_eq!(defined(name), length as u64, "{name}");
    }
    assert_eq!(defined("MAX_TIME"), pietrunel::MAX_TIME);
    assert_eq!(defined("MAX_VERSION"), pietrunel::MAX_VERSION);
}

#[test]
fn numbers() {
    let rejections = [
        Rejection::DamagedTable,
        Rejection::TimeOutOfRange,
        Rejection::ShortReplyBuffer,
        Rejection::MalformedCommand,
        Rejection::BadBoundary,
    ];
    let errors = [
        Error::UnknownCommand,
        Error::WordCount,
        Error::TooLong,
        Error::Syntax,
        Error::NotANumber,
        Error::ExpireTime,
        Error::MinAboveMax,
        Error::StaleVersion,
        Error::StoredNotANumber,
        Error::SumOutOfRange,
        Error::VersionAtTop,
        Error::JoinedTooLong,
        Error::TableFull,
    ];
    let rejections = rejections.map(|one| (in_c(format!("{one:?}")), one.number()));
    let errors = errors.map(|one| (in_c(format!("{one:?}")), one.number()));
    for (name, number) in rejections.into_iter().chain(errors) {
        assert_eq!(defined(&name), u64::from(number), "{name}");
    }
    assert_eq!(defined("MORE"), u64::from(Progress::More.number()));
}

#[test]
fn parties() {
    for party in [Party::Whole, Party::Owner, Party::Installer] {
        let name = in_c(format!("{party:?}"));
        assert_eq!(defined(&name), u64::from(party.number()), "{name}");
    }
}
