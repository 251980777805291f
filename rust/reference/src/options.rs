//! The options of a command: which are given (8), their numbers (9), the expiry
//! (10), MIN and MAX (11).

use crate::checked::{check, given, Checked};
use crate::command::{look, Change, Expire, Kind, Name, Opt, Presence, Terms, OPTIONS};
use crate::number::{read_flags, read_signed, read_version};
use crate::table::TIME_LIMIT;

/// An option and the word of its number, empty where no number follows it.
pub struct Given<'a> {
    opt: Opt,
    number: &'a [u8],
}

/// What the options say.
pub struct Said {
    pub terms: Terms,
    pub flags: u32,
    pub min: Option<i64>,
    pub max: Option<i64>,
    pub non_negative: bool,
    pub with_version: bool,
    pub with_flags: bool,
}

/// The option given of a group.
fn pick<'g>(group: Kind, options: &'g [Given<'g>]) -> Option<&'g Given<'g>> {
    options.iter().find(|option| option.opt.group() == group)
}

fn has(group: Kind, options: &[Given]) -> bool {
    pick(group, options).is_some()
}

/// Test 8: the options that the words after the fixed ones give. EXGAE needs a
/// time word.
pub fn options_in<'a>(name: Name, words: &[&'a [u8]]) -> Option<Vec<Given<'a>>> {
    let options = read_options(name, words)?;
    if name == Name::Exgae && !has(Kind::TimeWord, &options) {
        return None;
    }
    Some(options)
}

/// The options word by word. The word after one that a number follows is taken
/// as its number, also if it spells an option.
fn read_options<'a>(name: Name, words: &[&'a [u8]]) -> Option<Vec<Given<'a>>> {
    let mut options = Vec::new();
    let mut words = words.iter();
    while let Some(word) = words.next() {
        let opt = look(word, &OPTIONS)?;
        if !name.kinds().contains(&opt.kind()) || has(opt.group(), &options) {
            return None;
        }
        let number: &[u8] = if opt.is_numbered() { words.next()? } else { b"" };
        options.push(Given { opt, number });
    }
    Some(options)
}

/// Tests 9 to 11 of the options.
pub fn said_in(name: Name, time: u64, options: &[Given]) -> Checked<Said> {
    let lifetime = lifetime_in(name, pick(Kind::TimeWord, options))?;
    let change = change_in(pick(Kind::VerOrAbs, options))?;
    let flags = number_in(pick(Kind::Flags, options), read_flags)?.unwrap_or(0);
    let min = number_in(pick(Kind::Min, options), read_signed)?;
    let max = number_in(pick(Kind::Max, options), read_signed)?;
    let expire = expire_in(lifetime, time)?;
    check(11, ordered(min, max))?;
    Ok(Said {
        terms: Terms { presence: presence_in(pick(Kind::NxOrXx, options)), change, expire },
        flags,
        min,
        max,
        non_negative: has(Kind::NonNegative, options),
        with_version: has(Kind::WithVersion, options),
        with_flags: has(Kind::WithFlags, options),
    })
}

/// Test 9: the number of an option, if it is given.
fn number_in<T>(option: Option<&Given>, read: fn(&[u8]) -> Option<T>) -> Checked<Option<T>> {
    match option {
        Some(option) => Ok(Some(given(9, read(option.number))?)),
        None => Ok(None),
    }
}

/// VER or ABS.
fn change_in(option: Option<&Given>) -> Checked<Change> {
    let version = number_in(option, read_version)?;
    Ok(match (option.map(|option| option.opt), version) {
        (Some(Opt::Ver), Some(version)) => Change::RaiseFrom(version),
        (_, Some(version)) => Change::Set(version),
        (_, None) => Change::Raise,
    })
}

/// What is said of the expiry: that it is cleared or kept, or a time word with
/// its number.
enum Lifetime {
    Cleared,
    Kept,
    Until(Opt, i64),
}

/// The time word or KEEPTTL; without either it depends on the command.
fn lifetime_in(name: Name, option: Option<&Given>) -> Checked<Lifetime> {
    match option {
        None if name.keeps_expiry() => Ok(Lifetime::Kept),
        None => Ok(Lifetime::Cleared),
        Some(option) if option.opt == Opt::KeepTtl => Ok(Lifetime::Kept),
        Some(option) => Ok(Lifetime::Until(option.opt, given(9, read_signed(option.number))?)),
    }
}

/// Test 10, where a time word is given.
fn expire_in(lifetime: Lifetime, time: u64) -> Checked<Expire> {
    match lifetime {
        Lifetime::Cleared => Ok(Expire::Clear),
        Lifetime::Kept => Ok(Expire::Keep),
        Lifetime::Until(word, number) => Ok(Expire::At(expiry(word, number, time)?)),
    }
}

/// A time word's number is at least 1, and the expiry at most 2^62. It is
/// computed in 128 bits, where nothing wraps.
fn expiry(word: Opt, number: i64, time: u64) -> Checked<u64> {
    check(10, number >= 1)?;
    let unit = if matches!(word, Opt::Ex | Opt::ExAt) { 1000 } else { 1 };
    let from = if matches!(word, Opt::Ex | Opt::Px) { time } else { 0 };
    let expiry = u128::from(from) + unit * number as u128;
    check(10, expiry <= u128::from(TIME_LIMIT))?;
    Ok(expiry as u64)
}

/// Test 11: MIN is not above MAX.
fn ordered(min: Option<i64>, max: Option<i64>) -> bool {
    match (min, max) {
        (Some(min), Some(max)) => min <= max,
        _ => true,
    }
}

/// NX or XX.
fn presence_in(option: Option<&Given>) -> Presence {
    match option.map(|option| option.opt) {
        Some(Opt::Nx) => Presence::IfAbsent,
        Some(_) => Presence::IfLive,
        None => Presence::Always,
    }
}

#[cfg(test)]
mod tests {
    use super::*;

    #[test]
    fn expiries_stay_in_range_and_never_wrap() {
        let top = TIME_LIMIT;
        assert_eq!(expiry(Opt::PxAt, top as i64, 0), Ok(top));
        assert_eq!(expiry(Opt::PxAt, top as i64 + 1, 0), Err(10));
        assert_eq!(expiry(Opt::Px, 1, top - 1), Ok(top));
        assert_eq!(expiry(Opt::Px, 1, top), Err(10));
        assert_eq!(expiry(Opt::ExAt, (top / 1000) as i64, 0), Ok(top / 1000 * 1000));
        assert_eq!(expiry(Opt::ExAt, (top / 1000) as i64 + 1, 0), Err(10));
        // 2^64 / 1000, rounded up: wrapped, it would be a small expiry.
        assert_eq!(expiry(Opt::ExAt, 18_446_744_073_709_552, 0), Err(10));
        assert_eq!(expiry(Opt::Ex, i64::MAX, top), Err(10));
        assert_eq!(expiry(Opt::Ex, 0, 5), Err(10));
        assert_eq!(expiry(Opt::Ex, -5, 5000), Err(10));
        assert_eq!(expiry(Opt::Ex, 5, 1000), Ok(6000));
    }

    fn read(name: Name, words: &[&str]) -> Option<Vec<Opt>> {
        let words: Vec<&[u8]> = words.iter().map(|word| word.as_bytes()).collect();
        Some(options_in(name, &words)?.iter().map(|option| option.opt).collect())
    }

    #[test]
    fn each_command_takes_its_own_options_once() {
        let both = vec![Opt::Ex, Opt::Nx];
        assert_eq!(read(Name::Exset, &["ex", "5", "NX"]), Some(both));
        assert_eq!(read(Name::Excas, &["KEEPTTL"]), Some(vec![Opt::KeepTtl]));
        for words in [&["NX", "NX"][..], &["NX", "XX"], &["VER", "1", "ABS", "1"], &["EX"]] {
            assert_eq!(read(Name::Exset, words), None, "{words:?}");
        }
        assert_eq!(read(Name::Exset, &["KEEPTTL"]), None);
        assert_eq!(read(Name::Exset, &["MIN", "1"]), None);
        assert_eq!(read(Name::Excas, &["KEEPTTL", "PX", "1"]), None);
        assert_eq!(read(Name::Exgae, &[]), None);
    }

    #[test]
    fn the_word_after_a_numbered_option_is_its_number() {
        assert_eq!(read(Name::Exset, &["EX", "NX", "NX"]), Some(vec![Opt::Ex, Opt::Nx]));
        assert_eq!(read(Name::Exset, &["EX", "EX", "5"]), None);
    }
}
