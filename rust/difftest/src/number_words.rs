//! Which words of a command are numbers.

/// The commands with a number among their fixed words, and its place.
const FIXED: [(&str, usize); 4] = [("EXCAD", 2), ("EXCAS", 3), ("EXINCRBY", 2), ("EXSETVER", 2)];

/// The options that take a number.
pub const NUMBERED: [&str; 9] = ["EX", "PX", "EXAT", "PXAT", "VER", "ABS", "FLAGS", "MIN", "MAX"];

/// All kinds of number words: a command's own, an option's, and those of BITFIELD.
pub const KINDS: [&str; 17] = [
    "# offset", "ABS", "EX", "EXAT", "EXCAD", "EXCAS", "EXINCRBY", "EXSETVER", "FLAGS", "INCRBY",
    "MAX", "MIN", "PX", "PXAT", "SET", "VER", "offset",
];

/// A number word of a command: its kind, its place, and its text, for an offset
/// what follows the #.
#[derive(Clone, Copy, Debug, PartialEq, Eq)]
pub struct NumberWord<'a> {
    pub kind: &'static str,
    pub at: usize,
    pub text: &'a [u8],
}

/// The number words of a command, as far as its words are known ones.
pub fn number_words(words: &[Vec<u8>]) -> Vec<NumberWord<'_>> {
    let places = match words {
        [] => Vec::new(),
        [name, ..] if is(name, "BITFIELD") => in_subcommands(words),
        _ => fixed(words).into_iter().chain(in_options(words)).collect(),
    };
    let number_word = |(kind, at): (_, usize)| match (kind, &words.get(at)?[..]) {
        ("offset", [b'#', text @ ..]) => Some(NumberWord { kind: "# offset", at, text }),
        (_, text) => Some(NumberWord { kind, at, text }),
    };
    places.into_iter().filter_map(number_word).collect()
}

/// The words with another text for one of the number words.
pub fn replaced(words: &[Vec<u8>], number: NumberWord, text: &[u8]) -> Vec<Vec<u8>> {
    let mark: &[u8] = if number.kind == "# offset" { b"#" } else { b"" };
    let mut words = words.to_vec();
    words[number.at] = [mark, text].concat();
    words
}

fn is(word: &[u8], name: &str) -> bool {
    word.eq_ignore_ascii_case(name.as_bytes())
}

fn fixed(words: &[Vec<u8>]) -> Option<(&'static str, usize)> {
    FIXED.into_iter().find(|(name, _)| is(&words[0], name))
}

/// The word after an option that takes a number is its number, whatever it spells.
fn in_options(words: &[Vec<u8>]) -> Vec<(&'static str, usize)> {
    let has_value = ["EXSET", "EXAPPEND", "EXPREPEND"].iter().any(|name| is(&words[0], name));
    let first = match fixed(words) {
        Some((_, number)) => number + 1,
        None => 2 + usize::from(has_value),
    };
    let mut places = Vec::new();
    let mut at = first;
    while at < words.len() {
        if let Some(kind) = NUMBERED.into_iter().find(|name| is(&words[at], name)) {
            at += 1;
            places.push((kind, at));
        }
        at += 1;
    }
    places
}

/// The offset and the number of each subcommand, up to the first word that begins
/// none.
fn in_subcommands(words: &[Vec<u8>]) -> Vec<(&'static str, usize)> {
    let mut places = Vec::new();
    let mut at = 2;
    while let Some(word) = words.get(at) {
        at += match word {
            word if is(word, "OVERFLOW") => 2,
            word if is(word, "GET") => {
                places.push(("offset", at + 2));
                3
            }
            word => {
                let Some(kind) = ["SET", "INCRBY"].into_iter().find(|name| is(word, name)) else {
                    break;
                };
                places.extend([("offset", at + 2), (kind, at + 3)]);
                4
            }
        };
    }
    places
}

#[cfg(test)]
mod tests {
    use super::*;

    fn of(line: &str) -> String {
        let words: Vec<Vec<u8>> = line.split(' ').map(|word| word.into()).collect();
        let texts = number_words(&words)
            .into_iter()
            .map(|word| format!("{}: {}", word.kind, word.text.escape_ascii()));
        texts.collect::<Vec<_>>().join(", ")
    }

    #[test]
    fn number_words_by_hand() {
        for (line, found) in [
            ("DEL k", ""),
            ("EXGET 5 WITHFLAGS", ""),
            ("exset k 5 ex 7 NX abs 8 FLAGS", "EX: 7, ABS: 8"),
            ("EXSET k EX EX EX 5", "EX: EX"),
            ("EXCAS k VER 5 KEEPTTL", "EXCAS: 5"),
            ("EXCAS k v 5 PXAT +7", "EXCAS: 5, PXAT: +7"),
            ("EXCAD k -0", "EXCAD: -0"),
            ("EXSETVER k 007", "EXSETVER: 007"),
            ("EXINCRBY k MIN MIN 1 MAX 2", "EXINCRBY: MIN, MIN: 1, MAX: 2"),
            ("EXAPPEND k VER VER 1", "VER: 1"),
            ("EXGAE k PX 3", "PX: 3"),
            ("BITFIELD k GET u8 #5 set i8 7 -3", "# offset: 5, offset: 7, SET: -3"),
            ("BITFIELD k OVERFLOW SAT INCRBY u8 +#5 1 NOPE GET u8 0", "offset: +#5, INCRBY: 1"),
        ] {
            assert_eq!(of(line), found, "{line}");
        }
    }
}
