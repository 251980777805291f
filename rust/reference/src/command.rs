//! A command by value; the words that name commands and options; the rule of
//! each command.

use crate::subcommands::Subcommand;

/// NX: only if the key is absent; XX: only if it is live.
#[derive(Clone, Copy, Debug, PartialEq, Eq)]
pub enum Presence {
    Always,
    IfAbsent,
    IfLive,
}

/// The version rises by one, with VER only from the version given; ABS sets it.
#[derive(Clone, Copy, Debug, PartialEq, Eq)]
pub enum Change {
    Raise,
    RaiseFrom(u64),
    Set(u64),
}

/// The expiry becomes none, stays, or is set.
#[derive(Clone, Copy, Debug, PartialEq, Eq)]
pub enum Expire {
    Clear,
    Keep,
    At(u64),
}

/// EXAPPEND joins at the back, EXPREPEND at the front.
#[derive(Clone, Copy, Debug, PartialEq, Eq)]
pub enum End {
    Back,
    Front,
}

/// On what terms a value is written.
#[derive(Clone, Copy, Debug, PartialEq, Eq)]
pub struct Terms {
    pub presence: Presence,
    pub change: Change,
    pub expire: Expire,
}

/// EXSET.
#[derive(Debug)]
pub struct Set {
    pub value: Vec<u8>,
    pub terms: Terms,
    pub flags: u32,
    pub with_version: bool,
}

/// EXINCRBY.
#[derive(Debug)]
pub struct Increment {
    pub by: i64,
    pub terms: Terms,
    pub min: Option<i64>,
    pub max: Option<i64>,
    pub non_negative: bool,
    pub with_version: bool,
}

/// EXAPPEND and EXPREPEND.
#[derive(Debug)]
pub struct Join {
    pub end: End,
    pub value: Vec<u8>,
    pub terms: Terms,
}

/// EXCAS.
#[derive(Debug)]
pub struct Swap {
    pub value: Vec<u8>,
    pub version: u64,
    pub expire: Expire,
}

/// What a command does under its key.
#[derive(Debug)]
pub enum Action {
    Exset(Set),
    Exget { with_flags: bool },
    Exsetver { version: u64 },
    Exincrby(Increment),
    Excas(Swap),
    Excad { version: u64 },
    Exjoin(Join),
    Exgae { expire: Expire },
    Del,
    Bitfield(Vec<Subcommand>),
}

#[derive(Debug)]
pub struct Command {
    pub key: Vec<u8>,
    pub action: Action,
}

/// The entry of a word in a table, whatever the case of its ASCII letters.
pub fn look<T: Copy>(word: &[u8], entries: &[(&str, T)]) -> Option<T> {
    let entry = entries.iter().find(|(text, _)| word.eq_ignore_ascii_case(text.as_bytes()))?;
    Some(entry.1)
}

/// The option words.
#[derive(Clone, Copy, Debug, PartialEq, Eq)]
pub enum Opt {
    Ex,
    Px,
    ExAt,
    PxAt,
    KeepTtl,
    Nx,
    Xx,
    Ver,
    Abs,
    Flags,
    Min,
    Max,
    NonNegative,
    WithVersion,
    WithFlags,
}

pub const OPTIONS: [(&str, Opt); 15] = [
    ("EX", Opt::Ex),
    ("PX", Opt::Px),
    ("EXAT", Opt::ExAt),
    ("PXAT", Opt::PxAt),
    ("KEEPTTL", Opt::KeepTtl),
    ("NX", Opt::Nx),
    ("XX", Opt::Xx),
    ("VER", Opt::Ver),
    ("ABS", Opt::Abs),
    ("FLAGS", Opt::Flags),
    ("MIN", Opt::Min),
    ("MAX", Opt::Max),
    ("NONEGATIVE", Opt::NonNegative),
    ("WITHVERSION", Opt::WithVersion),
    ("WITHFLAGS", Opt::WithFlags),
];

/// Kinds of options; a command takes some kinds.
#[derive(Clone, Copy, Debug, PartialEq, Eq)]
pub enum Kind {
    TimeWord,
    KeepTtl,
    NxOrXx,
    VerOrAbs,
    Flags,
    Min,
    Max,
    NonNegative,
    WithVersion,
    WithFlags,
}

impl Opt {
    pub fn kind(self) -> Kind {
        match self {
            Opt::Ex | Opt::Px | Opt::ExAt | Opt::PxAt => Kind::TimeWord,
            Opt::KeepTtl => Kind::KeepTtl,
            Opt::Nx | Opt::Xx => Kind::NxOrXx,
            Opt::Ver | Opt::Abs => Kind::VerOrAbs,
            Opt::Flags => Kind::Flags,
            Opt::Min => Kind::Min,
            Opt::Max => Kind::Max,
            Opt::NonNegative => Kind::NonNegative,
            Opt::WithVersion => Kind::WithVersion,
            Opt::WithFlags => Kind::WithFlags,
        }
    }

    /// The group of which a command has at most one: the kind, but KEEPTTL
    /// stands with the time words.
    pub fn group(self) -> Kind {
        match self.kind() {
            Kind::KeepTtl => Kind::TimeWord,
            kind => kind,
        }
    }

    /// Whether a number follows it.
    pub fn is_numbered(self) -> bool {
        use Kind::*;
        matches!(self.kind(), TimeWord | VerOrAbs | Flags | Min | Max)
    }
}

#[derive(Clone, Copy, Debug, PartialEq, Eq)]
pub enum Name {
    Exset,
    Exget,
    Exsetver,
    Exincrby,
    Excas,
    Excad,
    Exappend,
    Exprepend,
    Exgae,
    Del,
    Bitfield,
}

pub const NAMES: [(&str, Name); 11] = [
    ("EXSET", Name::Exset),
    ("EXGET", Name::Exget),
    ("EXSETVER", Name::Exsetver),
    ("EXINCRBY", Name::Exincrby),
    ("EXCAS", Name::Excas),
    ("EXCAD", Name::Excad),
    ("EXAPPEND", Name::Exappend),
    ("EXPREPEND", Name::Exprepend),
    ("EXGAE", Name::Exgae),
    ("DEL", Name::Del),
    ("BITFIELD", Name::Bitfield),
];

impl Name {
    /// The fixed words, the name counted.
    pub fn fixed(self) -> usize {
        use Name::*;
        match self {
            Exget | Exgae | Del | Bitfield => 2,
            Exset | Exsetver | Exincrby | Excad | Exappend | Exprepend => 3,
            Excas => 4,
        }
    }

    /// Whether more words than the fixed ones are refused by 6.
    pub fn is_exact(self) -> bool {
        matches!(self, Name::Exsetver | Name::Excad | Name::Del)
    }

    /// Whether the third word is a value.
    pub fn has_value(self) -> bool {
        matches!(self, Name::Exset | Name::Excas | Name::Exappend | Name::Exprepend)
    }

    /// The kinds of options that it takes.
    pub fn kinds(self) -> &'static [Kind] {
        use Kind::*;
        match self {
            Name::Exset => &[TimeWord, NxOrXx, VerOrAbs, Flags, WithVersion],
            Name::Exincrby => &[TimeWord, NxOrXx, VerOrAbs, Min, Max, NonNegative, WithVersion],
            Name::Exappend | Name::Exprepend => &[NxOrXx, VerOrAbs],
            Name::Excas => &[TimeWord, KeepTtl],
            Name::Exgae => &[TimeWord],
            Name::Exget => &[WithFlags],
            Name::Exsetver | Name::Excad | Name::Del | Name::Bitfield => &[],
        }
    }

    /// Whether the expiry is kept where no option says otherwise.
    pub fn keeps_expiry(self) -> bool {
        matches!(self, Name::Exincrby | Name::Exappend | Name::Exprepend)
    }
}

#[cfg(test)]
mod tests {
    use super::*;

    #[test]
    fn words_ignore_case_and_nothing_else() {
        assert_eq!(look(b"EXGET", &NAMES), Some(Name::Exget));
        assert_eq!(look(b"exPREpend", &NAMES), Some(Name::Exprepend));
        assert_eq!(look(b"dEl", &NAMES), Some(Name::Del));
        assert_eq!(look(b"nonEGATIVE", &OPTIONS), Some(Opt::NonNegative));
        for (text, name) in NAMES {
            let lower = text.to_ascii_lowercase();
            assert_eq!(look(lower.as_bytes(), &NAMES), Some(name));
            assert_eq!(look(format!("{text}\0").as_bytes(), &NAMES), None);
            assert_eq!(look(format!("{text} ").as_bytes(), &NAMES), None);
            assert_eq!(look(&text.as_bytes()[1..], &NAMES), None);
        }
        for text in ["", "GET", "SET", "CAS", "EXINCRBYFLOAT", "BITFIELD_RO", "EXSET\u{131}"] {
            assert_eq!(look(text.as_bytes(), &NAMES), None);
        }
    }

    /// A byte that differs from a letter in any bit but bit 5 is another.
    #[test]
    fn no_other_byte_counts_as_a_letter() {
        for at in 0..5 {
            for bit in [0x80, 0x40, 0x10, 8, 4, 2] {
                let mut word = *b"exgae";
                word[at] ^= bit;
                assert_eq!(look(&word, &NAMES), None);
            }
        }
    }
}
