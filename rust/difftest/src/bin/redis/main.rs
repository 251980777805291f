//! Compares BITFIELD with that of a running redis-server, the reference's and
//! that of the library if it is linked: answers, refusals and values, on random
//! commands. Where the two differ by design, Redis must do just what is expected.

mod differences;
mod server;

use difftest::bitfield::fields;
use difftest::compare::Outcome;
use difftest::fields::Field;
use difftest::number_words::{number_words, NumberWord};
use difftest::numerals::form;
use difftest::resp::{encode, Reply};
use difftest::{bitfield_words, layout, settings, Answer, Case, Rng};
use server::Server;
use std::process::ExitCode;

type Store = fn(&mut [u8], u64, &[u8], &mut [u8]) -> Answer;

#[cfg(feature = "library")]
const STORES: [(&str, Store); 2] =
    [("reference", reference::call), ("library", difftest::compare::library)];

#[cfg(not(feature = "library"))]
const STORES: [(&str, Store); 1] = [("reference", reference::call)];

/// The key of all commands.
const KEY: &[u8] = b"faults";

fn main() -> ExitCode {
    let Some(socket) = std::env::args().nth(1) else {
        eprintln!("usage: redis SOCKET");
        return ExitCode::from(2);
    };
    let mut server = Server::connect(&socket).unwrap_or_else(|error| panic!("{socket}: {error}"));
    for (name, store) in STORES {
        let (seed, calls) = (settings::seed(), settings::calls());
        println!("comparing {calls} random calls of the {name} with Redis, seed {seed}");
        let mut counts = Counts::default();
        let mut rng = Rng::new(seed);
        while counts.answered + counts.refused < calls {
            session(&mut rng, store, &mut server, &mut counts);
        }
        println!("{counts:?}");
        let differences = differences::check(store, &mut server);
        println!(
            "the {name} agrees with Redis, but for {differences} rows, which differ by design"
        );
    }
    ExitCode::SUCCESS
}

/// What the commands came to.
#[derive(Debug, Default)]
struct Counts {
    /// By both, and alike.
    answered: u64,
    /// By both.
    refused: u64,
    /// Answered here, while Redis refuses an offset of 2^32 and more.
    far: u64,
    /// Answered here, while Redis refuses a number with a plus or extra zeros.
    long: u64,
    /// Answered by both, but the value of Redis has more zeros.
    grown: u64,
    /// Not sent to Redis, which would do something else.
    left_out: u64,
}

/// Some commands in a row on one value, at first a random one or none.
fn session(rng: &mut Rng, store: Store, server: &mut Server, counts: &mut Counts) {
    let mut table = vec![0; 128];
    server.send(&["DEL".as_bytes(), KEY]);
    if rng.chance(80) {
        let len = rng.between(0, layout::MAX_VALUE);
        let value = rng.bytes(len);
        table = call(store, &table, &encode(&["EXSET".as_bytes(), KEY, &value])).table;
        server.send(&["SET".as_bytes(), KEY, &value]);
    }
    for _ in 0..rng.between(1, 8) {
        let words = bitfield_words(rng, KEY, stored(&table).unwrap_or_default());
        let case = Case { table, time: 0, command: encode(&words), reply: vec![0; 128] };
        let outcome = case.run(store);
        compare(&case, &words, &outcome, server, counts);
        table = outcome.table;
    }
}

fn call(store: Store, table: &[u8], command: &[u8]) -> Outcome {
    let (table, command) = (table.to_vec(), command.to_vec());
    Case { table, time: 0, command, reply: vec![0; 128] }.run(store)
}

/// The value in a table of one record.
fn stored(table: &[u8]) -> Option<&[u8]> {
    let record = &layout::records(table)[0];
    layout::in_use(record).then(|| layout::value(record))
}

/// Panics unless Redis does with a command what was done here, or what is
/// expected of it instead; leaves it with the same value.
fn compare(
    case: &Case,
    words: &[Vec<u8>],
    ours: &Outcome,
    server: &mut Server,
    counts: &mut Counts,
) {
    if ours.answer.number == 16 || ours.answer.number == 4 || is_left_out(&words[2..]) {
        counts.left_out += 1;
        return;
    }
    let theirs = server.send(words);
    if ours.answer.number != 0 {
        assert!(matches!(theirs.reply, Reply::Error(_)), "{theirs:?}: {}", case.again());
        counts.refused += 1;
    } else if let Some(count) = only_ours(words, counts) {
        assert!(matches!(theirs.reply, Reply::Error(_)), "{theirs:?}: {}", case.again());
        *count += 1;
        restore(server, stored(&ours.table));
        return;
    } else {
        assert_eq!(theirs.bytes, ours.reply(), "{}", case.again());
        counts.answered += 1;
    }
    let wanted = grown(words, ours);
    assert_eq!(server.value(KEY), wanted, "{}", case.again());
    if wanted.as_deref() != stored(&ours.table) {
        counts.grown += 1;
        restore(server, stored(&ours.table));
    }
}

/// The count of what is answered here and refused by Redis, if a command is so.
fn only_ours<'a>(words: &[Vec<u8>], counts: &'a mut Counts) -> Option<&'a mut u64> {
    let is_long = |word: &NumberWord| form(word.text) != "short";
    if number_words(words).iter().any(is_long) {
        Some(&mut counts.long)
    } else if fields(words).iter().any(|(_, field)| field.offset >= 1 << 32) {
        Some(&mut counts.far)
    } else {
        None
    }
}

/// Redis makes a value long enough for every SET and INCRBY of an answered
/// command, also for an INCRBY that fails.
fn grown(words: &[Vec<u8>], ours: &Outcome) -> Option<Vec<u8>> {
    let value = stored(&ours.table).map(<[u8]>::to_vec);
    if ours.answer.number != 0 {
        return value;
    }
    let writes = fields(words).into_iter().filter(|(name, _)| *name != "GET");
    let Some(longest) = writes.map(|(_, field)| field.bytes() as usize).max() else {
        return value;
    };
    let mut value = value.unwrap_or_default();
    value.resize(value.len().max(longest), 0);
    Some(value)
}

/// Gives Redis the value that stands here.
fn restore(server: &mut Server, value: Option<&[u8]>) {
    match value {
        Some(value) => server.send(&["SET".as_bytes(), KEY, value]),
        None => server.send(&["DEL".as_bytes(), KEY]),
    };
}

/// Whether Redis would take words that are refused here: a word up to a zero
/// byte, and a number for SET that does not fit.
fn is_left_out(words: &[Vec<u8>]) -> bool {
    words.iter().any(|word| word.contains(&0)) || words.windows(4).any(is_unfit_set)
}

/// Whether four words in a row are a SET of a number that its type does not have.
fn is_unfit_set(words: &[Vec<u8>]) -> bool {
    let text = |at: usize| std::str::from_utf8(&words[at]).unwrap_or_default();
    let (signed, width) = (text(1).starts_with('i'), text(1).get(1..).unwrap_or_default());
    let (Ok(width @ 1..=64), Ok(number)) = (width.parse(), text(3).parse::<i64>()) else {
        return false;
    };
    let field = Field { signed, width, offset: 0 };
    text(0).eq_ignore_ascii_case("SET") && !field.holds(number.into())
}
