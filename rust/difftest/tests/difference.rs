//! The program diff against the reference on random pairs of files, which
//! reach every form of a line and every refusal.

use difftest::hex::hex;
use difftest::layout::{self, Record, MAX_KEY, MAX_RECORDS, RECORD};
use difftest::pairs::{pair, File, Pair};
use difftest::{settings, Rng};
use std::collections::{BTreeMap, BTreeSet};
use std::path::{Path, PathBuf};
use std::process::{Command, Output};
use std::{env, fs, process, thread};

/// The lines without their keys, a refusal with its reason; nothing stands for
/// a pair with no difference.
const FORMS: [&str; 28] = [
    "", "+", "-", "bad 1: cut", "bad 1: damaged", "bad 1: empty", "bad 1: missing",
    "bad 1: too long", "bad 2: cut", "bad 2: damaged", "bad 2: empty", "bad 2: missing",
    "bad 2: too long", "~ expiry", "~ flags", "~ flags expiry", "~ value", "~ value expiry",
    "~ value flags", "~ value flags expiry", "~ value version", "~ value version expiry",
    "~ value version flags", "~ value version flags expiry", "~ version", "~ version expiry",
    "~ version flags", "~ version flags expiry",
];

/// Whether a pair and its output have a property.
type Test = fn(&Pair, &str) -> bool;

/// What else has to come up.
const PROPERTIES: [(&str, Test); 8] = [
    ("both are bad", |pair, _| !is_good(&pair.before) && !is_good(&pair.after)),
    ("256 records in use twice", |pair, _| is_full(&pair.before) && is_full(&pair.after)),
    ("a key of 24 bytes", |_, output| keys(output).any(|key| key.len() == 2 * MAX_KEY)),
    ("a key, then its extension", |_, output| in_a_row(output, |a, b| b.starts_with(a))),
    ("a key, then a zero more", |_, output| in_a_row(output, |a, b| b == format!("{a}00"))),
    ("a byte below 128, then another", |_, output| in_a_row(output, |a, b| a < "80" && b >= "80")),
    ("an expired record with a line", has_expired_line),
    ("an equal record in another slot", |pair, output| output.is_empty() && is_moved(pair)),
];

#[test]
fn the_program_prints_what_the_reference_does() {
    let (seed, pairs) = (settings::seed(), settings::pairs());
    settings::announce(&format!("comparing {pairs} random pairs of files, seed {seed}"));
    let program = Program::new();
    let mut seen = BTreeMap::new();
    for number in 0..pairs {
        // Each has a seed of its own, so that one can be run again alone.
        let seed = seed.wrapping_add(number);
        let pair = pair(&mut Rng::new(seed));
        let output = compare(&program, &pair).unwrap_or_else(|difference| {
            panic!(
                "{difference}\nthe files are in {}; run it again, in rust/: PIETRUNEL_SEED={seed} \
                 PIETRUNEL_PAIRS=1 cargo test --release --offline --test difference",
                program.folder.display()
            )
        });
        count(&mut seen, &pair, &output);
    }
    println!("{seen:?}");
    for name in FORMS.into_iter().chain(PROPERTIES.map(|(name, _)| name)) {
        let times = seen.remove(name).unwrap_or(0);
        assert!(times >= pairs / 500, "'{name}' occurs {times} times");
    }
    assert!(seen.is_empty(), "other forms: {seen:?}");
}

/// What the program prints, if it is what the reference says and it does so
/// quietly.
fn compare(program: &Program, pair: &Pair) -> Result<String, String> {
    let output = reference::difference(pair.before.as_deref(), pair.after.as_deref());
    let got = program.run(pair);
    if got.stdout != output.as_bytes() {
        let printed = got.stdout.escape_ascii();
        return Err(format!(
            "the program prints {printed}\nthe reference {}",
            output.escape_debug()
        ));
    }
    if !got.stderr.is_empty() || !got.status.success() {
        return Err(format!("{}, complaining {}", got.status, got.stderr.escape_ascii()));
    }
    Ok(output)
}

/// Counts the forms of the lines and the properties.
fn count(seen: &mut BTreeMap<String, u64>, pair: &Pair, output: &str) {
    let mut add = |name: String| *seen.entry(name).or_default() += 1;
    match output {
        "" => add(String::new()),
        "bad 1\n" => add(format!("bad 1: {}", fault(&pair.before))),
        "bad 2\n" => add(format!("bad 2: {}", fault(&pair.after))),
        _ => output.lines().map(without_key).for_each(&mut add),
    }
    let found = PROPERTIES.iter().filter(|(_, test)| test(pair, output));
    found.for_each(|(name, _)| add(name.to_string()));
}

/// What is wrong with a bad file.
fn fault(file: &File) -> &'static str {
    match file.as_ref().map(Vec::len) {
        None => "missing",
        Some(0) => "empty",
        Some(len) if len > MAX_RECORDS * RECORD => "too long",
        Some(len) if !len.is_multiple_of(RECORD) => "cut",
        _ => "damaged",
    }
}

fn without_key(line: &str) -> String {
    let words: Vec<&str> = line.split(' ').collect();
    [&words[..1], &words[2..]].concat().join(" ")
}

/// The keys of the lines, in hex.
fn keys(output: &str) -> impl Iterator<Item = &str> {
    let lines = output.lines().filter(|line| !line.starts_with("bad"));
    lines.filter_map(|line| line.split(' ').nth(1))
}

/// Whether the keys of two lines in a row pass a test.
fn in_a_row(output: &str, test: impl Fn(&str, &str) -> bool) -> bool {
    keys(output).zip(keys(output).skip(1)).any(|(a, b)| test(a, b))
}

/// The records in use of a good table, with their slots.
fn used(file: &File) -> impl Iterator<Item = (usize, &Record)> {
    let good = file.as_deref().filter(|table| layout::is_good(table));
    let slots = layout::records(good.unwrap_or_default()).iter().enumerate();
    slots.filter(|(_, record)| layout::in_use(record))
}

fn is_good(file: &File) -> bool {
    file.as_deref().is_some_and(layout::is_good)
}

fn is_full(file: &File) -> bool {
    used(file).count() == MAX_RECORDS
}

/// A record that expired in the first minutes of 1970.
fn has_expired_line(pair: &Pair, output: &str) -> bool {
    let lines: BTreeSet<&str> = keys(output).collect();
    let is_expired = |record: &Record| (1..1_000_000).contains(&layout::expiry(record));
    let mut expired = used(&pair.after).filter(|(_, record)| is_expired(record));
    expired.any(|(_, record)| lines.contains(&*hex(layout::key(record))))
}

fn is_moved(pair: &Pair) -> bool {
    let after: Vec<_> = used(&pair.after).collect();
    let has_moved = |(slot, old)| after.iter().any(|(other, new)| old == *new && slot != *other);
    used(&pair.before).any(has_moved)
}

/// The program, and the folder that it is run in.
struct Program {
    path: PathBuf,
    folder: PathBuf,
}

impl Program {
    fn new() -> Program {
        let path = settings::diff_program();
        assert!(
            path.is_file(),
            "{} is not there: run `rt run` in crates/diff, or set PIETRUNEL_DIFF \
             to the program's whole path",
            path.display()
        );
        let folder = env::temp_dir().join(format!("pietrunel-difference-{}", process::id()));
        fs::create_dir(&folder).unwrap();
        Program { path, folder }
    }

    /// Runs it on a pair of files.
    fn run(&self, pair: &Pair) -> Output {
        put(&self.folder.join("before.table"), &pair.before);
        put(&self.folder.join("after.table"), &pair.after);
        Command::new(&self.path).current_dir(&self.folder).output().unwrap()
    }
}

/// Where a test fails the files stay, to be looked at.
impl Drop for Program {
    fn drop(&mut self) {
        if !thread::panicking() {
            fs::remove_dir_all(&self.folder).unwrap();
        }
    }
}

fn put(path: &Path, file: &File) {
    match file {
        Some(bytes) => fs::write(path, bytes).unwrap(),
        None if path.exists() => fs::remove_file(path).unwrap(),
        None => {}
    }
}
