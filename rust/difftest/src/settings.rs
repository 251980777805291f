//! What a test run takes from its environment.

use std::env;
use std::io::Write;
use std::path::{Path, PathBuf};

/// Tells what a test runs, past the harness, which keeps back what a test that passes prints.
pub fn announce(text: &str) {
    let _ = writeln!(std::io::stderr(), "{text}");
}

/// The seed: PIETRUNEL_SEED, or else always the same.
pub fn seed() -> u64 {
    number("PIETRUNEL_SEED", 20_240_601)
}

/// How many random calls are compared: PIETRUNEL_CALLS for a longer run.
pub fn calls() -> u64 {
    number("PIETRUNEL_CALLS", 200_000)
}

/// How many random histories are checked: PIETRUNEL_HISTORIES for a longer run.
pub fn histories() -> u64 {
    number("PIETRUNEL_HISTORIES", 20_000)
}

/// How many random pairs of files are compared: PIETRUNEL_PAIRS for a longer run.
pub fn pairs() -> u64 {
    number("PIETRUNEL_PAIRS", 2_000)
}

/// The program diff: PIETRUNEL_DIFF, or that of the repository.
pub fn diff_program() -> PathBuf {
    match env::var_os("PIETRUNEL_DIFF") {
        Some(path) => path.into(),
        None => Path::new(env!("CARGO_MANIFEST_DIR")).join("../../crates/diff/out/diff"),
    }
}

fn number(name: &str, default: u64) -> u64 {
    match env::var(name) {
        Ok(text) => text.parse().unwrap_or_else(|_| panic!("{name} is no number: {text}")),
        Err(_) => default,
    }
}
