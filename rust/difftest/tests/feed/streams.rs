//! Random pieces of random streams, malformed ones too. The caller offers again
//! what was not taken, or after a refusal goes on at the next `*`.

use super::*;
use difftest::streams::{damaged, late, stream, Stream};
use difftest::{settings, Rng};
use std::collections::BTreeMap;

/// How often something came up.
pub type Seen = BTreeMap<String, u64>;

/// Whether a call has a property.
type Test = fn(&Input, &Outcome) -> bool;

/// What has to come up, beside every number.
const PROPERTIES: [(&str, Test); 12] = [
    ("an empty piece", |input, _| input.piece.is_empty() && input.held_len == 0),
    ("an empty piece, bytes held", |input, _| input.piece.is_empty() && input.held_len > 0),
    ("whole in one piece", |input, outcome| is_whole(outcome) && input.held_len == 0),
    ("whole with bytes held", |input, outcome| is_whole(outcome) && input.held_len > 0),
    ("whole with its last byte", |_, outcome| is_whole(outcome) && outcome.fed.taken == 1),
    ("bytes after a whole one", |input, outcome| is_whole(outcome) && leaves(input, outcome)),
    ("400 bytes and more", |_, outcome| outcome.held_len >= 400),
    ("refused at its first byte", |input, outcome| {
        outcome.fed.number == 4 && outcome.fed.taken == 1 && input.held_len == 0
    }),
    ("refused with bytes held", |input, outcome| {
        outcome.fed.number == 4 && outcome.fed.taken > 0 && input.held_len > 0
    }),
    ("bytes after a refusal", |input, outcome| {
        outcome.fed.number == 4 && outcome.fed.taken > 0 && leaves(input, outcome)
    }),
    ("impossible bytes held", |input, outcome| {
        outcome.fed.number == 4 && outcome.fed.taken == 0 && !input.piece.is_empty()
    }),
    ("a damaged table beside a part", |input, outcome| {
        outcome.fed.number == MORE && !difftest::layout::is_good(&input.target.table)
    }),
];

fn is_whole(outcome: &Outcome) -> bool {
    outcome.fed.number != 4 && outcome.fed.number != MORE
}

fn leaves(input: &Input, outcome: &Outcome) -> bool {
    outcome.fed.taken < input.piece.len()
}

/// Table and time of the stream and a reply buffer, or sometimes others.
fn target(rng: &mut Rng, table: &[u8], time: u64) -> Target {
    let room = rng.between(128, 140);
    let mut target = Target { table: table.to_vec(), time, reply: rng.bytes(room) };
    let fault = rng.below(25);
    if fault == 0 || fault == 1 {
        target.table = damaged(rng, table);
    }
    if fault == 1 || fault == 2 || fault == 3 {
        target.time = late(rng);
    }
    if fault == 3 || fault == 4 {
        target.reply.truncate(rng.below(128));
    }
    target
}

/// Seldom another byte or another count, as if the caller had written there.
fn disturb(rng: &mut Rng, assembler: &mut Assembler) {
    match rng.below(200) {
        0 => assembler.held_len = rng.below(assembler.held.len() + 3),
        1 if assembler.held_len > 0 => {
            let at = rng.below(assembler.held_len);
            assembler.held[at] ^= 1 << rng.below(8);
        }
        _ => {}
    }
}

/// From the next `*` on, which may be none of these bytes.
fn from_star(bytes: &[u8]) -> &[u8] {
    let star = bytes.iter().position(|byte| *byte == b'*');
    &bytes[star.unwrap_or(bytes.len())..]
}

/// Feeds a stream; how many calls it took.
fn feed_stream(feed: Feed, rng: &mut Rng, seen: &mut Seen) -> Result<u64, String> {
    let Stream { mut table, time, pieces } = stream(rng);
    let mut assembler = Assembler::new(feed);
    let (mut calls, mut skips) = (0, false);
    for piece in &pieces {
        let mut rest = &piece[..];
        loop {
            if skips {
                rest = from_star(rest);
                skips = rest.is_empty();
            }
            if skips {
                break;
            }
            disturb(rng, &mut assembler);
            let target = target(rng, &table, time);
            let (held, held_len) = (assembler.held.clone(), assembler.held_len);
            let outcome = assembler.feed(rest, &target)?;
            calls += 1;
            if outcome.fed.number == 0 {
                table.clone_from(&outcome.table);
            }
            count(seen, &Input { held, held_len, piece: rest.to_vec(), target }, &outcome);
            rest = &rest[outcome.fed.taken..];
            skips |= outcome.fed.number == 4 && rng.chance(80);
            if outcome.fed.number == MORE || (rest.is_empty() && rng.chance(80)) {
                break;
            }
        }
    }
    Ok(calls)
}

/// Counts number and properties.
fn count(seen: &mut Seen, input: &Input, outcome: &Outcome) {
    let mut add = |name: String| *seen.entry(name).or_default() += 1;
    add(format!("number {}", outcome.fed.number));
    let found = PROPERTIES.iter().filter(|(_, test)| test(input, outcome));
    found.for_each(|(name, _)| add(name.to_string()));
}

/// At least so many calls.
pub fn check(feed: Feed, calls: u64) -> Result<Seen, String> {
    let mut seen = Seen::new();
    let (mut made, mut seed) = (0, settings::seed());
    while made < calls {
        // Each has a seed of its own, so that one can be run again alone.
        made += feed_stream(feed, &mut Rng::new(seed), &mut seen).map_err(|error| {
            format!(
                "{error}\nrun it again, in rust/: PIETRUNEL_SEED={seed} PIETRUNEL_CALLS=1 cargo \
                 test --release --offline --test feed streams"
            )
        })?;
        seed = seed.wrapping_add(1);
    }
    Ok(seen)
}

#[test]
fn random_pieces_of_random_streams() {
    let (seed, calls) = (settings::seed(), settings::calls());
    settings::announce(&format!("comparing {calls} random pieces of streams, seed {seed}"));
    let seen = check(difftest::feed::library, calls).unwrap_or_else(|error| panic!("{error}"));
    println!("{seen:?}");
    let numbers = (0..=17).chain([MORE]).map(|number| format!("number {number}"));
    for name in numbers.chain(PROPERTIES.map(|(name, _)| name.to_string())) {
        let times = seen.get(&name).copied().unwrap_or(0);
        assert!(times >= calls / 2000, "'{name}' occurs {times} times");
    }
}
