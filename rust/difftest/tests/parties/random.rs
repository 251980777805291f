//! Random calls of a party against the reference and the plain rules. Every number
//! comes up for each party, and so does what is new in shared calls.

use difftest::compare::Outcome;
use difftest::layout::{self, MAX_RECORDS, RECORD};
use difftest::resp::decode;
use difftest::shared::{other, part_of, shared_case, Candidate, Failures, SharedCase, LIBRARY};
use difftest::{settings, Rng};
use reference::{Party, Shown};
use std::collections::BTreeMap;

/// How often something came up.
pub type Seen = BTreeMap<String, u64>;

/// A case with what it came to.
struct Call<'a> {
    case: &'a SharedCase,
    failures: Failures,
    outcome: &'a Outcome,
    shown: Option<Shown>,
}

/// Whether a call has a property.
type Test = fn(&Call) -> bool;

/// What has to come up, beside every number.
const PROPERTIES: [(&str, Test); 26] = [
    ("a boundary of 0", |call| call.number() == 18 && call.case.boundary == 0),
    ("a boundary at the end", |call| call.number() == 18 && call.case.boundary == call.count()),
    ("a boundary past the end", |call| {
        call.number() == 18 && call.case.boundary == call.count() + 1
    }),
    ("the highest boundary", |call| call.number() == 18 && call.case.boundary == usize::MAX),
    ("a boundary that would wrap", |call| {
        let place = call.case.boundary.wrapping_mul(RECORD);
        call.number() == 18 && call.case.boundary > 1 << 56 && place < call.case.call.table.len()
    }),
    ("one record for the owner", |call| call.number() == 0 && call.case.boundary == 1),
    ("one record for the installer", |call| {
        call.number() == 0 && call.case.boundary + 1 == call.count()
    }),
    ("a table of one record", |call| call.number() == 18 && call.count() == 1),
    ("256 records", |call| call.number() == 0 && call.count() == MAX_RECORDS),
    ("over 256 records, fewer in each part", |call| {
        let (boundary, count) = (call.case.boundary, call.count());
        call.case.call.table.len().is_multiple_of(RECORD)
            && count > MAX_RECORDS
            && (1..=MAX_RECORDS).contains(&boundary)
            && count - boundary <= MAX_RECORDS
    }),
    ("equal keys in the caller's part alone", |call| {
        call.number() == 1 && call.failures.my_keys && !call.failures.other_keys
    }),
    ("equal keys in the other part alone", |call| {
        call.number() == 1 && call.failures.other_keys && !call.failures.my_keys
    }),
    ("equal keys across the boundary", |call| call.number() == 0 && call.is_in(call.others())),
    ("a write beside an equal key", |call| call.writes() && call.is_in(call.others())),
    ("a key in the other part alone, written", |call| {
        call.writes() && !call.is_in(call.mine()) && call.is_in(call.others())
    }),
    ("a damaged record in the caller's part", |call| {
        call.damage().is_some_and(|(mine, others)| mine && !others)
    }),
    ("a damaged record in the other part", |call| {
        call.damage().is_some_and(|(mine, others)| !mine && others)
    }),
    ("a damaged record and a bad boundary", |call| {
        call.number() == 1 && call.failures.records && call.failures.boundary
    }),
    ("a bad boundary where keys are equal", |call| {
        call.number() == 18 && !layout::is_good(&call.case.call.table)
    }),
    ("a bad boundary and a time out of range", |call| call.number() == 18 && call.failures.time),
    ("equal keys and a time out of range", |call| {
        call.number() == 1 && !call.failures.records && call.failures.time
    }),
    ("17 beside an empty record of the other part", |call| {
        call.number() == 17 && layout::records(call.others()).contains(&[0; RECORD])
    }),
    ("17 beside an expired record of the other part", |call| {
        let time = call.case.call.time;
        let is_expired = |record| layout::in_use(record) && !layout::is_live(record, time);
        call.number() == 17 && layout::records(call.others()).iter().any(is_expired)
    }),
    ("a value of the owner's part", |call| call.shows(Party::Owner, false)),
    ("a value of the installer's part", |call| call.shows(Party::Installer, false)),
    ("a value of the installer's command", |call| call.shows(Party::Installer, true)),
];

impl Call<'_> {
    fn number(&self) -> u32 {
        self.outcome.answer.number
    }

    fn count(&self) -> usize {
        self.case.call.table.len() / RECORD
    }

    /// The bytes of a party's part. The boundary is good.
    fn part(&self, party: Party) -> &[u8] {
        let table = &self.case.call.table;
        &table[part_of(party, self.case.boundary, table.len())]
    }

    fn mine(&self) -> &[u8] {
        self.part(self.case.party)
    }

    fn others(&self) -> &[u8] {
        self.part(other(self.case.party))
    }

    /// Whether the command's key stands in a part.
    fn is_in(&self, part: &[u8]) -> bool {
        let words = decode(&self.case.call.command).unwrap_or_default();
        words.get(1).is_some_and(|key| layout::find(part, key).is_some())
    }

    fn writes(&self) -> bool {
        self.number() == 0 && self.outcome.table != self.case.call.table
    }

    /// Whether records are damaged in the caller's part, and in the other one.
    fn damage(&self) -> Option<(bool, bool)> {
        let whole = self.case.call.table.len().is_multiple_of(RECORD);
        let has_parts = whole && self.count() <= MAX_RECORDS && !self.failures.boundary;
        let is_damaged = |part| !layout::has_good_records(part);
        has_parts.then(|| (is_damaged(self.mine()), is_damaged(self.others())))
    }

    fn shows(&self, party: Party, in_command: bool) -> bool {
        self.case.party == party && self.shown.is_some_and(|shown| shown.in_command == in_command)
    }
}

/// One call of each of the two functions.
fn check_case(store: &Candidate, case: &SharedCase, seen: &mut Seen) -> Result<(), String> {
    let outcome = case.compare(store)?;
    if outcome != case.expected() {
        return Err(format!("other than by the rules: {:?}\n{}", outcome.answer, case.again()));
    }
    let shown = case.compare_current_value(store)?;
    if shown != case.expected_current_value() {
        return Err(format!("other than by the rules: {shown:?}\n{}", case.again()));
    }
    let call = Call { case, failures: Failures::of(case), outcome: &outcome, shown };
    let mut add = |name: String| *seen.entry(name).or_default() += 1;
    add(format!("{:?}: number {}", case.party, call.number()));
    PROPERTIES.iter().filter(|(_, test)| test(&call)).for_each(|(name, _)| add(name.to_string()));
    Ok(())
}

/// So many calls.
pub fn check(store: &Candidate, calls: u64) -> Result<Seen, String> {
    let seed = settings::seed();
    let mut rng = Rng::new(seed);
    let mut seen = Seen::new();
    for call in 0..calls {
        check_case(store, &shared_case(&mut rng), &mut seen)
            .map_err(|error| format!("seed {seed}, call {call}: {error}"))?;
    }
    Ok(seen)
}

#[test]
fn the_library_agrees_with_the_reference_on_shared_tables() {
    let (seed, calls) = (settings::seed(), settings::calls() / 2);
    settings::announce(&format!("comparing {calls} random calls of two parties, seed {seed}"));
    let seen = check(&LIBRARY, calls).unwrap_or_else(|error| panic!("{error}"));
    println!("{seen:?}");
    let parties = [Party::Owner, Party::Installer];
    let numbers = parties
        .iter()
        .flat_map(|party| (0..=18).map(move |number| format!("{party:?}: number {number}")));
    for name in numbers.chain(PROPERTIES.map(|(name, _)| name.to_string())) {
        let times = seen.get(&name).copied().unwrap_or(0);
        assert!(times >= calls / 5000, "'{name}' occurs {times} times");
    }
}

#[test]
fn a_seed_gives_the_same_cases_again() {
    let (mut a, mut b) = (Rng::new(7), Rng::new(7));
    for _ in 0..1000 {
        assert_eq!(shared_case(&mut a), shared_case(&mut b));
    }
}
