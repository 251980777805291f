//! Number words and stored numbers in random calls: each comes up in every form, the
//! library reads them as the reference does, and stores that read or write numbers
//! with one mistake are found out.

mod forms;
mod mistakes;
mod random;

use difftest::compare::Outcome;
use difftest::{layout, number_case, resp, Case, Rng};

/// How many random calls are looked at.
const CALLS: u64 = 200_000;

/// A case with the words of its command, and its outcome in the reference.
struct Call {
    case: Case,
    words: Vec<Vec<u8>>,
    outcome: Outcome,
}

/// Calls with numbers in their commands, but for those that 1 to 4 refuse.
fn calls() -> impl Iterator<Item = Call> {
    let mut rng = Rng::new(12);
    let cases = (0..CALLS).map(move |_| number_case(&mut rng));
    cases.filter_map(|case| {
        let outcome = case.run(reference::call);
        let words = resp::decode(&case.command)?;
        (!(1..=4).contains(&outcome.answer.number)).then_some(Call { case, words, outcome })
    })
}

impl Call {
    /// The slot whose text an EXINCRBY reads: that of its key, if it is live.
    fn counted_slot(&self) -> Option<usize> {
        let [name, key, _, ..] = &self.words[..] else {
            return None;
        };
        let slot = layout::find(&self.case.table, key)?;
        let is_live = layout::is_live(&layout::records(&self.case.table)[slot], self.case.time);
        (name.eq_ignore_ascii_case(b"EXINCRBY") && is_live).then_some(slot)
    }

    /// That text.
    fn counted_text(&self) -> Option<&[u8]> {
        let slot = self.counted_slot()?;
        Some(layout::value(&layout::records(&self.case.table)[slot]))
    }
}
