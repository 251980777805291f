//! Every kind of number word, and the stored text that EXINCRBY reads, comes up in
//! every form that is read and in every one that is not.

use super::*;
use difftest::number_words::{number_words, KINDS};
use difftest::numerals::{form, BAD_FORMS, GOOD_FORMS};
use std::collections::BTreeMap;

#[test]
fn every_number_comes_up_in_every_form() {
    let mut counts = BTreeMap::new();
    for call in calls() {
        for word in number_words(&call.words) {
            *counts.entry((word.kind, form(word.text))).or_insert(0) += 1;
        }
        if let Some(text) = call.counted_text() {
            *counts.entry(("stored", form(text))).or_insert(0) += 1;
        }
    }
    println!("{counts:#?}");
    for kind in KINDS.into_iter().chain(["stored"]) {
        let count = |form| counts.get(&(kind, form)).copied().unwrap_or(0);
        for form in GOOD_FORMS.into_iter().chain(BAD_FORMS) {
            assert!(count(form) >= 3, "{kind} has the form {form} {} times", count(form));
        }
        // Most numbers are as most senders write them.
        let numbers: u64 = GOOD_FORMS.into_iter().map(count).sum();
        assert!(2 * count("short") > numbers, "{kind} is short {} times", count("short"));
    }
}
