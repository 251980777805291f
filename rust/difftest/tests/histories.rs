//! Random histories: the library runs transactions as if one at a time, and
//! stores with one of the well-known mistakes are found out.

use difftest::compare::library;
use difftest::history::{check, Summary};
use difftest::numerals::form;
use difftest::{layout, resp, settings, Answer, Rng};
use reference::call;

#[test]
fn the_library_runs_transactions_as_if_one_at_a_time() {
    let (seed, histories) = (settings::seed(), settings::histories());
    settings::announce(&format!("checking {histories} random histories, seed {seed}"));
    let mut total = Summary::default();
    for history in 0..histories {
        // Each has a seed of its own, so that one can be run again alone.
        let seed = seed.wrapping_add(history);
        match check(&mut Rng::new(seed), library) {
            Ok(summary) => total.add(&summary),
            Err(error) => panic!(
                "{error}\nrun it again, in rust/: PIETRUNEL_SEED={seed} PIETRUNEL_HISTORIES=1 \
                 cargo test --release --offline --test histories"
            ),
        }
    }
    println!("{total:?}");
    let counts = [
        total.ok, total.stale, total.long_versions, total.refused_writes, total.reads_only,
        total.others, total.bitfields, total.refused,
    ];
    assert!(counts.iter().all(|count| *count as u64 >= histories / 4), "{total:?}");
}

/// How many histories it takes to find the mistake out.
fn found_after(mut store: impl FnMut(&mut [u8], u64, &[u8], &mut [u8]) -> Answer) -> Option<u64> {
    let mut rng = Rng::new(12);
    (1..=1000).find(|_| check(&mut rng, &mut store).is_err())
}

/// The versions of all records, to be put back.
fn put_back_versions(before: &[u8], after: &mut [u8], same_value_only: bool) {
    for (old, new) in layout::records(before).iter().zip(layout::records_mut(after)) {
        let same_key =
            layout::in_use(old) && layout::in_use(new) && layout::key(old) == layout::key(new);
        if same_key && (!same_value_only || layout::value(old) == layout::value(new)) {
            let version = layout::version(old);
            new[8..16].copy_from_slice(&version.to_le_bytes());
        }
    }
}

#[test]
fn a_version_that_does_not_rise_with_equal_text_is_found() {
    let found = found_after(|table, time, command, reply| {
        let before = table.to_vec();
        let answer = call(table, time, command, reply);
        put_back_versions(&before, table, true);
        answer
    });
    assert!(found.is_some_and(|count| count <= 50), "{found:?}");
}

#[test]
fn a_version_that_never_rises_is_found() {
    let found = found_after(|table, time, command, reply| {
        let before = table.to_vec();
        let answer = call(table, time, command, reply);
        put_back_versions(&before, table, false);
        answer
    });
    assert!(found.is_some_and(|count| count <= 50), "{found:?}");
}

#[test]
fn a_table_that_never_changes_is_found() {
    let found = found_after(|table, time, command, reply| {
        let mut copy = table.to_vec();
        call(&mut copy, time, command, reply)
    });
    assert!(found.is_some_and(|count| count <= 50), "{found:?}");
}

#[test]
fn a_store_that_obeys_only_once_is_found() {
    let mut writes = 0;
    let found = found_after(|table, time, command, reply| {
        let mut copy = table.to_vec();
        let answer = call(&mut copy, time, command, reply);
        if copy != table {
            writes += 1;
            if writes == 1 {
                table.copy_from_slice(&copy);
            }
        }
        answer
    });
    assert!(found.is_some_and(|count| count <= 50), "{found:?}");
}

#[test]
fn a_store_that_refuses_everything_is_found() {
    let found = found_after(|_, _, _, _| Answer { number: 4, len: 0 });
    assert_eq!(found, Some(1));
}

#[test]
fn a_lost_expiry_is_found() {
    let found = found_after(|table, time, command, reply| {
        let before = table.to_vec();
        let answer = call(table, time, command, reply);
        for (old, new) in layout::records(&before).iter().zip(layout::records_mut(table)) {
            if old != new {
                new[16..24].fill(0);
            }
        }
        answer
    });
    assert!(found.is_some_and(|count| count <= 50), "{found:?}");
}

#[test]
fn a_write_on_another_record_is_found() {
    let mut rng = Rng::new(5);
    let found = found_after(|table, time, command, reply| {
        let before = table.to_vec();
        let answer = call(table, time, command, reply);
        if before != table {
            let records = layout::records_mut(table);
            let slot = rng.below(records.len());
            if layout::in_use(&records[slot]) {
                records[slot][4] ^= 1;
            }
        }
        answer
    });
    assert!(found.is_some_and(|count| count <= 50), "{found:?}");
}

/// A store whose EXCAS takes another text for its version, where there is one.
fn with_version(
    other: impl Fn(&[u8]) -> Option<String>,
) -> impl FnMut(&mut [u8], u64, &[u8], &mut [u8]) -> Answer {
    move |table, time, command, reply| {
        let mut words = resp::decode(command).unwrap_or_default();
        let version = match &words[..] {
            [name, _, _, version, ..] if name.eq_ignore_ascii_case(b"EXCAS") => other(version),
            _ => None,
        };
        let Some(version) = version else {
            return call(table, time, command, reply);
        };
        words[3] = version.into();
        call(table, time, &resp::encode(&words), reply)
    }
}

#[test]
fn a_form_of_the_version_that_is_refused_is_found() {
    for refused in
        ["a plus", "a plus and twenty digits", "a plus and zeros", "twenty digits", "zeros"]
    {
        let found = found_after(with_version(|text| (form(text) == refused).then(|| "x".into())));
        assert!(found.is_some_and(|count| count <= 100), "{refused}: {found:?}");
    }
}

#[test]
fn a_version_that_zeros_make_octal_is_found() {
    let found = found_after(with_version(|text| {
        let digits = std::str::from_utf8(text).ok().filter(|text| text.starts_with('0'))?;
        Some(i64::from_str_radix(digits, 8).ok()?.to_string())
    }));
    assert!(found.is_some_and(|count| count <= 100), "{found:?}");
}

#[test]
fn a_version_of_twenty_one_digits_that_is_taken_is_found() {
    let found = found_after(with_version(|text| {
        let rest = std::str::from_utf8(text.strip_prefix(b"0")?).ok()?;
        (rest.len() == 20).then(|| rest.to_string())
    }));
    assert!(found.is_some_and(|count| count <= 50), "{found:?}");
}
