//! Where the current value stands.

use super::*;
use reference::Shown;

/// Where it stands by both stores, which must agree.
fn current_value(table: &[u8], time: u64, command: &[u8]) -> Option<Shown> {
    let (table, command) = (table.to_vec(), command.to_vec());
    let case = Case { table, time, command, reply: Vec::new() };
    case.compare_current_value(&LIBRARY).unwrap_or_else(|difference| panic!("{difference}"))
}

fn shown(store: &Store, text: &str) -> Option<Shown> {
    current_value(&store.table, store.time, &line(text))
}

/// The shown part, from where it stands.
fn part<'a>(store: &'a Store, command: &'a [u8]) -> Option<(bool, &'a [u8])> {
    let shown = current_value(&store.table, store.time, command)?;
    let whole = if shown.in_command { command } else { &store.table };
    Some((shown.in_command, &whole[shown.start..shown.start + shown.len]))
}

fn store() -> Store {
    let mut store = Store::new(3);
    store.answer("EXSET first one", "+OK\r\n");
    store.answer("EXSET foo bar ABS 7", "+OK\r\n");
    store
}

#[test]
fn exget_shows_the_record() {
    let store = store();
    let expected = Some(Shown { in_command: false, start: 128 + 48, len: 3 });
    assert_eq!(shown(&store, "EXGET foo"), expected);
    assert_eq!(shown(&store, "exget foo withflags"), expected);
    assert_eq!(part(&store, &line("EXGET foo")), Some((false, &b"bar"[..])));
}

#[test]
fn excas_shows_the_command_where_it_succeeds() {
    let store = store();
    // *4 CR LF, $5 CR LF EXCAS CR LF, $3 CR LF foo CR LF, $4 CR LF: 4 + 11 + 9 + 4
    let expected = Some(Shown { in_command: true, start: 28, len: 4 });
    assert_eq!(shown(&store, "EXCAS foo next 7"), expected);
    assert_eq!(shown(&store, "EXCAS foo next 7 KEEPTTL"), expected);
    for version in ["+7", "007", "+00000000000000000007"] {
        assert_eq!(shown(&store, &format!("EXCAS foo next {version}")), expected);
    }
    assert_eq!(part(&store, &line("EXCAS foo next 7")), Some((true, &b"next"[..])));
    // Live is judged before the command.
    assert_eq!(shown(&store, "EXCAS foo next 7 PXAT 1"), expected);
}

#[test]
fn excas_shows_the_record_where_it_is_stale() {
    let store = store();
    let expected = Some(Shown { in_command: false, start: 128 + 48, len: 3 });
    assert_eq!(shown(&store, "EXCAS foo next 6"), expected);
}

#[test]
fn an_empty_value_is_shown() {
    let mut store = store();
    let text = command(&[b"EXCAS", b"foo", b"", b"7"]);
    let expected = Some(Shown { in_command: true, start: 28, len: 0 });
    assert_eq!(current_value(&store.table, 0, &text), expected);
    assert_eq!(store.send(&text).0, 0);
    let expected = Some(Shown { in_command: false, start: 128 + 48, len: 0 });
    assert_eq!(shown(&store, "EXGET foo"), expected);
}

#[test]
fn other_commands_absent_keys_and_refusals_show_nothing() {
    let store = store();
    let lines = [
        "EXSET foo x", "EXGAE foo EX 5", "EXSETVER foo 7", "EXCAD foo 7", "EXINCRBY first 1",
        "EXAPPEND foo x", "DEL foo", "BITFIELD foo GET u8 0", "BITFIELD foo SET u8 0 1", "GET foo",
        "EXGET other", "EXCAS other x 1", "EXGET", "EXGET foo NOPE", "EXCAS foo x",
        "EXCAS foo x y", "EXCAS foo x 7 EX 0", "EXCAS foo x 7 EX", "EXCAS foo x 7 EX -0",
        "EXCAS foo x 000000000000000000007", "EXCAS foo x +-7",
    ];
    for text in lines {
        assert_eq!(shown(&store, text), None, "{text}");
    }
    assert_eq!(shown(&store, &format!("EXCAS foo {} 7", "x".repeat(65))), None);
    assert_eq!(shown(&store, &format!("EXGET {}", "k".repeat(25))), None);
    assert_eq!(current_value(&store.table, 0, b"EXGET foo"), None);
    assert_eq!(current_value(&store.table, TOP_TIME + 1, &line("EXGET foo")), None);
    assert_eq!(current_value(&store.table[1..], 0, &line("EXGET foo")), None);
    assert_eq!(current_value(&[], 0, &line("EXGET foo")), None);
}

#[test]
fn an_expired_record_shows_nothing() {
    let mut store = store();
    store.answer("EXGAE foo PXAT 1000", "*3\r\n$3\r\nbar\r\n:7\r\n:0\r\n");
    assert_eq!(shown(&store, "EXGET foo"), None);
    assert_eq!(shown(&store, "EXCAS foo x 7"), None);
    store.time = 999;
    assert!(shown(&store, "EXGET foo").is_some());
}

#[test]
fn at_the_top_version_only_what_succeeds_is_shown() {
    let mut store = store();
    store.answer(&format!("EXSETVER foo {TOP_VERSION}"), ":1\r\n");
    assert_eq!(shown(&store, &format!("EXCAS foo x {TOP_VERSION}")), None);
    assert!(shown(&store, "EXCAS foo x 7").is_some());
    assert!(shown(&store, "EXGET foo").is_some());
}

#[test]
fn a_damaged_record_elsewhere_shows_nothing() {
    let mut store = store();
    store.table[2 * 128 + 5] = 1;
    assert_eq!(shown(&store, "EXGET foo"), None);
}
