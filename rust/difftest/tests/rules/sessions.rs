//! The example sessions of the two TairString documents and of the one on string
//! commands that stay within the store's commands: each from an empty table,
//! commands as typed, replies as redis-cli prints them. The two TairString
//! documents agree on all of them; prompts are shortened, notes and trailing
//! blanks left out.

use super::*;
use difftest::resp::{decode_reply, Reply};

/// Runs a session: lines after `> ` are sent, the lines up to the next are
/// the reply.
fn run(session: &str) {
    for records in [1, 2, 40] {
        let mut store = Store::new(records);
        for step in session.split("> ").skip(1) {
            let (text, expected) = step.split_once('\n').unwrap();
            if text == "FLUSHALL" {
                store.table.fill(0);
                continue;
            }
            let (number, reply) = store.send(&line(text));
            assert_eq!(printed(&reply), expected.trim_end(), "{text}");
            assert_eq!(number != 0, expected.starts_with("(error)"), "{text}");
        }
    }
}

/// A reply as redis-cli prints it, without trailing blanks.
fn printed(reply: &[u8]) -> String {
    let Some((reply, [])) = decode_reply(reply) else {
        panic!("not one reply: {}", reply.escape_ascii());
    };
    match &reply {
        Reply::Array(items) => {
            let line = |(at, item)| format!("{}) {}", at + 1, printed_item(item));
            let lines = items.iter().enumerate().map(line);
            lines.map(|line| line.trim_end().to_string()).collect::<Vec<_>>().join("\n")
        }
        item => printed_item(item),
    }
}

/// One reply that is no array.
fn printed_item(item: &Reply) -> String {
    match item {
        Reply::Simple(text) => text.escape_ascii().to_string(),
        Reply::Error(text) => format!("(error) {}", text.escape_ascii()),
        Reply::Integer(number) => format!("(integer) {number}"),
        Reply::Nil => "(nil)".to_string(),
        Reply::Bulk(bytes) => format!("\"{}\"", bytes.escape_ascii()),
        Reply::Array(_) => panic!("an array in an array"),
    }
}

/// Both documents, quick start.
#[test]
fn quick_start() {
    run(r#"
> EXSET foo 100
OK
> EXGET foo
1) "100"
2) (integer) 1
> EXSET foo 200 VER 1
OK
> EXGET foo
1) "200"
2) (integer) 2
> EXSET foo 300 VER 1
(error) ERR update version is stale
> EXINCRBY foo 100
(integer) 300
> EXGET foo
1) "300"
2) (integer) 3
> EXSETVER foo 100
(integer) 1
> EXGET foo
1) "300"
2) (integer) 100
> EXCAS foo 400 100
1) OK
2)
3) (integer) 101
> EXGET foo
1) "400"
2) (integer) 101
> EXCAD foo 101
(integer) 1
> EXGET foo
(nil)
"#);
}

/// Both documents, EXSET.
#[test]
fn exset() {
    run(r#"
> EXSET foo bar XX
(nil)
> EXSET foo bar NX
OK
> EXSET foo bar NX
(nil)
> EXGET foo
1) "bar"
2) (integer) 1
> EXSET foo bar1 VER 10
(error) ERR update version is stale
> EXSET foo bar1 VER 1
OK
> EXGET foo
1) "bar1"
2) (integer) 2
> EXSET foo bar2 ABS 100
OK
> EXGET foo
1) "bar2"
2) (integer) 100
"#);
}

/// Both documents, EXGET.
#[test]
fn exget() {
    run(r#"
> EXSET foo bar ABS 100
OK
> EXGET foo
1) "bar"
2) (integer) 100
> DEL foo
(integer) 1
> EXGET foo
(nil)
"#);
}

/// Both documents, EXSETVER.
#[test]
fn exsetver() {
    run(r#"
> EXSET foo bar
OK
> EXGET foo
1) "bar"
2) (integer) 1
> EXSETVER foo 2
(integer) 1
> EXGET foo
1) "bar"
2) (integer) 2
> EXSETVER not-exists 0
(integer) 0
"#);
}

/// Both documents, EXINCRBY. FLUSHALL is no command of the store: the test
/// empties the table itself.
#[test]
fn exincrby() {
    run(r#"
> EXINCRBY foo 100
(integer) 100
> EXINCRBY foo 100 MAX 150
(error) ERR increment or decrement would overflow
> FLUSHALL
OK
> EXINCRBY foo 100
(integer) 100
> EXINCRBY foo 100 MAX 150
(error) ERR increment or decrement would overflow
> EXINCRBY foo 100 MAX 300
(integer) 200
> EXINCRBY foo 100 MIN 500
(error) ERR increment or decrement would overflow
> EXINCRBY foo 100 MIN 500 MAX 100
(error) ERR min or max is specified, but not valid
> EXINCRBY foo 100 MIN 50
(integer) 300
"#);
}

/// Both documents, EXCAS; in the first also under EXAPPEND, EXPREPEND and EXGAE.
#[test]
fn excas() {
    run(r#"
> EXSET foo bar
OK
> EXCAS foo bzz 1
1) OK
2)
3) (integer) 2
> EXGET foo
1) "bzz"
2) (integer) 2
> EXCAS foo bee 1
1) ERR update version is stale
2) "bzz"
3) (integer) 2
"#);
}

/// Both documents, EXCAD.
#[test]
fn excad() {
    run(r#"
> EXSET foo bar
OK
> EXGET foo
1) "bar"
2) (integer) 1
> EXCAD not-exists 1
(integer) -1
> EXCAD foo 0
(integer) 0
> EXCAD foo 1
(integer) 1
> EXGET foo
(nil)
"#);
}

/// Source document 002, BITFIELD.
#[test]
fn bitfield() {
    run(r#"
> BITFIELD mykey incrby u2 100 1 OVERFLOW SAT incrby u2 102 1
1) (integer) 1
2) (integer) 1
> BITFIELD mykey incrby u2 100 1 OVERFLOW SAT incrby u2 102 1
1) (integer) 2
2) (integer) 2
> BITFIELD mykey incrby u2 100 1 OVERFLOW SAT incrby u2 102 1
1) (integer) 3
2) (integer) 3
> BITFIELD mykey incrby u2 100 1 OVERFLOW SAT incrby u2 102 1
1) (integer) 0
2) (integer) 3
"#);
}
