//! What the rules ask of every outcome, told without either store.

use crate::compare::Outcome;
use crate::layout;
use crate::resp::{decode, decode_reply, Reply};
use crate::Case;
use reference::Shown;

/// The error replies of numbers 5 to 17.
pub const ERRORS: [&str; 13] = [
    "-ERR unknown command\r\n",
    "-ERR wrong number of arguments\r\n",
    "-ERR string exceeds maximum allowed size\r\n",
    "-ERR syntax error\r\n",
    "-ERR value is not an integer or out of range\r\n",
    "-ERR invalid expire time\r\n",
    "-ERR min or max is specified, but not valid\r\n",
    "-ERR update version is stale\r\n",
    "-ERR stored value is not an integer\r\n",
    "-ERR increment or decrement would overflow\r\n",
    "-ERR version would overflow\r\n",
    "-ERR string exceeds maximum allowed size\r\n",
    "-ERR table is full\r\n",
];

impl Outcome {
    /// The bytes of the reply.
    pub fn reply(&self) -> &[u8] {
        &self.reply[..self.answer.len]
    }
}

/// Panics unless the numbers 1 to 4 come exactly where their own condition is
/// the first to hold.
pub fn first_numbers(case: &Case, number: u32) {
    let first = if !layout::is_good(&case.table) {
        1
    } else if case.time > layout::MAX_TIME {
        2
    } else if case.reply.len() < 128 {
        3
    } else if decode(&case.command).is_none() {
        4
    } else {
        assert!(number == 0 || number > 4, "{number}: {}", case.again());
        return;
    };
    assert_eq!(number, first, "{}", case.again());
}

/// Panics unless only those bytes changed that may.
pub fn bytes(before: &Case, after: &Outcome) {
    let len = after.answer.len;
    assert_eq!(after.reply[len..], before.reply[len..]);
    match after.answer.number {
        0 => {
            assert!(layout::is_good(&after.table));
            let records = layout::records(&before.table).iter().zip(layout::records(&after.table));
            assert!(records.filter(|(old, new)| old != new).count() <= 1);
            assert!(len <= 127);
            assert!(matches!(decode_reply(after.reply()), Some((_, []))));
        }
        1..=4 => {
            assert_eq!(len, 0);
            assert_eq!(after.table, before.table);
        }
        number => {
            assert_eq!(after.table, before.table);
            assert_eq!(after.reply(), ERRORS[number as usize - 5].as_bytes());
        }
    }
}

/// Panics unless the part shown is the value that stands at the key after a
/// call with a reply buffer of 128 bytes.
pub fn current_value(before: &Case, after: &Outcome, shown: Option<Shown>) {
    let words = decode(&before.command).unwrap_or_default();
    let name = words.first().map(|name| name.to_ascii_uppercase());
    let shows = matches!(name.as_deref(), Some(b"EXGET" | b"EXCAS"));
    if after.answer.number != 0 || !shows || !after.reply().starts_with(b"*") {
        assert_eq!(shown, None, "{}", before.again());
        return;
    }
    let shown = shown.unwrap_or_else(|| panic!("no value is shown: {}", before.again()));
    let whole = if shown.in_command { &before.command } else { &before.table };
    let slot = layout::find(&after.table, &words[1]).unwrap();
    let value = layout::value(&layout::records(&after.table)[slot]);
    assert_eq!(&whole[shown.start..shown.start + shown.len], value, "{}", before.again());
    assert_eq!(shown.in_command, after.reply().starts_with(b"*3\r\n+OK"));
}

/// The name of a command that was answered and the form of its reply: nil,
/// numbers, arrays.
pub fn form(case: &Case, outcome: &Outcome) -> String {
    let name = String::from_utf8(decode(&case.command).unwrap()[0].to_ascii_uppercase()).unwrap();
    let counts = ["EXSET", "EXINCRBY", "EXAPPEND", "EXPREPEND"].contains(&name.as_str());
    let text = |bytes: &[u8]| String::from_utf8(bytes.to_vec()).unwrap();
    let form = match decode_reply(outcome.reply()).unwrap().0 {
        Reply::Nil => "nil".to_string(),
        Reply::Simple(simple) => text(&simple),
        Reply::Integer(number) if counts => {
            assert!(number >= 0 || name == "EXINCRBY");
            "integer".to_string()
        }
        Reply::Integer(number) => number.to_string(),
        Reply::Array(items) => match &items[..] {
            [Reply::Simple(simple), ..] => text(simple),
            items => format!("array of {}", items.len()),
        },
        other => panic!("{other:?}"),
    };
    format!("{name}: {form}")
}
