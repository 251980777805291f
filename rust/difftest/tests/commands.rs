//! Commands that the wrapper makes of words, by the library, on random words.

use difftest::shared::shared_case;
use difftest::{case, printed, resp, settings, Case, Rng};
use pietrunel::{Command, CommandTooLong, Error, Party, Refusal, Reply};

fn command(words: &[Vec<u8>]) -> Command<'_> {
    words[1..].iter().fold(Command::new(&words[0]), |command, word| command.arg(word))
}

/// 1 to 20 words, often so long that they have just 512 bytes or a few more or less.
fn words(rng: &mut Rng) -> Vec<Vec<u8>> {
    let count = rng.between(1, 20);
    let longest = rng.pick(&[3, 10, 30, 120]);
    let mut words: Vec<Vec<u8>> = (0..count)
        .map(|_| {
            let len = rng.below(longest);
            rng.bytes(len)
        })
        .collect();
    let (len, wanted) = (resp::encode(&words).len(), rng.between(505, 520));
    if len < wanted && rng.chance(70) {
        let more = rng.bytes(wanted - len);
        let at = rng.below(count);
        words[at].extend(more);
    }
    words
}

#[test]
fn words_are_encoded_or_refused() {
    let mut rng = Rng::new(settings::seed());
    let mut refused = [0; 2];
    let mut longest = 0;
    for _ in 0..settings::calls() {
        let words = words(&mut rng);
        let bytes = resp::encode(&words);
        let fits = words.len() <= 16 && bytes.len() <= 512;
        match command(&words).encode() {
            Ok(encoded) => {
                assert!(fits, "{words:?}");
                assert_eq!(*encoded, *bytes);
                longest = longest.max(bytes.len());
            }
            Err(CommandTooLong) => {
                assert!(!fits, "{words:?}");
                refused[usize::from(words.len() > 16)] += 1;
            }
        }
    }
    assert_eq!(longest, 512);
    assert!(refused.iter().all(|count| *count > settings::calls() / 100), "{refused:?}");
}

#[test]
fn a_number_is_its_text() {
    let mut rng = Rng::new(settings::seed());
    for _ in 0..10_000 {
        let number = rng.next_u64() >> rng.below(64);
        let pairs = [
            (Command::new("EXSETVER").number(number), number.to_string()),
            (Command::new("EXSETVER").number(number as i64), (number as i64).to_string()),
            (Command::new("EXSETVER").number(number as u32), (number as u32).to_string()),
        ];
        for (command, text) in pairs {
            assert_eq!(*command.encode().unwrap(), *resp::encode(&["EXSETVER", &text]));
        }
    }
}

/// A call by words is the call by their bytes.
#[test]
fn a_command_calls_the_library() {
    let mut rng = Rng::new(settings::seed());
    for _ in 0..settings::calls() / 10 {
        let case = case(&mut rng);
        let Some(words) = resp::decode(&case.command) else {
            continue;
        };
        let (mut table, mut reply) = (case.table.clone(), case.reply.clone());
        let result = command(&words).call(&mut table, case.time, &mut reply);
        let (mut same_table, mut same_reply) = (case.table.clone(), case.reply.clone());
        let answer = pietrunel::call(&mut same_table, case.time, &case.command, &mut same_reply);
        let expected = answer.result().map(|_| printed::parse(&case.command, answer.reply()));
        assert_eq!(result, expected, "{}", case.again());
        assert_eq!((table, reply), (same_table, same_reply), "{}", case.again());
    }
}

/// A party's call by words is its call by their bytes.
#[test]
fn a_command_of_a_party_calls_the_library() {
    let mut rng = Rng::new(settings::seed());
    for _ in 0..settings::calls() / 10 {
        let case = shared_case(&mut rng);
        let party = rng.pick(&[Party::Whole, Party::Owner, Party::Installer]);
        let (again, boundary) = (case.again(), case.boundary);
        let Case { table, time, command: bytes, reply } = case.call;
        let Some(words) = resp::decode(&bytes) else {
            continue;
        };
        let (mut same_table, mut same_reply) = (table.clone(), reply.clone());
        let (mut table, mut reply) = (table, reply);
        let result = command(&words).shared_call(party, boundary, &mut table, time, &mut reply);
        let answer =
            pietrunel::shared_call(party, boundary, &mut same_table, time, &bytes, &mut same_reply);
        let expected = answer.result().map(|_| printed::parse(&bytes, answer.reply()));
        assert_eq!(result, expected, "{again}");
        assert_eq!((table, reply), (same_table, same_reply), "{again}");
    }
}

#[test]
fn a_command_too_long_touches_nothing() {
    let (mut table, mut room) = ([1; 100], [7; 128]);
    let many = (0..16).fold(Command::new("EXGET"), |command, _| command.arg("foo"));
    let refusal = many.call(&mut table, 0, &mut room).unwrap_err();
    assert_eq!(refusal, Refusal::CommandTooLong);
    assert_eq!(refusal.to_string(), "a command has at most 16 words and 512 bytes of RESP2");
    assert_eq!((table, room), ([1; 100], [7; 128]));
}

/// A value goes from a reply into the next command.
#[test]
fn a_value_is_read_and_written_back() {
    let (mut table, mut room, mut other_room) = ([0; 256], [0; 128], [0; 128]);
    let set = Command::new("EXSET").arg(b"unit\r\n").arg(&[0, 255]).arg("WITHVERSION");
    assert_eq!(set.call(&mut table, 5, &mut room), Ok(Reply::Integer(1)));
    let get = Command::new("exget").arg("unit\r\n").arg("withflags");
    let Ok(Reply::Value { value, version, flags }) = get.call(&mut table, 5, &mut room) else {
        panic!("no value");
    };
    assert_eq!((value, flags), (&[0, 255][..], Some(0)));
    let swap = Command::new("EXCAS").arg("unit\r\n").arg(value).number(version);
    let swapped = swap.call(&mut table, 5, &mut other_room);
    assert_eq!(swapped, Ok(Reply::Swapped { version: 2 }));
    let encoded = swap.encode().unwrap();
    assert_eq!(pietrunel::current_value(&table, 5, &encoded), Some(&[0, 255][..]));
}

/// Two numbers of a BITFIELD are no sum with its version, in whatever case its name is.
#[test]
fn a_bitfield_answers_with_fields() {
    let (mut table, mut room) = ([0; 128], [0; 128]);
    for name in ["BITFIELD", "bitfield", "BitField"] {
        let command = Command::new(name).arg("k").arg("GET").arg("u8").arg("0");
        let command = command.arg("GET").arg("i8").arg("#1");
        let Ok(Reply::Fields(answers)) = command.call(&mut table, 5, &mut room) else {
            panic!("{name}");
        };
        assert_eq!(*answers, [Some(0), Some(0)]);
    }
    let none = Command::new("BITFIELD").arg("k").call(&mut table, 5, &mut room);
    assert!(matches!(none, Ok(Reply::Fields(answers)) if answers.is_empty()));
    let wrong = Command::new("BITFIELD").arg("k").arg("NOPE").call(&mut table, 5, &mut room);
    assert_eq!(wrong, Err(Refusal::Error(Error::Syntax)));
    let count = Command::new("EXINCRBY").arg("k").number(3).arg("WITHVERSION");
    let counted = count.call(&mut table, 5, &mut room);
    assert_eq!(counted, Ok(Reply::Counted { sum: 3, version: 1 }));
}
