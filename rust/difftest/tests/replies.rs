//! Replies that the wrapper takes apart, whole and damaged, on random calls.

use difftest::compare::library;
use difftest::{case, expect, printed, settings, Rng};
use pietrunel::{Answer, Refusal, Reply};

/// Every reply has a form that is known, and the form tells its bytes.
#[test]
fn every_reply_is_taken_apart() {
    let mut rng = Rng::new(settings::seed());
    for _ in 0..settings::calls() {
        let case = case(&mut rng);
        let outcome = case.run(library);
        if outcome.reply().is_empty() {
            continue;
        }
        let reply = printed::parse(&case.command, outcome.reply());
        assert!(!matches!(reply, Reply::Other(_)), "{}", case.again());
        assert_eq!(printed::bytes(&reply), outcome.reply(), "{}", case.again());
    }
}

/// Bytes that no reply has are taken for none: what has a form is that form's bytes.
#[test]
fn damaged_replies_are_told_apart() {
    let mut rng = Rng::new(settings::seed());
    let mut others = 0;
    for _ in 0..settings::calls() {
        let mut bytes = case(&mut rng).run(library).reply().to_vec();
        damage(&mut rng, &mut bytes);
        let reply = Reply::parse(&bytes);
        assert_eq!(printed::bytes(&reply), bytes, "{}", bytes.escape_ascii());
        others += u64::from(matches!(reply, Reply::Other(_)));
        let fields = Reply::parse_bitfield(&bytes);
        assert_eq!(printed::bytes(&fields), bytes, "{}", bytes.escape_ascii());
    }
    assert!(others > settings::calls() / 4, "{others} were damaged");
}

fn damage(rng: &mut Rng, bytes: &mut Vec<u8>) {
    let at = rng.below(bytes.len() + 1);
    match rng.below(5) {
        0 => bytes.truncate(at),
        1 => bytes.insert(at, rng.pick(b"\r\n0129-+:$*x")),
        2 => bytes.push(rng.pick(b"\r\n0+")),
        _ if at == bytes.len() => {}
        3 => bytes[at] = rng.pick(b"\r\n0129-+:$*x"),
        _ => {
            bytes.remove(at);
        }
    }
}

/// The replies of BITFIELD: as many numbers and nils as there can be, and no other.
#[test]
fn fields_are_taken_apart() {
    for (bytes, answers) in [
        ("*0\r\n", &[][..]),
        ("*1\r\n$-1\r\n", &[None]),
        ("*1\r\n:-1\r\n", &[Some(-1)]),
        ("*2\r\n:3\r\n:4\r\n", &[Some(3), Some(4)]),
        (
            "*4\r\n:0\r\n$-1\r\n:-9223372036854775808\r\n:1\r\n",
            &[Some(0), None, Some(i64::MIN), Some(1)],
        ),
    ] {
        let Reply::Fields(fields) = Reply::parse_bitfield(bytes.as_bytes()) else {
            panic!("{bytes:?}");
        };
        assert_eq!(*fields, *answers);
    }
    for bytes in [
        "", "*", "*1\r\n", "*0\r\n:1\r\n", "*-1\r\n", ":1\r\n", "$-1\r\n", "+OK\r\n",
        "*1\r\n+OK\r\n", "*1\r\n$1\r\n1\r\n", "*1\r\n*0\r\n",
        "*5\r\n:1\r\n:1\r\n:1\r\n:1\r\n:1\r\n", "*2\r\n:1\r\n", "*1\r\n:01\r\n", "*01\r\n:1\r\n",
    ] {
        assert_eq!(Reply::parse_bitfield(bytes.as_bytes()), Reply::Other(bytes.as_bytes()));
    }
    let error = Reply::parse_bitfield(b"-ERR syntax error\r\n");
    assert_eq!(error, Reply::Error(b"ERR syntax error"));
}

/// An answer as a result, and each error with the text of its reply.
#[test]
fn an_answer_is_a_result() {
    let mut rng = Rng::new(settings::seed());
    for _ in 0..settings::calls() / 10 {
        let mut case = case(&mut rng);
        let answer = pietrunel::call(&mut case.table, case.time, &case.command, &mut case.reply);
        match (answer, answer.result()) {
            (Answer::Reply(bytes), Ok(reply)) => assert_eq!(printed::bytes(&reply), bytes),
            (Answer::Error(error, bytes), Err(Refusal::Error(same))) => {
                assert_eq!(error, same);
                assert_eq!(format!("-ERR {error}\r\n").as_bytes(), bytes);
                assert_eq!(expect::ERRORS[error.number() as usize - 5].as_bytes(), bytes);
            }
            (Answer::Rejected(why), Err(Refusal::Rejected(same))) => assert_eq!(why, same),
            other => panic!("{other:?}"),
        }
    }
}
