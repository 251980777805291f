//! The wrapper's assembler on random streams: its answers and the bytes that it
//! holds are those of the reference.

use difftest::streams::{stream, Stream};
use difftest::{settings, Rng};
use pietrunel::{Answer, Assembler, Progress};
use reference::{Fed, MORE};

/// The number and the reply of each answer.
type Answers = Vec<(u32, Vec<u8>)>;

/// The reference, with a buffer for the bytes that it holds.
struct Reference {
    held: [u8; 512],
    held_len: usize,
}

impl Reference {
    /// Feeds a whole piece.
    fn feed_all(&mut self, mut piece: &[u8], table: &mut [u8], time: u64) -> Answers {
        let mut answers = Answers::new();
        loop {
            let mut reply = [0; 128];
            let Fed { number, taken, len } =
                reference::feed(&mut self.held, &mut self.held_len, piece, table, time, &mut reply);
            if number == MORE {
                return answers;
            }
            answers.push((number, reply[..len].to_vec()));
            piece = &piece[taken..];
        }
    }
}

#[test]
fn whole_pieces_get_the_answers_of_the_reference() {
    let mut rng = Rng::new(settings::seed());
    let mut answered = 0;
    for _ in 0..settings::calls() / 50 {
        let Stream { mut table, time, pieces } = stream(&mut rng);
        let mut same_table = table.clone();
        let mut assembler = Assembler::new();
        let mut reference = Reference { held: [0; 512], held_len: 0 };
        for piece in pieces {
            let (mut reply, mut answers) = ([0; 128], Answers::new());
            assembler.feed_all(&piece, &mut table, time, &mut reply, |answer| {
                answers.push((answer.number(), answer.reply().to_vec()));
            });
            assert_eq!(answers, reference.feed_all(&piece, &mut same_table, time));
            assert_eq!(assembler.held(), &reference.held[..reference.held_len]);
            assert_eq!(table, same_table);
            answered += answers.iter().filter(|(number, _)| *number == 0).count() as u64;
        }
    }
    assert!(answered >= settings::calls() / 100, "{answered} are answered");
}

#[test]
fn what_is_held_can_be_seen_and_dropped() {
    let (mut table, mut reply) = ([0; 128], [7; 128]);
    let mut assembler = Assembler::default();
    assert_eq!(assembler.held(), b"");
    assert_eq!(assembler.feed(b"*1\r\n$4\r\nPI", &mut table, 0, &mut reply), Progress::More);
    assert_eq!(format!("{assembler:?}"), r#"Assembler { held: "*1\r\n$4\r\nPI" }"#);
    let mut other = assembler.clone();
    assembler.clear();
    assert_eq!(assembler.held(), b"");
    let Progress::Answer { taken: 1, answer } = assembler.feed(b"NG", &mut table, 0, &mut reply)
    else {
        panic!("the next byte begins a command");
    };
    assert_eq!((answer.number(), assembler.held()), (4, &b""[..]));
    let progress = other.feed(b"NG\r\n*", &mut table, 0, &mut reply);
    assert_eq!(progress.number(), 5);
    assert!(matches!(progress, Progress::Answer { taken: 4, answer: Answer::Error(..) }));
}

/// Table, time and reply buffer of the pieces before the last do not matter.
#[test]
fn only_the_last_piece_is_applied() {
    let mut reply = [7; 128];
    let mut assembler = Assembler::new();
    let more = assembler.feed(b"*2\r\n$3\r\nDEL\r\n", &mut [9; 5], u64::MAX, &mut []);
    assert_eq!(more, Progress::More);
    let progress = assembler.feed(b"$1\r\nk\r\n", &mut [0; 128], 0, &mut reply);
    assert_eq!(progress, Progress::Answer { taken: 7, answer: Answer::Reply(b":0\r\n") });
}
