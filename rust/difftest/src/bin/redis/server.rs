//! A connection to a redis-server.

use difftest::resp::{decode_reply, encode, Reply};
use std::io::{Read, Result, Write};
use std::os::unix::net::UnixStream;

pub struct Server {
    stream: UnixStream,
}

/// A reply, and its bytes.
#[derive(Debug)]
pub struct Answer {
    pub reply: Reply,
    pub bytes: Vec<u8>,
}

impl Server {
    pub fn connect(socket: &str) -> Result<Server> {
        Ok(Server { stream: UnixStream::connect(socket)? })
    }

    /// Sends a command and waits for its whole reply.
    pub fn send(&mut self, words: &[impl AsRef<[u8]>]) -> Answer {
        self.stream.write_all(&encode(words)).unwrap();
        let (mut bytes, mut part) = (Vec::new(), [0; 4096]);
        loop {
            let len = self.stream.read(&mut part).unwrap();
            assert!(len > 0, "Redis has closed the connection");
            bytes.extend(&part[..len]);
            if let Some((reply, [])) = decode_reply(&bytes) {
                return Answer { reply, bytes };
            }
        }
    }

    /// The value of a key, if it is there.
    pub fn value(&mut self, key: &[u8]) -> Option<Vec<u8>> {
        match self.send(&["GET".as_bytes(), key]).reply {
            Reply::Bulk(value) => Some(value),
            Reply::Nil => None,
            other => panic!("GET gives {other:?}"),
        }
    }
}
