//! RESP2, told the plain way: commands encoded and decoded, replies decoded.

/// The words as an array of bulk strings.
pub fn encode(words: &[impl AsRef<[u8]>]) -> Vec<u8> {
    let mut bytes = format!("*{}\r\n", words.len()).into_bytes();
    for word in words {
        bytes.extend(encode_word(word.as_ref()));
    }
    bytes
}

pub fn encode_word(word: &[u8]) -> Vec<u8> {
    [format!("${}\r\n", word.len()).as_bytes(), word, b"\r\n"].concat()
}

/// The words of a command of at most 512 bytes, if it is an array of 1 to 16
/// bulk strings. What was decoded must encode to the same bytes.
pub fn decode(command: &[u8]) -> Option<Vec<Vec<u8>>> {
    let (Reply::Array(items), []) = decode_reply(command)? else {
        return None;
    };
    let words: Vec<Vec<u8>> = items
        .into_iter()
        .map(|item| match item {
            Reply::Bulk(bytes) => Some(bytes),
            _ => None,
        })
        .collect::<Option<_>>()?;
    let whole = encode(&words) == command;
    (whole && command.len() <= 512 && (1..=16).contains(&words.len())).then_some(words)
}

/// A RESP2 value.
#[derive(Clone, Debug, PartialEq, Eq)]
pub enum Reply {
    Simple(Vec<u8>),
    Error(Vec<u8>),
    Integer(i64),
    Nil,
    Bulk(Vec<u8>),
    Array(Vec<Reply>),
}

/// A value at the start of the bytes, and the bytes after it.
pub fn decode_reply(bytes: &[u8]) -> Option<(Reply, &[u8])> {
    let end = bytes.windows(2).position(|pair| pair == b"\r\n")?;
    let (kind, line) = bytes[..end].split_first()?;
    let rest = &bytes[end + 2..];
    let number = || std::str::from_utf8(line).ok()?.parse::<i64>().ok();
    let reply = match kind {
        b'+' => Reply::Simple(line.to_vec()),
        b'-' => Reply::Error(line.to_vec()),
        b':' => Reply::Integer(number()?),
        b'$' if line == b"-1" => Reply::Nil,
        b'$' => {
            let len = usize::try_from(number()?).ok().filter(|len| *len <= rest.len())?;
            let (bulk, rest) = rest.split_at(len);
            return Some((Reply::Bulk(bulk.to_vec()), rest.strip_prefix(b"\r\n")?));
        }
        b'*' => {
            let mut items = Vec::new();
            let mut rest = rest;
            for _ in 0..usize::try_from(number()?).ok().filter(|count| *count <= bytes.len())? {
                let (item, after) = decode_reply(rest)?;
                items.push(item);
                rest = after;
            }
            return Some((Reply::Array(items), rest));
        }
        _ => return None,
    };
    Some((reply, rest))
}
