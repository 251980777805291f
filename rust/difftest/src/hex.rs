//! Bytes as lower-case hexadecimal text; `-` for no bytes, so that a line of
//! such texts can be cut at its blanks.

pub fn hex(bytes: &[u8]) -> String {
    if bytes.is_empty() {
        return "-".to_string();
    }
    bytes.iter().map(|byte| format!("{byte:02x}")).collect()
}

/// The bytes of such a text.
pub fn unhex(text: &str) -> Option<Vec<u8>> {
    if text == "-" {
        return Some(Vec::new());
    }
    let digits: Vec<u8> = text
        .chars()
        .map(|digit| digit.to_digit(16).map(|value| value as u8))
        .collect::<Option<_>>()?;
    let (pairs, rest) = digits.as_chunks::<2>();
    let bytes = pairs.iter().map(|[high, low]| high << 4 | low).collect();
    (rest.is_empty() && !pairs.is_empty()).then_some(bytes)
}

#[cfg(test)]
mod tests {
    use super::*;

    #[test]
    fn reads_what_it_writes() {
        for bytes in [vec![], vec![0], (0..=255).collect()] {
            assert_eq!(unhex(&hex(&bytes)), Some(bytes));
        }
        for text in ["", "0", "0g", "+1", "abc"] {
            assert_eq!(unhex(text), None, "{text}");
        }
    }
}
