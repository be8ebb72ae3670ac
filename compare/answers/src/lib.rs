//! What an act answers, in the terms that every program of the comparison shares.

/// One part of a success.
#[derive(Clone, PartialEq, Eq, Debug)]
pub enum Part {
    /// A count, or "changed" as 0 or 1.
    Number(u64),
    /// What the act wrote into a lent buffer.
    Bytes(Vec<u8>),
}

impl Part {
    /// What was written, where this part is bytes.
    pub fn bytes(&self) -> Option<&[u8]> {
        match self {
            Part::Bytes(bytes) => Some(bytes),
            Part::Number(_) => None,
        }
    }
}

/// Document 01's number and byte place.
#[derive(Clone, Copy, PartialEq, Eq, PartialOrd, Ord, Hash, Debug)]
pub struct Refusal {
    pub number: u8,
    pub place: usize,
}

pub type Answer = Result<Vec<Part>, Refusal>;

/// `-` for no bytes, else lower-case hex.
pub fn hex(bytes: &[u8]) -> String {
    if bytes.is_empty() {
        return "-".to_string();
    }
    bytes.iter().map(|b| format!("{b:02x}")).collect()
}

/// The bytes of a word of `hex`, or none where it is no such word.
pub fn unhex(word: &str) -> Option<Vec<u8>> {
    if word == "-" {
        return Some(Vec::new());
    }
    if word.is_empty() || word.len() % 2 != 0 {
        return None;
    }
    let digit = |c: u8| match c {
        b'0'..=b'9' => Some(c - b'0'),
        b'a'..=b'f' => Some(c - b'a' + 10),
        _ => None,
    };
    let digits = word.as_bytes();
    (0..digits.len() / 2).map(|i| Some(digit(digits[2 * i])? * 16 + digit(digits[2 * i + 1])?)).collect()
}

/// `ok ANSWER..` or `refuse NUMBER PLACE`.
pub fn line(answer: &Answer) -> String {
    match answer {
        Ok(parts) => {
            let mut out = "ok".to_string();
            for part in parts {
                out.push(' ');
                match part {
                    Part::Number(n) => out.push_str(&n.to_string()),
                    Part::Bytes(b) => out.push_str(&hex(b)),
                }
            }
            out
        }
        Err(r) => format!("refuse {} {}", r.number, r.place),
    }
}
