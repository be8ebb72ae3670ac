//! Requests in the line format: `ACT BUFFER.. ROOM..`, perhaps with an expected answer after `->`.

use answers::{Answer, Part, hex, unhex};

/// Room enough for every result within document 01's limits.
pub const AMPLE: usize = 60_000;

/// An act with its lent buffers and the sizes of the buffers for its results.
#[derive(Clone, PartialEq, Eq, PartialOrd, Ord, Hash, Debug)]
pub struct Request {
    pub act: String,
    pub buffers: Vec<Vec<u8>>,
    pub rooms: Vec<usize>,
}

impl Request {
    /// A request with ample rooms.
    pub fn ample(act: &str, buffers: Vec<Vec<u8>>) -> Request {
        let rooms = paper::shape(act).map_or(0, |shape| shape.1);
        Request { act: act.to_string(), buffers, rooms: vec![AMPLE; rooms] }
    }

    /// None for a line that is no request.
    pub fn parse(line: &str) -> Option<Request> {
        let mut words = line.split_ascii_whitespace();
        let act = words.next()?;
        let (buffer_count, room_count) = paper::shape(act)?;
        let words: Vec<&str> = words.collect();
        if words.len() != buffer_count + room_count {
            return None;
        }
        let (buffers, rooms) = words.split_at(buffer_count);
        Some(Request {
            act: act.to_string(),
            buffers: buffers.iter().map(|word| unhex(word)).collect::<Option<_>>()?,
            rooms: rooms.iter().map(|word| decimal(word)).collect::<Option<_>>()?,
        })
    }

    pub fn line(&self) -> String {
        let buffers = self.buffers.iter().map(|buffer| hex(buffer));
        let rooms = self.rooms.iter().map(|room| room.to_string());
        let words: Vec<String> = std::iter::once(self.act.clone()).chain(buffers).chain(rooms).collect();
        words.join(" ")
    }

    pub fn lent(&self) -> Vec<&[u8]> {
        self.buffers.iter().map(Vec::as_slice).collect()
    }

    /// How many bytes are lent.
    pub fn size(&self) -> usize {
        self.buffers.iter().map(Vec::len).sum()
    }

    pub fn with_rooms(&self, rooms: Vec<usize>) -> Request {
        Request { rooms, ..self.clone() }
    }

    /// The request with rooms of exactly the lengths of document 01's answer; none where it is refused.
    pub fn exact(&self) -> Option<Request> {
        let ample = vec![AMPLE; self.rooms.len()];
        let parts = paper::run(&self.act, &self.lent(), &ample)?.ok()?;
        Some(self.with_rooms(parts.iter().filter_map(Part::bytes).map(<[u8]>::len).collect()))
    }

    /// Whether the first buffer is a sequent.
    pub fn has_sequent(&self) -> bool {
        !matches!(self.act.as_str(), "onepoint" | "formula" | "expression" | "equal")
    }
}

/// Digits alone: no sign.
fn decimal(word: &str) -> Option<usize> {
    if !word.bytes().all(|byte| byte.is_ascii_digit()) {
        return None;
    }
    word.parse().ok()
}

/// A line's request and the expected answer after its `->`, if there is one.
pub fn parted(line: &str) -> (&str, Option<&str>) {
    match line.split_once("->") {
        Some((request, expected)) => (request.trim(), Some(expected.trim())),
        None => (line.trim(), None),
    }
}

/// In the place of an answer where a program has none.
pub const ABSENT: &str = "absent";

/// An answer as the line format has it.
pub fn answer_line(answer: &Option<Answer>) -> String {
    answer.as_ref().map_or_else(|| ABSENT.to_string(), answers::line)
}

#[cfg(test)]
mod tests {
    use super::*;

    #[test]
    fn a_request_is_read_and_written() {
        for line in ["read 535154", "genmp - 0 60000", "modify 00 - ff 01 7", "onepoint - 0801 3 4"] {
            assert_eq!(Request::parse(line).expect("a request").line(), line);
        }
    }

    #[test]
    fn other_lines_are_no_requests() {
        for line in ["", "sing", "read", "read 5", "read 5A", "read - -", "genmp - 1 +1", "genmp - 1"] {
            assert_eq!(Request::parse(line), None, "{line}");
        }
    }

    #[test]
    fn a_long_line_is_read() {
        let line = format!("read {}", "01".repeat(1_000_000));
        assert_eq!(Request::parse(&line).expect("a request").size(), 1_000_000);
    }

    #[test]
    fn what_follows_the_arrow_is_expected() {
        assert_eq!(parted("read -  -> refuse 1 0"), ("read -", Some("refuse 1 0")));
        assert_eq!(parted("read -"), ("read -", None));
    }
}
