//! The sequent file: reading with refusals 1 to 6, 10, 11, and writing with 14.

use answers::Refusal;

use crate::read::{predicate, refuse, short};
use crate::sequent::{Flag, Hypothesis, Sequent};

pub const HEADER: usize = 8;
pub const MOST_FILE_BYTES: usize = 60_000;
pub const MOST_IDENTIFIERS: usize = 64;
pub const MOST_HYPOTHESES: usize = 64;
const MARK: &[u8] = b"SQT";
const VERSION: [u8; 2] = [1, 0];

/// Reads a whole file from left to right.
pub fn read(bytes: &[u8]) -> Result<Sequent, Refusal> {
    check_header(bytes)?;
    let hypothesis_count = usize::from(bytes[6]);
    let types = read_types(bytes, HEADER, usize::from(bytes[5]))?;
    let mut at = HEADER + types.len();
    let mut hypotheses: Vec<Hypothesis> = Vec::new();
    for _ in 0..hypothesis_count {
        let (hypothesis, end) = read_hypothesis(bytes, at, &types, &hypotheses)?;
        hypotheses.push(hypothesis);
        at = end;
    }
    let (goal, end) = predicate(bytes, at, &types)?;
    if end < bytes.len() {
        return refuse(11, end);
    }
    Ok(Sequent { types, hypotheses, goal })
}

/// The header is asked 1, 2, 3, 4 in that order.
fn check_header(bytes: &[u8]) -> Result<(), Refusal> {
    if bytes.len() < HEADER || bytes.len() > MOST_FILE_BYTES {
        return short(bytes);
    }
    if &bytes[0..3] != MARK {
        return refuse(2, 0);
    }
    if bytes[3..5] != VERSION {
        return refuse(3, 3);
    }
    let too_many = usize::from(bytes[5]) > MOST_IDENTIFIERS || usize::from(bytes[6]) > MOST_HYPOTHESES;
    if too_many || bytes[7] != 0 {
        return refuse(4, 5);
    }
    Ok(())
}

/// `count` type bytes from `start`, asked byte by byte.
pub fn read_types(bytes: &[u8], start: usize, count: usize) -> Result<Vec<u8>, Refusal> {
    let mut types = Vec::new();
    for place in start..start + count {
        match bytes.get(place) {
            None => return short(bytes),
            Some(&byte) if byte > 2 => return refuse(5, place),
            Some(&byte) => types.push(byte),
        }
    }
    Ok(types)
}

/// The flag and predicate at `at`, and the place after them.
fn read_hypothesis(
    bytes: &[u8],
    at: usize,
    types: &[u8],
    earlier: &[Hypothesis],
) -> Result<(Hypothesis, usize), Refusal> {
    let flag = match bytes.get(at) {
        None => return short(bytes),
        Some(0) => Flag::Plain,
        Some(1) => Flag::Hidden,
        Some(2) => Flag::Selected,
        Some(_) => return refuse(6, at),
    };
    let (predicate, end) = predicate(bytes, at + 1, types)?;
    if earlier.iter().any(|hypothesis| hypothesis.predicate == predicate) {
        return refuse(10, at + 1);
    }
    Ok((Hypothesis { flag, predicate }, end))
}

fn flag_byte(flag: Flag) -> u8 {
    match flag {
        Flag::Plain => 0,
        Flag::Hidden => 1,
        Flag::Selected => 2,
    }
}

/// The file of a sequent, or 14 where it is over a limit or the lent room.
pub fn write(sequent: &Sequent, room: usize) -> Result<Vec<u8>, Refusal> {
    if sequent.hypotheses.len() > MOST_HYPOTHESES {
        return refuse(14, 0);
    }
    let mut out = MARK.to_vec();
    out.extend(VERSION);
    out.extend([sequent.types.len() as u8, sequent.hypotheses.len() as u8, 0]);
    out.extend(&sequent.types);
    for hypothesis in &sequent.hypotheses {
        out.push(flag_byte(hypothesis.flag));
        out.extend(hypothesis.predicate.bytes());
    }
    out.extend(sequent.goal.bytes());
    if out.len() > MOST_FILE_BYTES {
        return refuse(14, 0);
    }
    fitting(out, room)
}

/// The bytes, or 14 where they exceed the lent room.
pub fn fitting(bytes: Vec<u8>, room: usize) -> Result<Vec<u8>, Refusal> {
    if bytes.len() > room {
        return refuse(14, 0);
    }
    Ok(bytes)
}
