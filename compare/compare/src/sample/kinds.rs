//! The kinds of answers, as far as the sample tells them apart, and which act has which by document 01.

use answers::{Answer, Part, Refusal};
use paper::{file, lent};

use crate::request::Request;

#[derive(Clone, Copy, PartialEq, Eq, PartialOrd, Ord, Hash, Debug)]
pub enum Kind {
    /// Success of reading or of one-point.
    Answered,
    Unchanged,
    Changed,
    /// Success of genMP with a report of this kind.
    Step(u8),
    /// The buffer at this index is refused when it is read.
    Unread {
        buffer: usize,
        number: u8,
    },
    /// The act's own check, or a limit of the result.
    Refused(u8),
    /// 14, because the result exceeds the lent buffer of this index and would else be accepted.
    NoRoom(usize),
}

impl Kind {
    /// The kind of document 01's answer to a request.
    pub fn of(request: &Request, answer: &Answer) -> Kind {
        match answer {
            Ok(parts) => success(&request.act, parts),
            Err(refusal) if refusal.number <= 11 => {
                Kind::Unread { buffer: refused_buffer(request), number: refusal.number }
            }
            Err(Refusal { number: 14, .. }) => no_room(request).map_or(Kind::Refused(14), Kind::NoRoom),
            Err(refusal) => Kind::Refused(refusal.number),
        }
    }

    /// The heading under which it is counted.
    pub fn heading(self) -> String {
        match self {
            Kind::Answered => "ok".to_string(),
            Kind::Unchanged => "unchanged".to_string(),
            Kind::Changed => "changed".to_string(),
            Kind::Step(kind) => format!("report {kind}"),
            Kind::Unread { number, .. } | Kind::Refused(number) => number.to_string(),
            Kind::NoRoom(_) => "14".to_string(),
        }
    }

    pub fn is_success(self) -> bool {
        matches!(self, Kind::Answered | Kind::Unchanged | Kind::Changed | Kind::Step(_))
    }
}

fn success(act: &str, parts: &[Part]) -> Kind {
    match (act, parts) {
        ("genmp", [_, Part::Bytes(report)]) => Kind::Step(report[0]),
        (_, [Part::Number(0), Part::Bytes(_)]) => Kind::Unchanged,
        (_, [Part::Number(_), Part::Bytes(_)]) => Kind::Changed,
        _ => Kind::Answered,
    }
}

/// The first buffer that is refused by itself; the last where no earlier one is.
fn refused_buffer(request: &Request) -> usize {
    let lent = request.lent();
    let types = match request.has_sequent() {
        true => file::read(lent[0]).map(|sequent| sequent.types),
        false => lent::types(lent[0]),
    };
    let Ok(types) = types else {
        return 0;
    };
    let is_refused = |index: &usize| match (request.act.as_str(), index) {
        ("modify", 3) => lent::goal(lent[3], &types).is_err(),
        ("modify" | "forward" | "rewrite", _) => lent::list(lent[*index], &types).is_err(),
        _ => lent::formula(lent[*index], &types).is_err(),
    };
    (1..lent.len()).find(is_refused).unwrap_or(lent.len() - 1)
}

/// The first room that is too small for a result that is within the limits.
fn no_room(request: &Request) -> Option<usize> {
    let exact = request.exact()?;
    (0..exact.rooms.len()).find(|index| request.rooms[*index] < exact.rooms[*index])
}

/// The headings in the order of the table; document 01 has no 12.
pub fn headings() -> Vec<String> {
    let successes = ["ok", "unchanged", "changed", "report 1", "report 2", "report 3"].map(str::to_string);
    let numbers = (1..=18).filter(|number| *number != 12).map(|number: u8| number.to_string());
    successes.into_iter().chain(numbers).collect()
}

/// The acts of the sample.
pub const ACTS: [&str; 10] =
    ["read", "select", "deselect", "hide", "show", "modify", "forward", "rewrite", "genmp", "onepoint"];

const OF_SEQUENT: &[u8] = &[1, 2, 3, 4, 5, 6, 7, 8, 9, 10, 11];
/// A lent formula or list has no header, flags or types of its own, and may repeat.
const OF_FORMULAS: &[u8] = &[1, 7, 8, 9, 11];
/// One-point's buffer of type bytes: over 64 is 4, and may be empty.
const OF_TYPES: &[u8] = &[4, 5];

/// Every kind of answer that document 01 lets an act give.
pub fn allowed(act: &str) -> Vec<Kind> {
    let unread = |buffer: usize| {
        let numbers = match (act, buffer) {
            ("onepoint", 0) => OF_TYPES,
            (_, 0) => OF_SEQUENT,
            _ => OF_FORMULAS,
        };
        numbers.iter().map(move |number| Kind::Unread { buffer, number: *number })
    };
    let (buffers, rooms) = paper::shape(act).expect("a known act");
    let mut out: Vec<Kind> = (0..buffers).flat_map(unread).collect();
    out.extend((0..rooms).map(Kind::NoRoom));
    // 13, 15 to 18 are of one act each; 14 for limits is of those whose result can be larger.
    out.extend_from_slice(match act {
        "read" => &[Kind::Answered],
        "modify" => &[Kind::Unchanged, Kind::Changed, Kind::Refused(18), Kind::Refused(14)],
        "forward" | "rewrite" => &[Kind::Unchanged, Kind::Changed, Kind::Refused(14)],
        "genmp" => &[Kind::Step(1), Kind::Step(2), Kind::Step(3), Kind::Refused(13), Kind::Refused(14)],
        "onepoint" => {
            &[Kind::Answered, Kind::Refused(15), Kind::Refused(16), Kind::Refused(17), Kind::Refused(14)]
        }
        _ => &[Kind::Unchanged, Kind::Changed],
    });
    out
}
