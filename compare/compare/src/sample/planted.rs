//! Wrong lines behind the right ones. Each is a right line of the sample with one fault in its answer,
//! or a line that cannot be read; whoever replays the sample has to find every one of them.

use answers::{Answer, Part, Refusal};

use super::Line;
use super::kinds::{ACTS, Kind};
use crate::programs::Program;
use crate::request::Request;

#[derive(Clone, Copy, PartialEq, Eq, PartialOrd, Ord, Debug)]
pub enum Fault {
    /// A refusal with another number.
    Number,
    /// A refusal at another place.
    Place,
    /// A success in the place of a refusal.
    Accepted,
    /// A refusal in the place of a success.
    Refused,
    /// Another count, or another length of a formula.
    Count,
    /// "Changed" turned.
    Changed,
    /// One byte of a result is another.
    Byte,
    /// A byte more, and a byte less.
    Longer,
    Shorter,
    /// No request, or no answer.
    Malformed,
}

/// A wrong line, without the mark before it.
pub struct Planted {
    /// Empty for a line that cannot be read.
    pub act: String,
    pub fault: Fault,
    pub text: String,
}

/// An unknown act, hex cut in answer and request, no hex at all, no answer, half of one, and no room.
pub const MALFORMED: [&str; 8] = [
    "fly 01 -> ok 1",
    "read 5351540 -> refuse 1 3",
    "show 535154010000000001 01 60000 -> ok 0 53515401000000000",
    "formula - 0g -> ok 1",
    "read -",
    "read - ->",
    "read - -> refuse 1",
    "select 535154010000000001 01 -> ok 0 535154010000000001",
];

/// Of what the sample does not have: a success, and where there is one a refusal behind the first byte.
const FORMULAS: [&str; 4] = [
    "formula 00 102000220500000000000000",
    "formula 00 0310200023",
    "expression 00 26022000220100000000000000",
    "expression 00 292001",
];
const EQUAL: [&str; 2] = ["equal 00 1020002000 1020002000", "equal 00 1020002000 1120002000"];

/// How many bytes a line may lend from which a wrong one is made.
const MOST_BYTES: usize = 120;

/// The wrong lines that are made of these right ones, in a fixed order.
pub fn lines(right: &[Line]) -> Vec<Planted> {
    let mut out = Vec::new();
    let formulas: Vec<Line> = FORMULAS.iter().filter_map(|text| line_of(text)).collect();
    for act in ACTS.into_iter().chain(["formula", "expression"]) {
        let of_act: Vec<&Line> = right.iter().chain(&formulas).filter(|line| fits(line, act)).collect();
        plant(&of_act, &mut out);
    }
    for line in EQUAL.iter().filter_map(|text| line_of(text)) {
        out.extend(turned(&line));
    }
    let malformed =
        |text: &&str| Planted { act: String::new(), fault: Fault::Malformed, text: text.to_string() };
    out.extend(MALFORMED.iter().map(malformed));
    out
}

fn fits(line: &Line, act: &str) -> bool {
    line.request.act == act && line.request.size() <= MOST_BYTES
}

fn line_of(text: &str) -> Option<Line> {
    Line::of(Request::parse(text)?)
}

/// From one act's lines: every fault of a success and of a refusal while reading, "changed" turned where
/// nothing changes, and a success where only the act or a room refuses.
fn plant(lines: &[&Line], out: &mut Vec<Planted>) {
    let first = |wanted: &dyn Fn(&Line) -> bool| lines.iter().copied().find(|line| wanted(line));
    let success = first(&|line| line.kind.is_success() && line.kind != Kind::Unchanged);
    let unread =
        first(&|line| line.answer.as_ref().is_err_and(|refusal| refusal.number <= 11 && refusal.place > 0));
    let refused = first(&|line| matches!(line.kind, Kind::Refused(_) | Kind::NoRoom(_)));
    if let Some(line) = success {
        out.extend(of_success(line));
        out.extend(unread.iter().chain(&refused).filter_map(|refused| accepted(refused, line)));
    }
    out.extend(unread.iter().flat_map(|line| of_refusal(line)));
    out.extend(first(&|line| line.kind == Kind::Unchanged).and_then(turned));
}

fn planted(line: &Line, fault: Fault, answer: Answer) -> Planted {
    let text = format!("{} -> {}", line.request.line(), answers::line(&answer));
    Planted { act: line.request.act.clone(), fault, text }
}

fn of_refusal(line: &Line) -> Vec<Planted> {
    let Err(Refusal { number, place }) = line.answer else { return Vec::new() };
    vec![
        planted(line, Fault::Number, Err(Refusal { number: number + 1, place })),
        planted(line, Fault::Place, Err(Refusal { number, place: place - 1 })),
    ]
}

/// What a larger room would have had, or else the parts of a success of the same act.
fn accepted(refused: &Line, success: &Line) -> Option<Planted> {
    let fitting = refused.request.exact().and_then(|exact| Program::Paper.answer(&exact));
    let parts = fitting.unwrap_or_else(|| success.answer.clone()).ok()?;
    Some(planted(refused, Fault::Accepted, Ok(parts)))
}

/// The success with its first number turned from 0 to 1, or from 1 to 0.
fn turned(line: &Line) -> Option<Planted> {
    let Ok([Part::Number(number), rest @ ..]) = line.answer.as_deref() else { return None };
    let parts = [&[Part::Number(1 - (*number).min(1))], rest].concat();
    Some(planted(line, Fault::Changed, Ok(parts)))
}

fn of_success(line: &Line) -> Vec<Planted> {
    let Ok(parts) = &line.answer else { return Vec::new() };
    let mut out = vec![planted(line, Fault::Refused, Err(Refusal { number: 14, place: 0 }))];
    for (index, part) in parts.iter().enumerate() {
        for (fault, part) in of_part(part, line.kind == Kind::Changed) {
            let mut wrong = parts.clone();
            wrong[index] = part;
            out.push(planted(line, fault, Ok(wrong)));
        }
    }
    out
}

fn of_part(part: &Part, is_changed: bool) -> Vec<(Fault, Part)> {
    match part {
        Part::Number(number) if is_changed => vec![(Fault::Changed, Part::Number(1 - number))],
        Part::Number(number) => vec![(Fault::Count, Part::Number(number + 1))],
        Part::Bytes(bytes) => {
            let (mut other, mut longer, mut shorter) = (bytes.clone(), bytes.clone(), bytes.clone());
            other[bytes.len() / 2] ^= 1;
            longer.push(1);
            shorter.pop();
            let wrong = [(Fault::Byte, other), (Fault::Longer, longer), (Fault::Shorter, shorter)];
            wrong.into_iter().map(|(fault, bytes)| (fault, Part::Bytes(bytes))).collect()
        }
    }
}
