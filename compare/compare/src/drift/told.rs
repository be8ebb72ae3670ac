//! What was lent and what was answered, in symbols, and the part of it that a reviewer has to see.

use answers::{Answer, Part};
use paper::codes::Sort;

use crate::loose;
use crate::request::Request;
use crate::show;

/// The sequent or predicate that the act was asked of.
pub fn lent(request: &Request) -> Vec<String> {
    let shown = if request.has_sequent() {
        loose::sequent(&request.buffers[0]).map(|sequent| show::sequent(&sequent))
    } else {
        loose::predicate(&request.buffers[1]).map(|predicate| vec![show::formula(&predicate)])
    };
    shown.unwrap_or_else(|| vec!["unreadable".to_string()])
}

/// An answer, one line for each hypothesis, goal, report or number.
pub fn answered(request: &Request, answer: &Option<Answer>) -> Vec<String> {
    match answer {
        None => vec!["no answer".to_string()],
        Some(Err(refusal)) => vec![format!("refused: {} at {}", refusal.number, refusal.place)],
        Some(Ok(parts)) => {
            let part = |(index, part): (usize, &Part)| shown(request, index, part);
            parts.iter().enumerate().flat_map(part).collect()
        }
    }
}

fn shown(request: &Request, index: usize, part: &Part) -> Vec<String> {
    let bytes = match part {
        Part::Bytes(bytes) => bytes,
        Part::Number(number) if request.act == "read" => {
            return vec![format!("{number} {}", ["hidden", "selected", "visible"][index])];
        }
        Part::Number(changed) => {
            return vec![if *changed == 1 { "changed" } else { "not changed" }.to_string()];
        }
    };
    let hex = || answers::hex(bytes);
    match (request.act.as_str(), index) {
        ("genmp", 1) => vec![format!("report {}", hex())],
        ("onepoint", 0) => vec![loose::predicate(bytes).map_or_else(hex, |tree| show::formula(&tree))],
        ("onepoint", _) => vec![format!("replacement {}", replacement(request, bytes).unwrap_or_else(hex))],
        _ => loose::sequent(bytes).map_or_else(|| vec![hex()], |sequent| show::sequent(&sequent)),
    }
}

/// The replacement is answered in the indices of the quantified body.
fn replacement(request: &Request, bytes: &[u8]) -> Option<String> {
    let declared = loose::predicate(&request.buffers[1])?.declares();
    let (tree, _) = loose::formula(bytes, 0, Sort::Expression)?;
    Some(show::show(&tree, declared))
}

/// The lines of an answer that the other answer lacks; beside a refusal, those that the act made.
pub fn apart(request: &Request, answer: &Option<Answer>, other: &Option<Answer>) -> Vec<String> {
    let against = if matches!(other, Some(Ok(_))) { answered(request, other) } else { lent(request) };
    let mut lines = answered(request, answer);
    lines.retain(|line| !against.contains(line));
    lines
}

#[cfg(test)]
mod tests {
    use super::*;

    fn request(line: &str) -> Request {
        Request::parse(line).expect("a request")
    }

    fn ok(parts: &[&str]) -> Option<Answer> {
        Some(Ok(parts.iter().map(|hex| Part::Bytes(answers::unhex(hex).expect("hex"))).collect()))
    }

    #[test]
    fn only_what_differs_is_told() {
        // TRUE=TRUE, goal TRUE=FALSE, against ⊥ for the goal.
        let request = request("genmp 535154010000010000103131103132 60000 60000");
        let given = ok(&["53515401000001000010313102", "01010000"]);
        let refused = Some(Err(answers::Refusal { number: 13, place: 0 }));
        assert_eq!(apart(&request, &refused, &given), ["refused: 13 at 0"]);
        assert_eq!(apart(&request, &given, &refused), ["⊢ ⊥", "report 01010000"]);
        assert_eq!(apart(&request, &given, &given), [""; 0]);
    }

    #[test]
    fn a_replacement_has_the_names_of_the_block() {
        let request = request("onepoint - 0802061021002101090101 60000 60000");
        let given = ok(&["080201", "2101"]);
        assert_eq!(answered(&request, &given), ["∀b0,b1·⊤", "replacement b0"]);
        assert_eq!(lent(&request), ["∀b0,b1·((b1 = b0) ⇒ (∃b2·⊤))"]);
    }
}
