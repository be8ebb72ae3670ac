//! Edges of size: bytes of files and formulas, levels, hypotheses, identifiers.

use paper::codes::*;
use paper::tree::{Tree, binder, identifier, leaf, literal, node, not, truth, two};

use super::{equals, file, goal, request};
use crate::loose::list_bytes;
use crate::request::Request;

/// Room for more than 60,000 bytes.
const ROOMY: usize = 65_000;

pub fn chapters() -> Vec<Vec<Request>> {
    vec![levels(), formula_bytes(), hypothesis_counts(), identifier_counts(), file_bytes(), result_bytes()]
}

fn everywhere(formula: &Tree) -> Vec<Request> {
    vec![
        request("read", &[goal(&[0], formula)]),
        request("formula", &[vec![0], formula.bytes()]),
        request("hide", &[goal(&[0], &truth(true)), formula.bytes()]),
        request("genmp", &[file(&[0], &[(0, formula.clone())], formula)]),
        request("forward", &[goal(&[0], &truth(true)), vec![0], list_bytes(std::slice::from_ref(formula))]),
    ]
}

/// ¬ over ¬, and ¬ over deep expressions, of 31 to 34 levels.
fn levels() -> Vec<Request> {
    let mut out = Vec::new();
    for levels in 31..=34 {
        let mut negations = truth(true);
        let mut minuses = identifier(0);
        let mut bools = leaf(TRUE);
        while negations.levels() < levels {
            negations = not(&negations);
        }
        while minuses.levels() + 1 < levels {
            minuses = node(NEGATIVE, vec![minuses]);
        }
        while bools.levels() + 1 < levels {
            bools = node(BOOL, vec![two(EQUAL, &bools, &leaf(TRUE))]);
        }
        out.extend(everywhere(&negations));
        out.extend(everywhere(&two(EQUAL, &minuses, &identifier(0))));
        out.push(request("formula", &[vec![0], two(EQUAL, &bools, &leaf(TRUE)).bytes()]));
    }
    // At level 33 a known code, a code of the other sort, an unknown one, and nothing.
    for tail in [&[1u8][..], &[0x20], &[0x20, 0], &[0x0a], &[4], &[4, 33], &[]] {
        let deep = [vec![NOT; 32], tail.to_vec()].concat();
        out.push(request("formula", &[vec![0], deep]));
    }
    out
}

/// A predicate of exactly so many bytes, over ∧ and ⊤.
pub fn of_size(bytes: usize) -> Tree {
    if bytes <= 3 {
        return (1..bytes).fold(truth(true), |tree, _| not(&tree));
    }
    if bytes <= 34 {
        return node(AND, vec![truth(true); bytes - 2]);
    }
    let (groups, mut left) = ((bytes - 2).div_ceil(34).clamp(2, 32), bytes - 2);
    let mut operands = Vec::new();
    for index in 0..groups {
        let share = left / (groups - index);
        operands.push(of_size(share));
        left -= share;
    }
    node(AND, operands)
}

fn formula_bytes() -> Vec<Request> {
    let mut out = Vec::new();
    for size in 1020..=1030 {
        out.extend(everywhere(&of_size(size)));
    }
    // A literal, a binder and a counted node whose own bytes pass the limit.
    for size in 1000..=1024 {
        let head = [vec![AND, 2], of_size(size - 2).bytes()].concat();
        for tail in [&equals(7).bytes()[..], &[FORALL, 1, TRUTH], &[AND, 2, TRUTH, TRUTH]] {
            out.push(request("formula", &[vec![0], [&head[..], tail].concat()]));
        }
    }
    out
}

fn numbered(count: usize) -> Vec<(u8, Tree)> {
    (0..count).map(|index| ((index % 3) as u8, equals(index as i64))).collect()
}

fn hypothesis_counts() -> Vec<Request> {
    let mut out = Vec::new();
    for count in [63, 64, 65] {
        let before = file(&[0], &numbered(count), &equals(1));
        let add = |values: &[i64]| list_bytes(&values.iter().map(|value| equals(*value)).collect::<Vec<_>>());
        out.push(request("read", std::slice::from_ref(&before)));
        out.push(request("genmp", std::slice::from_ref(&before)));
        for values in [&[5][..], &[100], &[100, 100], &[100, 101], &[100, 101, 102]] {
            out.push(request("modify", &[before.clone(), add(values), vec![0], vec![0]]));
            out.push(request("forward", &[before.clone(), add(&[2]), add(values)]));
            out.push(request("rewrite", &[before.clone(), add(&[1]), add(values), add(&[2])]));
        }
        let last = two(IMPLIES, &equals(2), &equals(1));
        let step = [numbered(count - 1), vec![(2, last)]].concat();
        out.push(request("genmp", &[file(&[0], &step, &truth(false))]));
    }
    out
}

fn identifier_counts() -> Vec<Request> {
    let mut out = Vec::new();
    for count in [63usize, 64, 65] {
        let types: Vec<u8> = (0..count).map(|index| [0, 2, 1][index % 3]).collect();
        let last = two(EQUAL, &identifier(63), &identifier(63));
        out.push(request("read", &[goal(&types, &last)]));
        out.push(request("onepoint", &[types, binder(EXISTS, 1, vec![last]).bytes()]));
    }
    out
}

/// A file of exactly so many bytes and 64 hypotheses.
pub fn file_of_size(bytes: usize) -> Vec<u8> {
    // Each hypothesis is a numbered equality beside filler; the goal takes up what is left.
    let mut hypotheses = Vec::new();
    let mut left = bytes - 9 - 64 - 12;
    for index in 0..64 {
        let share = (left / (64 - index)).min(1024);
        let filler = of_size(share - 14);
        hypotheses.push((0, node(AND, vec![equals(index as i64), filler])));
        left -= share;
    }
    assert!(left == 0, "{bytes} bytes cannot be had");
    file(&[0], &hypotheses, &equals(-1))
}

/// A few of the longest: files and results of 60,000 bytes and one more, and a list of 65,537.
pub fn longest() -> Vec<Request> {
    let reads = [60_000, 60_001].map(|size| request("read", &[file_of_size(size)]));
    let inferences = [60_000, 60_001].map(|result| {
        let (before, list) = growing_to(result);
        request("forward", &[before, vec![0], list])
    });
    [&reads[..], &inferences, &[longest_list(), growing_step(60_001)]].concat()
}

/// A list may be longer than a file.
fn longest_list() -> Request {
    let long: Vec<Tree> = (0..64).map(|_| of_size(1024)).collect();
    request("forward", &[goal(&[], &truth(true)), vec![0], list_bytes(&long)])
}

fn file_bytes() -> Vec<Request> {
    let mut out = Vec::new();
    for size in [59_999, 60_000, 60_001] {
        let bytes = file_of_size(size);
        assert_eq!(bytes.len(), size);
        out.push(request("read", std::slice::from_ref(&bytes)));
        out.push(request("genmp", std::slice::from_ref(&bytes)));
        out.push(request("show", &[bytes, equals(1).bytes()]));
    }
    let inferred = longest_list();
    let mut sources = inferred.clone();
    sources.buffers.swap(1, 2);
    out.extend([inferred, sources]);
    out
}

/// A numbered equality beside so many bytes.
fn beside(value: i64, bytes: usize) -> (u8, Tree) {
    (0, node(AND, vec![equals(value), of_size(bytes)]))
}

/// A sequent, and a list of the one formula that makes it so many bytes when it is appended.
fn growing_to(result: usize) -> (Vec<u8>, Vec<u8>) {
    let fill: Vec<(u8, Tree)> = (0..58).map(|index| beside(index, 1010)).collect();
    let before = file(&[0], &fill, &truth(true));
    let list = list_bytes(&[of_size(result - before.len() - 1)]);
    (before, list)
}

/// A genMP step to a result of so many bytes: the equality makes ⊤ of itself in the last hypothesis.
fn growing_step(result: usize) -> Request {
    let mut hypotheses: Vec<(u8, Tree)> = (0..57).map(|index| beside(index, 1010)).collect();
    hypotheses.push((0, equals(57)));
    let goal = if result.is_multiple_of(2) { not(&truth(false)) } else { truth(false) };
    // The last one's flag, ∧, count and equality, and the same with ⊤.
    let filler = (result - file(&[0], &hypotheses, &goal).len() - 15 - 4) / 2;
    hypotheses.push(beside(57, filler));
    request("genmp", &[file(&[0], &hypotheses, &goal)])
}

/// Results at 60,000 bytes and beyond.
fn result_bytes() -> Vec<Request> {
    let mut out = Vec::new();
    for result in [59_999, 60_000, 60_001] {
        let (before, list) = growing_to(result);
        out.push(request("forward", &[before.clone(), vec![0], list.clone()]));
        out.push(request("modify", &[before, list, vec![0], vec![0]]));
        out.push(growing_step(result));
    }
    // The goal grows or shrinks with modify.
    let tall = list_bytes(&[literal_goal()]);
    out.push(request("modify", &[file_of_size(60_000), vec![0], vec![0], tall]));
    out.push(request("modify", &[file_of_size(60_000), vec![0], vec![0], list_bytes(&[truth(true)])]));
    // With more room than a file may have, its own limit shows.
    let roomy = |request: &Request| request.with_rooms(vec![ROOMY; request.rooms.len()]);
    let more: Vec<Request> = out.iter().map(roomy).collect();
    [out, more].concat()
}

fn literal_goal() -> Tree {
    node(OR, vec![two(LESS, &literal(1), &literal(2)), equals(3)])
}

#[cfg(test)]
mod tests {
    use super::*;
    use crate::programs::Program;

    #[test]
    fn a_step_grows_to_its_size() {
        for result in [59_999, 60_000] {
            let exact = growing_step(result).exact().expect("an accepted step");
            assert_eq!(exact.rooms[0], result);
        }
        let beyond = growing_step(60_001).with_rooms(vec![ROOMY; 2]);
        let refused = Program::Paper.answer(&beyond).expect("a known act");
        assert_eq!(refused.map_err(|refusal| refusal.number), Err(14));
    }
}
