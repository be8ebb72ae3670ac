//! Edges of one-point inference: its order of refusals, joining, splitting, and the limits of a result.

use paper::codes::*;
use paper::tree::{Tree, binder, bound, identifier, leaf, literal, node, not, truth, two};

use super::limits::of_size;
use super::request;
use crate::request::Request;

pub fn chapters() -> Vec<Vec<Request>> {
    vec![type_buffers(), kinds(), replacements(), joins(), splits(), results()]
}

fn over(types: &[u8], predicate: &Tree) -> Request {
    request("onepoint", &[types.to_vec(), predicate.bytes()])
}

/// The variable of this index is the first identifier.
fn find(index: i64) -> Tree {
    two(EQUAL, &bound(index), &identifier(0))
}

fn type_buffers() -> Vec<Request> {
    let predicate = binder(EXISTS, 1, vec![two(EQUAL, &bound(0), &literal(1))]).bytes();
    let mut out = Vec::new();
    for length in [0usize, 1, 63, 64, 65, 66, 300] {
        for bad in [None, Some(0), Some(63), Some(64)] {
            let mut types = vec![0; length];
            if let Some(byte) = bad.and_then(|place: usize| types.get_mut(place)) {
                *byte = 3;
            }
            out.push(request("onepoint", &[types.clone(), predicate.clone()]));
            out.push(request("onepoint", &[types, vec![10]]));
        }
    }
    out
}

fn kinds() -> Vec<Request> {
    let quantified =
        |body: Tree| [FORALL, EXISTS].map(|code| over(&[0], &binder(code, 1, vec![body.clone()])));
    let mut out = vec![over(&[0], &truth(true)), over(&[0], &not(&binder(EXISTS, 1, vec![find(0)])))];
    let bodies = [
        find(0),
        not(&find(0)),
        not(&not(&find(0))),
        two(EQUAL, &bound(0), &bound(0)),
        two(EQUAL, &bound(0), &node(PLUS, vec![bound(0), literal(1)])),
        two(EQUAL, &node(PLUS, vec![identifier(0), literal(1)]), &bound(0)),
        node(AND, vec![not(&not(&truth(true))), find(0), not(&not(&truth(true)))]),
        node(OR, vec![not(&not(&truth(true))), not(&find(0)), not(&not(&truth(true)))]),
        two(IMPLIES, &find(0), &truth(false)),
        two(IMPLIES, &truth(true), &not(&find(0))),
        two(IMPLIES, &not(&truth(true)), &not(&find(0))),
        two(IFF, &find(0), &truth(true)),
        not(&node(AND, vec![find(0), not(&truth(true))])),
        not(&node(AND, vec![find(0), not(&not(&truth(true)))])),
    ];
    out.extend(bodies.into_iter().flat_map(quantified));
    out
}

/// Each variable equal to what mentions each variable or none, on either side, with every variable used
/// beside it and below another block.
fn replacements() -> Vec<Request> {
    let mut out = Vec::new();
    for variables in 1..=3i64 {
        let sum = |of: Tree| node(PLUS, vec![of, literal(1)]);
        let mut others: Vec<Tree> = (0..variables).flat_map(|j| [bound(j), sum(bound(j))]).collect();
        others.extend([identifier(0), literal(2), sum(identifier(0))]);
        let used =
            |more: i64| node(PLUS, (0..=variables).map(|j| bound((j + more) % (variables + more))).collect());
        let beside = two(LESS, &used(0), &literal(3));
        let below = binder(EXISTS, 1, vec![two(LESS, &used(1), &literal(4))]);
        for (index, other) in (0..variables).flat_map(|index| others.iter().map(move |other| (index, other)))
        {
            for find in [two(EQUAL, &bound(index), other), two(EQUAL, other, &bound(index))] {
                let body = node(AND, vec![beside.clone(), find, below.clone()]);
                out.push(over(&[0], &binder(EXISTS, variables as usize, vec![body.clone()])));
                out.push(over(&[0], &binder(FORALL, variables as usize, vec![not(&body)])));
            }
        }
    }
    out
}

/// Blocks of 1 to 9 variables in all, like and unlike, with the find at each index.
fn joins() -> Vec<Request> {
    let mut out = Vec::new();
    for outer in [1usize, 2, 3, 7, 8] {
        for inner in [1usize, 2, 7, 8] {
            for index in [0, 1, outer as i64 - 1] {
                for (code, kind) in [(FORALL, FORALL), (FORALL, EXISTS), (EXISTS, FORALL), (EXISTS, EXISTS)] {
                    let block = binder(kind, inner, vec![two(LESS, &bound(0), &bound(inner as i64))]);
                    let body = match code {
                        EXISTS => node(AND, vec![find(index), block]),
                        _ => two(IMPLIES, &find(index), &block),
                    };
                    out.push(over(&[0], &binder(code, outer, vec![body])));
                }
            }
        }
    }
    out
}

/// A balanced tree of ↦ over this leaf.
fn maplets(levels: usize, of: &Tree) -> Tree {
    if levels == 0 {
        return of.clone();
    }
    let half = maplets(levels - 1, of);
    two(MAPLET, &half, &half)
}

/// A chain of ↦ with so many leaves.
fn chain(leaves: usize, of: &Tree) -> Tree {
    (1..leaves).fold(of.clone(), |pair, _| two(MAPLET, &pair, of))
}

fn splits() -> Vec<Request> {
    let mut out = Vec::new();
    let yes = leaf(TRUE);
    let exists = |body: Tree| over(&[0], &binder(EXISTS, 1, vec![body]));
    for levels in 1..=6 {
        let side = maplets(levels, &yes);
        let equality = |first: &Tree| two(MAPLET, first, &side);
        out.push(exists(two(EQUAL, &equality(&bound(0)), &equality(&identifier(0)))));
        out.push(exists(node(AND, vec![two(EQUAL, &side, &side), find(0)])));
        out.push(exists(node(AND, vec![find(0), two(EQUAL, &side, &side)])));
    }
    for leaves in 28..=31 {
        let side = chain(leaves, &yes);
        out.push(exists(node(AND, vec![two(EQUAL, &side, &side), find(0)])));
    }
    // 31 to 33 equalities left of one split, by halves of 16 leaves.
    for more in 14..=17 {
        let side = two(MAPLET, &maplets(4, &yes), &chain(more, &yes));
        let whole = |first: &Tree| two(MAPLET, &side, first);
        out.push(exists(two(EQUAL, &whole(&bound(0)), &whole(&identifier(0)))));
    }
    out
}

/// Results at 1,024 bytes and 32 levels, and beyond: a long replacement put in twice or deep inside.
fn results() -> Vec<Request> {
    let mut out = Vec::new();
    let sum = node(PLUS, vec![identifier(0); 32]);
    let exists = |body: Vec<Tree>| over(&[0], &binder(EXISTS, 1, vec![node(AND, body)]));
    let twice = two(LESS, &sum, &sum).size();
    for size in 1020..=1030 {
        let filler = of_size(size - 2 - twice);
        out.push(exists(vec![two(EQUAL, &bound(0), &sum), two(LESS, &bound(0), &bound(0)), filler]));
    }
    for levels in 12..=18 {
        let deep = (0..levels).fold(identifier(0), |tree, _| node(NEGATIVE, vec![tree]));
        let place = (0..15).fold(bound(0), |tree, _| node(NEGATIVE, vec![tree]));
        out.push(exists(vec![two(EQUAL, &bound(0), &deep), two(LESS, &place, &literal(1))]));
    }
    out
}

#[cfg(test)]
mod tests {
    use super::*;
    use crate::programs::Program;

    /// The longest and deepest results are answered, and those just beyond are 14.
    #[test]
    fn results_reach_the_limits() {
        let answers: Vec<_> = results().iter().map(|request| Program::Paper.answer(request)).collect();
        let results: Vec<Tree> = answers
            .iter()
            .filter_map(|answer| answer.as_ref()?.as_ref().ok())
            .map(|parts| crate::loose::predicate(parts[0].bytes().expect("a result")).expect("a predicate"))
            .collect();
        assert_eq!(results.iter().map(Tree::size).max(), Some(1024));
        assert_eq!(results.iter().map(Tree::levels).max(), Some(32));
        assert_eq!(answers.len() - results.len(), 6 + 3);
    }
}
