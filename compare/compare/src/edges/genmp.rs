//! Edges of the genMP step: where a match may stand, what is blocked, whose entry wins, and the acts.

use paper::codes::*;
use paper::tree::{Tree, binder, bound, identifier, leaf, literal, node, not, truth, two};

use super::{equals, file, request, x};
use crate::request::Request;

pub fn chapters() -> Vec<Vec<Request>> {
    vec![places(), blocked(), first_entries(), goals(), flags(), sources()]
}

/// The step on these hypotheses and this goal; the identifiers are an integer and a set.
fn step(hypotheses: &[(u8, Tree)], goal: &Tree) -> Request {
    request("genmp", &[file(&[0, 2], hypotheses, goal)])
}

/// x=1⇒x=2.
fn implies() -> Tree {
    two(IMPLIES, &equals(1), &equals(2))
}

/// The predicate at each operand of each node that can hold one, with other operands beside it.
fn around(inner: &Tree) -> Vec<Tree> {
    let (other, set) = (equals(7), identifier(1));
    let mut out = vec![inner.clone(), not(inner), not(&not(inner))];
    for code in [AND, OR] {
        out.push(node(code, vec![other.clone(), inner.clone(), other.clone()]));
        out.push(node(code, vec![inner.clone(), inner.clone()]));
    }
    for code in [IMPLIES, IFF] {
        out.extend([two(code, inner, &other), two(code, &other, inner)]);
    }
    out.extend([FORALL, EXISTS].map(|code| binder(code, 2, vec![inner.clone()])));
    let truth_value = node(BOOL, vec![inner.clone()]);
    out.extend([two(EQUAL, &truth_value, &leaf(TRUE)), two(EQUAL, &leaf(TRUE), &truth_value)]);
    let pairs = [two(MAPLET, &truth_value, &x()), two(MAPLET, &x(), &truth_value)];
    out.extend(pairs.iter().map(|pair| two(EQUAL, pair, pair)));
    let guarded = binder(COMPREHENSION, 1, vec![inner.clone(), bound(0)]);
    let mut sets = vec![guarded.clone(), two(DIFFERENCE, &guarded, &set), two(DIFFERENCE, &set, &guarded)];
    for code in [UNION, INTERSECTION] {
        sets.push(node(code, vec![set.clone(), guarded.clone()]));
        sets.push(node(code, vec![guarded.clone(), set.clone(), set.clone()]));
    }
    for made in sets {
        for code in [EQUAL, SUBSET, SUBSET_EQUAL] {
            out.extend([two(code, &made, &set), two(code, &set, &made)]);
        }
        out.push(two(IN, &x(), &made));
    }
    out
}

/// A match at each place, of an earlier hypothesis, of a later one, and of the goal.
fn places() -> Vec<Request> {
    let mut out = Vec::new();
    for within in around(&equals(1)) {
        out.push(step(&[(0, equals(1))], &within));
        out.push(step(&[(0, not(&equals(1)))], &within));
        out.push(step(&[(0, within.clone())], &equals(1)));
        if within != equals(1) {
            out.push(step(&[(0, equals(1)), (2, within.clone())], &truth(false)));
            out.push(step(&[(2, within.clone()), (0, equals(1))], &truth(false)));
            out.push(step(&[(1, equals(1)), (0, within)], &truth(false)));
        }
    }
    out
}

/// Below a blocked match the children are visited; an entry of the own formula is no entry there.
fn blocked() -> Vec<Request> {
    let mut out = Vec::new();
    for within in around(&equals(1)) {
        let twice = node(OR, vec![within.clone(), equals(3)]);
        out.push(step(&[(0, within.clone())], &within));
        out.push(step(&[(0, twice)], &within));
        if within != equals(1) {
            out.push(step(&[(0, within.clone()), (0, equals(1))], &node(OR, vec![within, equals(2)])));
        }
    }
    out.push(step(&[(0, node(OR, vec![equals(1), equals(1)]))], &node(OR, vec![equals(1), equals(1)])));
    out
}

/// Two sources that say different things of one predicate, in either order.
fn first_entries() -> Vec<Request> {
    let (one, y) = (literal(1), identifier(1));
    let orders = [EQUAL, LESS, LESS_EQUAL, GREATER, GREATER_EQUAL].map(|code| two(code, &x(), &one));
    let sets = [EQUAL, SUBSET, SUBSET_EQUAL].map(|code| two(code, &y, &leaf(EMPTY)));
    let mut out = Vec::new();
    for relations in [&orders[..], &sets[..]] {
        for first in relations {
            for second in relations.iter().filter(|second| *second != first) {
                for goal in relations {
                    out.push(step(&[(0, first.clone()), (0, second.clone())], goal));
                    out.push(step(&[(0, first.clone()), (0, not(second))], goal));
                }
            }
        }
    }
    let (yes, no) = (leaf(TRUE), leaf(FALSE));
    out.push(step(&[(0, two(EQUAL, &yes, &no)), (0, two(EQUAL, &no, &yes))], &truth(false)));
    out
}

/// Goals of several disjuncts, and goals that only look so.
fn goals() -> Vec<Request> {
    let or = |operands: &[Tree]| node(OR, operands.to_vec());
    let both = or(&[equals(1), equals(2)]);
    let goals = [
        both.clone(),
        or(&[equals(3), equals(1), equals(2)]),
        or(&[both.clone(), equals(3)]),
        or(&[not(&equals(1)), not(&not(&equals(2)))]),
        or(&[truth(true), truth(false)]),
        not(&both),
        not(&not(&both)),
        node(AND, vec![equals(1), equals(2)]),
        two(IMPLIES, &equals(1), &equals(2)),
    ];
    let hypotheses = [implies(), both.clone(), node(AND, vec![both, equals(3)]), not(&equals(1)), equals(3)];
    let mut out = Vec::new();
    for goal in &goals {
        out.extend(hypotheses.iter().map(|hypothesis| step(&[(0, hypothesis.clone())], goal)));
        out.push(step(&hypotheses.each_ref().map(|hypothesis| (2, hypothesis.clone())), goal));
    }
    out
}

/// Every flag of a source, of the rewritten hypothesis, and of the inferred one where it is there.
fn flags() -> Vec<Request> {
    let mut out = Vec::new();
    let inferred = two(IMPLIES, &truth(true), &equals(2));
    let second = node(OR, vec![implies(), equals(3)]);
    for source in 0..3 {
        for rewritten in 0..3 {
            let two_flags = [(source, equals(1)), (rewritten, implies())];
            out.push(step(&two_flags, &truth(false)));
            out.push(step(&[(source, implies()), (rewritten, second.clone())], &equals(2)));
            for present in 0..3 {
                let last = [(present, inferred.clone())];
                out.push(step(&[&two_flags[..], &last].concat(), &truth(false)));
                out.push(step(&[&last, &two_flags[..]].concat(), &truth(false)));
                // Both become x=1⇒⊤, and the second act meets what the first inferred.
                let (left, right) =
                    (two(IMPLIES, &equals(1), &equals(4)), two(IMPLIES, &equals(1), &equals(5)));
                let known = [(source, equals(4)), (present, equals(5))];
                out.push(step(&[&known[..], &[(rewritten, left), (2, right)]].concat(), &truth(false)));
            }
        }
    }
    out
}

/// Origins in the order met, without repeats, the rewritten hypothesis last.
fn sources() -> Vec<Request> {
    let known: Vec<(u8, Tree)> = (1..=3).map(|value| (0, equals(value))).collect();
    let mut out = Vec::new();
    for values in [[1, 2, 3], [3, 2, 1], [2, 2, 1], [3, 3, 3], [1, 9, 1]] {
        let mixed = node(AND, values.map(equals).to_vec());
        out.push(step(&[&known[..], &[(0, mixed.clone())]].concat(), &truth(false)));
        out.push(step(&[&[(0, mixed.clone())], &known[..]].concat(), &equals(9)));
        out.push(step(&known, &mixed));
    }
    out
}
