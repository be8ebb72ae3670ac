//! Edges of reading: the header, codes, counts, indices, types, repeats and left-over bytes.

use paper::codes::*;
use paper::tree::{Tree, binder, bound, identifier, leaf, literal, node, not, truth, two};

use super::{equals, file, goal, request};
use crate::request::Request;

pub fn chapters() -> Vec<Vec<Request>> {
    vec![headers(), codes(), counts(), indices(), types(), deep_types(), hypotheses()]
}

/// The goal's bytes behind a header of three identifiers, one of each type; as a sequent and alone.
fn as_goal(bytes: &[u8]) -> Vec<Request> {
    let types = vec![0, 1, 2];
    let sequent = [b"SQT\x01\x00\x03\x00\x00", types.as_slice(), bytes].concat();
    vec![request("read", &[sequent]), request("formula", &[types, bytes.to_vec()])]
}

fn headers() -> Vec<Request> {
    let good = goal(&[], &truth(true));
    let mut out = Vec::new();
    for length in 0..=good.len() {
        out.push(request("read", &[good[..length].to_vec()]));
    }
    for place in 0..8 {
        for value in [0, 1, 2, 63, 64, 65, 255] {
            let mut changed = good.clone();
            changed[place] = value;
            // A second fault at each later place shows which is asked first.
            for later in place + 1..8 {
                let mut twice = changed.clone();
                twice[later] = 200;
                out.push(request("read", &[twice]));
            }
            out.push(request("read", &[changed]));
        }
    }
    for byte in 0..=3 {
        out.push(request("read", &[[b"SQT\x01\x00\x02\x00\x00", &[byte][..]].concat()]));
        out.push(request("read", &[[b"SQT\x01\x00\x02\x00\x00", &[byte, 3, 1][..]].concat()]));
    }
    out
}

/// Every code where a predicate and where an expression is wanted, whole and cut off.
fn codes() -> Vec<Request> {
    let mut out = Vec::new();
    for code in 0..=255u8 {
        for tail in [&[][..], &[1], &[2, 1, 1], &[0, 0, 0, 0, 0, 0, 0, 0], &[2, 32, 0, 32, 0]] {
            for before in [&[][..], &[0x10], &[0x15, 0x20, 0], &[0x10, 0x2e]] {
                out.extend(as_goal(&[before, &[code], tail].concat()));
            }
            out.push(request("expression", &[vec![0, 1, 2], [&[code], tail].concat()]));
        }
    }
    out
}

/// Counted nodes with every count near a limit, and with one operand too few.
fn counts() -> Vec<Request> {
    let mut out = Vec::new();
    for count in [0u8, 1, 2, 7, 8, 9, 31, 32, 33, 255] {
        for operands in [usize::from(count), usize::from(count).saturating_sub(1)] {
            for code in [AND, OR] {
                out.extend(as_goal(&[vec![code, count], vec![TRUTH; operands]].concat()));
            }
            for (code, operand) in [(PLUS, [0x20, 0]), (TIMES, [0x20, 0]), (UNION, [0x20, 2])] {
                let sum = [vec![code, count], operand.repeat(operands)].concat();
                out.extend(as_goal(&[&[EQUAL][..], &sum, &operand].concat()));
            }
            for (code, operand) in [(INTERSECTION, [0x20, 2]), (EXTENSION, [0x20, 0])] {
                let set = [vec![code, count], operand.repeat(operands)].concat();
                out.extend(as_goal(&[&[SUBSET][..], &set, &[0x20, 2]].concat()));
            }
        }
        for code in [FORALL, EXISTS] {
            out.extend(as_goal(&[code, count, TRUTH]));
        }
        out.extend(as_goal(&[EQUAL, COMPREHENSION, count, TRUTH, BOUND, 0, EMPTY]));
    }
    out
}

fn indices() -> Vec<Request> {
    let mut out = Vec::new();
    for k in [0u8, 2, 3, 63, 64, 255] {
        out.extend(as_goal(&[EQUAL, IDENTIFIER, k, IDENTIFIER, k]));
    }
    for i in [0u8, 1, 2, 3, 4, 255] {
        for (outer, inner) in [(1u8, 1u8), (2, 2), (8, 8)] {
            let body = [EXISTS, inner, LESS, BOUND, i, BOUND, i + (i < 255) as u8];
            out.extend(as_goal(&[&[FORALL, outer][..], &body].concat()));
            let set = [COMPREHENSION, inner, EQUAL, BOUND, i, BOUND, 0, BOUND, i];
            out.extend(as_goal(&[&[FORALL, outer, EQUAL][..], &set, &[EMPTY]].concat()));
        }
    }
    // A variable does not reach beyond its block.
    out.extend(as_goal(&[AND, 2, FORALL, 1, TRUTH, EQUAL, BOUND, 0, BOUND, 0]));
    out
}

/// One expression of each type.
fn samples() -> Vec<Tree> {
    let pair = |a: &Tree, b: &Tree| two(MAPLET, a, b);
    let (number, truth_value, set) = (identifier(0), identifier(1), identifier(2));
    vec![
        number.clone(),
        truth_value.clone(),
        set.clone(),
        leaf(NATURAL),
        leaf(NATURAL1),
        pair(&number, &set),
        pair(&pair(&number, &truth_value), &set),
        pair(&leaf(NATURAL), &set),
        pair(&leaf(NATURAL1), &set),
    ]
}

/// Every node over every pair of operand types.
fn types() -> Vec<Request> {
    let mut out = Vec::new();
    for left in samples() {
        for right in samples() {
            for code in EQUAL..=SUBSET_EQUAL {
                out.extend(as_goal(&two(code, &left, &right).bytes()));
            }
            for code in [PLUS, TIMES, MINUS, UNION, INTERSECTION, DIFFERENCE, EXTENSION, MAPLET] {
                let made = node(code, vec![left.clone(), right.clone()]);
                out.extend(as_goal(&two(EQUAL, &made, &made).bytes()));
                out.push(request("expression", &[vec![0, 1, 2], made.bytes()]));
            }
        }
        let negative = node(NEGATIVE, vec![left.clone()]);
        out.extend(as_goal(&two(LESS, &negative, &literal(1)).bytes()));
        let set = binder(COMPREHENSION, 1, vec![truth(true), left.clone()]);
        out.extend(as_goal(&two(EQUAL, &set, &leaf(EMPTY)).bytes()));
    }
    out
}

/// Which of two wrong nodes is named.
fn deep_types() -> Vec<Request> {
    let wrong = two(LESS, &identifier(2), &identifier(0));
    let deep = node(BOOL, vec![wrong.clone()]);
    let guarded = |value: Tree| binder(COMPREHENSION, 1, vec![wrong.clone(), value]);
    let trees = [
        node(AND, vec![truth(true), wrong.clone(), wrong.clone()]),
        two(EQUAL, &deep, &identifier(0)),
        two(EQUAL, &deep, &identifier(1)),
        two(EQUAL, &leaf(EMPTY), &guarded(leaf(EMPTY))),
        two(EQUAL, &leaf(EMPTY), &guarded(bound(0))),
        not(&binder(FORALL, 2, vec![two(IMPLIES, &truth(true), &wrong)])),
    ];
    trees.iter().flat_map(|tree| as_goal(&tree.bytes())).collect()
}

/// Flags, repeats and their order.
fn hypotheses() -> Vec<Request> {
    let mut out = Vec::new();
    let good = file(&[0], &[(0, equals(1)), (1, equals(2)), (2, equals(3))], &equals(4));
    let read = |bytes: Vec<u8>| request("read", &[bytes]);
    out.push(read(good.clone()));
    for value in [3, 4, 255] {
        for index in 0..3 {
            let mut changed = good.clone();
            changed[9 + index * 13] = value;
            out.push(read(changed.clone()));
            out.push(read(changed[..10 + index * 13].to_vec()));
        }
    }
    for values in [[1, 1, 2], [1, 2, 1], [1, 2, 2], [1, 1, 1]] {
        let repeated: Vec<(u8, Tree)> = values.iter().map(|value| (0, equals(*value))).collect();
        let bytes = file(&[0], &repeated, &equals(1));
        out.push(read(bytes.clone()));
        out.push(read([bytes, vec![1]].concat()));
    }
    out.push(read([&good[..], &[1]].concat()));
    // Equal but for the ⊤ inside, and equal to the goal alone.
    out.push(read(file(&[0], &[(0, not(&equals(1))), (0, not(&not(&equals(1))))], &not(&equals(1)))));
    out
}
