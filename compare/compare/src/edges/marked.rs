//! Document 01's marked examples, M1 to M12, and every single-byte change and cut of the shortest.

use paper::codes::*;
use paper::tree::{Tree, binder, bound, identifier, leaf, literal, node, not, truth, two};

use super::{equals, file, request, x};
use crate::request::Request;

fn implies(left: i64, right: i64) -> Tree {
    two(IMPLIES, &equals(left), &equals(right))
}

/// The sequents of M1 to M9.
pub fn files() -> Vec<Vec<u8>> {
    let y = identifier(1);
    let natural = |set: u8| two(IN, &x(), &leaf(set));
    let at_least = |value: i64| two(GREATER_EQUAL, &x(), &literal(value));
    let orders = [(0, two(LESS, &x(), &y)), (0, two(LESS_EQUAL, &x(), &y))];
    let m9 = [(2, implies(1, 2)), (0, node(OR, vec![implies(1, 2), equals(3)]))];
    vec![
        file(&[0], &[(2, natural(NATURAL1))], &natural(NATURAL)),
        file(&[0], &[(0, implies(1, 2))], &node(OR, vec![equals(2), equals(3)])),
        file(&[0, 0], &orders, &truth(false)),
        file(&[0], &[(0, equals(1))], &equals(1)),
        file(&[0], &[(0, equals(1))], &not(&equals(1))),
        file(&[0], &[(0, equals(1))], &truth(false)),
        file(&[0], &[(0, at_least(1))], &natural(NATURAL1)),
        file(&[0], &[(0, at_least(0))], &natural(NATURAL1)),
        file(&[0], &m9, &equals(2)),
    ]
}

/// The predicates of M10 to M12, over one integer identifier.
fn one_points() -> [Tree; 3] {
    let z_above_y = binder(FORALL, 1, vec![two(LESS, &bound(1), &bound(0))]);
    let m10 = node(AND, vec![two(EQUAL, &bound(0), &x()), two(LESS, &bound(0), &literal(3))]);
    let m11 = node(AND, vec![two(EQUAL, &bound(0), &bound(1)), z_above_y]);
    let m12 = not(&two(EQUAL, &bound(0), &literal(5)));
    [binder(EXISTS, 1, vec![m10]), binder(EXISTS, 2, vec![m11]), binder(FORALL, 1, vec![m12])]
}

pub fn chapters() -> Vec<Vec<Request>> {
    let predicates = one_points().map(|predicate| predicate_changes(&predicate.bytes()));
    vec![examples(), changes(&files()[0]), cuts(&files()[8]), predicates.concat()]
}

/// M1 to M12, and the sequents among them read.
pub fn examples() -> Vec<Request> {
    let mut out = Vec::new();
    for file in files() {
        out.push(request("genmp", std::slice::from_ref(&file)));
        out.push(request("read", &[file]));
    }
    for predicate in one_points() {
        out.push(request("onepoint", &[vec![0], predicate.bytes()]));
    }
    out
}

/// Every byte changed to every value.
fn changes(file: &[u8]) -> Vec<Request> {
    let mut out = Vec::new();
    for place in 0..file.len() {
        for value in 0..=255 {
            let mut changed = file.to_vec();
            changed[place] = value;
            out.push(request("genmp", &[changed]));
        }
    }
    out
}

/// Every length, and a byte too many.
fn cuts(file: &[u8]) -> Vec<Request> {
    let longer = [file, &[1]].concat();
    (0..=longer.len()).map(|length| request("genmp", &[longer[..length].to_vec()])).collect()
}

fn predicate_changes(predicate: &[u8]) -> Vec<Request> {
    let mut out = Vec::new();
    for place in 0..predicate.len() {
        for value in (0..=0x33).chain([0x7f, 0x80, 0xfe, 0xff]) {
            let mut changed = predicate.to_vec();
            changed[place] = value;
            out.push(request("onepoint", &[vec![0], changed]));
        }
    }
    out
}
