//! The marked examples M1 to M12.

use super::*;
use crate::tree::{binder, bound, leaf, not, truth};

fn genmp(types: &[u8], hypotheses: &[(u8, Tree)], goal: &Tree) -> (Vec<u8>, Vec<u8>) {
    both("genmp", &[&file(types, hypotheses, goal)])
}

/// The step keeps the hypotheses and gives this goal by hypothesis 0 alone.
fn gives_goal(hypothesis: Tree, goal: Tree, new_goal: Tree) {
    let (sequent, report) = genmp(&[0], &[(0, hypothesis.clone())], &goal);
    assert_eq!(sequent, file(&[0], &[(0, hypothesis)], &new_goal));
    assert_eq!(report, unhex("01 01 00 00"));
}

#[test]
fn m1() {
    let before = unhex("53 51 54 01 00 01 01 00 00 02 15 20 00 25 15 20 00 24");
    let (sequent, report) = both("genmp", &[&before]);
    assert_eq!(sequent, unhex("53 51 54 01 00 01 01 00 00 02 15 20 00 25 01"));
    assert_eq!(report, unhex("01 01 00 00"));
}

#[test]
fn m2() {
    let hypothesis = implies(&equals(&x(), 1), &equals(&x(), 2));
    let goal = or(&[equals(&x(), 2), equals(&x(), 3)]);
    let (sequent, report) = genmp(&[0], &[(0, hypothesis.clone())], &goal);
    let inferred = implies(&equals(&x(), 1), &truth(false));
    assert_eq!(sequent, file(&[0], &[(1, hypothesis), (0, inferred)], &goal));
    assert_eq!(report, unhex("02 00 01 00 01 00 01"));
}

#[test]
fn m3() {
    let less = two(LESS, &x(), &y());
    let less_equal = two(LESS_EQUAL, &x(), &y());
    let (sequent, report) = genmp(&[0, 0], &[(0, less.clone()), (0, less_equal.clone())], &truth(false));
    let after = [(0, less), (1, less_equal), (0, truth(true))];
    assert_eq!(sequent, file(&[0, 0], &after, &truth(false)));
    assert_eq!(report, unhex("03 00 01 01 02 00 01 02"));
}

#[test]
fn m4() {
    gives_goal(equals(&x(), 1), equals(&x(), 1), truth(true));
}

#[test]
fn m5() {
    gives_goal(equals(&x(), 1), not(&equals(&x(), 1)), not(&truth(true)));
}

#[test]
fn m6() {
    let before = file(&[0], &[(0, equals(&x(), 1))], &truth(false));
    assert_eq!(refused("genmp", &[&before], &[ROOM, ROOM]), (13, 0));
}

#[test]
fn m7() {
    let at_least_one = two(GREATER_EQUAL, &x(), &literal(1));
    gives_goal(at_least_one, two(IN, &x(), &leaf(NATURAL1)), truth(true));
}

#[test]
fn m8() {
    let at_least_zero = two(GREATER_EQUAL, &x(), &literal(0));
    let before = file(&[0], &[(0, at_least_zero)], &two(IN, &x(), &leaf(NATURAL1)));
    assert_eq!(refused("genmp", &[&before], &[ROOM, ROOM]), (13, 0));
}

#[test]
fn m9() {
    let first = implies(&equals(&x(), 1), &equals(&x(), 2));
    let second = or(&[first.clone(), equals(&x(), 3)]);
    let goal = equals(&x(), 2);
    let (sequent, report) = genmp(&[0], &[(2, first.clone()), (0, second.clone())], &goal);
    let after = [
        (1, first),
        (1, second),
        (2, implies(&equals(&x(), 1), &truth(false))),
        (0, or(&[truth(true), equals(&x(), 3)])),
    ];
    assert_eq!(sequent, file(&[0], &after, &goal));
    assert_eq!(report, unhex("02 00 02 00 01 00 02 01 02 00 01 03"));
}

#[test]
fn m10() {
    let body = and(&[two(EQUAL, &bound(0), &x()), two(LESS, &bound(0), &literal(3))]);
    let (result, replacement) = both("onepoint", &[&[0], &binder(EXISTS, 1, vec![body]).bytes()]);
    assert_eq!(result, two(LESS, &x(), &literal(3)).bytes());
    assert_eq!(replacement, x().bytes());
}

#[test]
fn m11() {
    let inner = binder(FORALL, 1, vec![two(LESS, &bound(1), &bound(0))]);
    let body = and(&[two(EQUAL, &bound(0), &bound(1)), inner]);
    let predicate = binder(EXISTS, 2, vec![body]).bytes();
    assert_eq!(refused("onepoint", &[&[], &predicate], &[ROOM, ROOM]), (17, 0));
}

#[test]
fn m12() {
    let predicate = binder(FORALL, 1, vec![not(&equals(&bound(0), 5))]).bytes();
    let (result, replacement) = both("onepoint", &[&[], &predicate]);
    assert_eq!(result, truth(false).bytes());
    assert_eq!(replacement, literal(5).bytes());
}
