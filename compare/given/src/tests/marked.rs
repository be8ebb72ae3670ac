//! Document 01's marked examples, on the cut lists; the unchanged files answer the same.

use super::bytes::*;
use super::{answer, pair, refused};
use crate::Variant;
use answers::{Answer, Part, unhex};

const ONE: [u8; 1] = [INTEGER];

fn cut(act: &str, buffers: &[Vec<u8>]) -> Answer {
    let answered = answer(Variant::Cut, act, buffers);
    assert_eq!(answered, answer(Variant::Unchanged, act, buffers));
    answered
}

fn x() -> Vec<u8> {
    id(0)
}

fn x_is(value: i64) -> Vec<u8> {
    eq(x(), lit(value))
}

fn genmp(hyps: &[(u8, Vec<u8>)], goal: Vec<u8>) -> Answer {
    cut("genmp", &[sequent(&ONE, hyps, goal)])
}

/// The goal after a step that changes nothing but the goal, from one hypothesis.
fn assert_goal(hyp: Vec<u8>, goal: Vec<u8>, new_goal: Vec<u8>) {
    let after = sequent(&ONE, &[(0, hyp.clone())], new_goal);
    assert_eq!(genmp(&[(0, hyp)], goal), pair(after, vec![1, 1, 0, 0]));
}

#[test]
fn m1() {
    let before = unhex("535154010001010000021520002515200024").unwrap();
    let after = unhex("535154010001010000021520002501").unwrap();
    assert_eq!(cut("genmp", &[before]), pair(after, unhex("01010000").unwrap()));
}

#[test]
fn m2() {
    let hyp = imp(x_is(1), x_is(2));
    let goal = or(&[x_is(2), x_is(3)]);
    let after = sequent(&ONE, &[(1, hyp.clone()), (0, imp(x_is(1), falsity()))], goal.clone());
    assert_eq!(genmp(&[(0, hyp)], goal), pair(after, unhex("02000100010001").unwrap()));
}

#[test]
fn m3() {
    let types = [INTEGER, INTEGER];
    let (less, at_most) = (lt(id(0), id(1)), rel(LE, id(0), id(1)));
    let before = sequent(&types, &[(0, less.clone()), (0, at_most.clone())], falsity());
    let after = sequent(&types, &[(0, less), (1, at_most), (0, truth())], falsity());
    assert_eq!(cut("genmp", &[before]), pair(after, unhex("0300010102000102").unwrap()));
}

#[test]
fn m4_and_m5() {
    assert_goal(x_is(1), x_is(1), truth());
    assert_goal(x_is(1), not(x_is(1)), not(truth()));
}

#[test]
fn m6() {
    assert_eq!(genmp(&[(0, x_is(1))], falsity()), refused(13));
}

#[test]
fn m7_and_m8() {
    assert_goal(rel(GE, x(), lit(1)), in_naturals1(x()), truth());
    assert_eq!(genmp(&[(0, rel(GE, x(), lit(0)))], in_naturals1(x())), refused(13));
}

#[test]
fn m9() {
    let implies = imp(x_is(1), x_is(2));
    let either = or(&[implies.clone(), x_is(3)]);
    let before = [(2, implies.clone()), (0, either.clone())];
    let results = [(1, implies), (1, either), (2, imp(x_is(1), falsity())), (0, or(&[truth(), x_is(3)]))];
    let report = unhex("020002000100020102000103").unwrap();
    assert_eq!(genmp(&before, x_is(2)), pair(sequent(&ONE, &results, x_is(2)), report));
}

#[test]
fn m10() {
    let body = and(&[eq(bound(0), id(0)), lt(bound(0), lit(3))]);
    assert_eq!(cut("onepoint", &[ONE.to_vec(), exists(1, body)]), pair(lt(id(0), lit(3)), id(0)));
}

/// Document 01 refuses with 17; the given file joins ∃x and ∀z into one ∃ block (D-JOIN-UNLIKE).
#[test]
fn m11_is_joined() {
    let body = and(&[eq(bound(0), bound(1)), forall(1, lt(bound(1), bound(0)))]);
    let joined = exists(2, lt(bound(1), bound(0)));
    assert_eq!(cut("onepoint", &[vec![], exists(2, body)]), pair(joined, bound(1)));
}

#[test]
fn m12() {
    let answer = cut("onepoint", &[vec![], forall(1, not(eq(bound(0), lit(5))))]);
    assert_eq!(answer, Ok(vec![Part::Bytes(falsity()), Part::Bytes(lit(5))]));
}
