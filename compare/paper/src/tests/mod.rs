//! Tests of the acts over bytes, and the small builders they share.

mod acts;
mod edges;
mod examples;
mod keys;
mod one_point;
mod random;
mod refusals;
mod slips;
mod truth;

use answers::{Answer, Part};

use crate::codes::*;
use crate::run;
use crate::tree::{identifier, literal, node, two, Tree};

/// Room enough for any result.
const ROOM: usize = 60_000;

fn unhex(words: &str) -> Vec<u8> {
    words.split_ascii_whitespace().flat_map(|word| answers::unhex(word).expect("hex")).collect()
}

fn x() -> Tree {
    identifier(0)
}

fn y() -> Tree {
    identifier(1)
}

fn equals(identifier: &Tree, value: i64) -> Tree {
    two(EQUAL, identifier, &literal(value))
}

fn implies(left: &Tree, right: &Tree) -> Tree {
    two(IMPLIES, left, right)
}

fn and(operands: &[Tree]) -> Tree {
    node(AND, operands.to_vec())
}

fn or(operands: &[Tree]) -> Tree {
    node(OR, operands.to_vec())
}

/// The file of these parts, whatever their number.
fn file(types: &[u8], hypotheses: &[(u8, Tree)], goal: &Tree) -> Vec<u8> {
    let mut out = b"SQT\x01\x00".to_vec();
    out.extend([types.len() as u8, hypotheses.len() as u8, 0]);
    out.extend(types);
    for (flag, predicate) in hypotheses {
        out.push(*flag);
        out.extend(predicate.bytes());
    }
    out.extend(goal.bytes());
    out
}

fn list(formulas: &[Tree]) -> Vec<u8> {
    let mut out = vec![formulas.len() as u8];
    out.extend(formulas.iter().flat_map(Tree::bytes));
    out
}

fn answer(act: &str, buffers: &[&[u8]], rooms: &[usize]) -> Answer {
    run(act, buffers, rooms).expect("a known act with its buffers and rooms")
}

fn refused(act: &str, buffers: &[&[u8]], rooms: &[usize]) -> (u8, usize) {
    let refusal = answer(act, buffers, rooms).expect_err("a refusal");
    (refusal.number, refusal.place)
}

/// The answer of an act that changes a sequent, with room enough.
fn changed(act: &str, buffers: &[&[u8]]) -> (bool, Vec<u8>) {
    let parts = answer(act, buffers, &[ROOM]).expect("a success");
    match (&parts[0], &parts[1]) {
        (Part::Number(changed), Part::Bytes(bytes)) => (*changed == 1, bytes.clone()),
        other => panic!("{other:?}"),
    }
}

/// The two buffers an act wrote, with room enough.
fn both(act: &str, buffers: &[&[u8]]) -> (Vec<u8>, Vec<u8>) {
    let parts = answer(act, buffers, &[ROOM, ROOM]).expect("a success");
    match (&parts[0], &parts[1]) {
        (Part::Bytes(first), Part::Bytes(second)) => (first.clone(), second.clone()),
        other => panic!("{other:?}"),
    }
}

/// A closed predicate of exactly so many bytes and few levels.
fn filler(size: usize) -> Tree {
    match size {
        0 => panic!("no predicate is empty"),
        1 => crate::tree::truth(true),
        2 | 3 => crate::tree::not(&filler(size - 1)),
        _ => {
            let count = (size - 2).min(32);
            let share = (size - 2) / count;
            let longer = (size - 2) % count;
            let part = |index: usize| filler(share + usize::from(index < longer));
            and(&(0..count).map(part).collect::<Vec<_>>())
        }
    }
}

/// A predicate of exactly so many bytes that differs from those of other numbers.
fn numbered(number: i64, size: usize) -> Tree {
    implies(&equals(&x(), number), &filler(size - 13))
}

#[test]
fn builders_make_what_they_say() {
    for size in 1..=1024 {
        assert_eq!(filler(size).bytes().len(), size);
        assert_eq!(filler(size).size(), size);
        assert!(filler(size).levels() < 8);
    }
    assert_eq!(numbered(7, 100).bytes().len(), 100);
}

#[test]
fn an_unknown_act_or_a_wrong_number_of_buffers_or_rooms_is_none() {
    assert_eq!(run("sing", &[], &[]), None);
    assert_eq!(run("read", &[], &[]), None);
    assert_eq!(run("read", &[b""], &[1]), None);
    assert_eq!(run("genmp", &[b""], &[1]), None);
    assert!(run("genmp", &[b""], &[1, 1]).is_some());
}
