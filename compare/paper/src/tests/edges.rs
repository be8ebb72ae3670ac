//! Each limit from both sides.

use super::*;
use crate::tree::{binder, bound, leaf, not, truth};

fn formula(types: &[u8], bytes: &[u8]) -> Answer {
    answer("formula", &[types, bytes], &[])
}

fn length(types: &[u8], bytes: &[u8]) -> usize {
    match formula(types, bytes).expect("a formula")[0] {
        Part::Number(length) => length as usize,
        _ => panic!("no number"),
    }
}

fn wrong(types: &[u8], bytes: &[u8]) -> (u8, usize) {
    refused("formula", &[types, bytes], &[])
}

fn many(count: usize) -> Vec<(u8, Tree)> {
    (0..count).map(|number| (0, equals(&x(), number as i64))).collect()
}

fn reads(bytes: &[u8]) -> bool {
    answer("read", &[bytes], &[]).is_ok()
}

#[test]
fn hypotheses_64_and_65() {
    assert!(reads(&file(&[0], &many(64), &truth(true))));
    assert_eq!(refused("read", &[&file(&[0], &many(65), &truth(true))], &[]), (4, 5));
    let (no_list, one) = (list(&[]), list(&[equals(&x(), 100)]));
    let full = file(&[0], &many(64), &truth(true));
    let nearly = file(&[0], &many(63), &truth(true));
    assert!(changed("modify", &[&nearly, &one, &no_list, &no_list]).0);
    assert_eq!(refused("modify", &[&full, &one, &no_list, &no_list], &[ROOM]), (14, 0));
    assert_eq!(refused("forward", &[&full, &no_list, &one], &[ROOM]), (14, 0));
    let present = list(&[equals(&x(), 5)]);
    assert_eq!(changed("forward", &[&full, &no_list, &present]), (false, full.clone()));
}

/// So many hypotheses, all hidden but x<y and x≤y, of which the last becomes ⊤ and is appended.
fn growing(count: usize) -> Vec<u8> {
    let hide = |(_, predicate): (u8, Tree)| (1, predicate);
    let mut hypotheses: Vec<(u8, Tree)> = many(count - 2).into_iter().map(hide).collect();
    hypotheses.push((0, two(LESS, &x(), &y())));
    hypotheses.push((0, two(LESS_EQUAL, &x(), &y())));
    file(&[0, 0], &hypotheses, &truth(false))
}

#[test]
fn genmp_fills_64_and_refuses_65() {
    assert_eq!(both("genmp", &[&growing(63)]).0[6], 64);
    assert_eq!(refused("genmp", &[&growing(64)], &[ROOM, ROOM]), (14, 0));
}

#[test]
fn levels_32_and_33() {
    let chain = |levels: usize| [[3].repeat(levels - 1), vec![1]].concat();
    assert_eq!(length(&[], &chain(32)), 32);
    assert_eq!(wrong(&[], &chain(33)), (9, 32));
    // At level 33: first 1, then 7, then 9.
    assert_eq!(wrong(&[], &[3].repeat(32)), (1, 32));
    assert_eq!(wrong(&[], &[[3].repeat(32), vec![0]].concat()), (7, 32));
    assert_eq!(wrong(&[], &[[3].repeat(32), vec![4]].concat()), (1, 33));
    assert_eq!(wrong(&[], &[[3].repeat(32), vec![4, 1]].concat()), (7, 32));
    assert_eq!(wrong(&[], &[[3].repeat(32), vec![4, 2]].concat()), (9, 32));
}

#[test]
fn formula_bytes_1024_and_1025() {
    assert_eq!(length(&[], &filler(1024).bytes()), 1024);
    assert_eq!(wrong(&[], &filler(1025).bytes()), (9, 1024));
    // The place counts from the buffer, the limit from the formula.
    let before = file(&[0], &[(0, filler(1025))], &truth(true));
    assert_eq!(refused("read", &[&before], &[]), (9, 8 + 1 + 1 + 1024));
    assert!(reads(&file(&[0], &[(0, filler(1024))], &filler(1024))));
    let lent = list(&[filler(1024), filler(1025)]);
    let nothing = file(&[0], &[], &truth(true));
    assert_eq!(refused("forward", &[&nothing, &lent, &lent], &[ROOM]), (9, 1 + 1024 + 1024));
}

#[test]
fn own_bytes_past_the_1024th() {
    // The literal that ends the formula has nine own bytes.
    let ending = |front: usize| and(&[filler(front), equals(&literal(0), 0)]).bytes();
    assert_eq!(length(&[], &ending(1003)), 1024);
    assert_eq!(ending(1004).len(), 1025);
    assert_eq!(wrong(&[], &ending(1004)), (9, 1016));
    // Bytes that end inside it come first.
    assert_eq!(wrong(&[], &ending(1004)[..1024]), (1, 1024));
}

fn counted(code: u8, operand: &Tree, count: u8) -> Vec<u8> {
    let mut out = vec![code, count];
    out.extend(operand.bytes().repeat(usize::from(count)));
    out
}

/// The formula is read exactly when it should be, else its node at this place is 7.
fn reads_or_seven(bytes: &[u8], fits: bool, place: usize) {
    match fits {
        true => assert_eq!(length(&[0], bytes), bytes.len()),
        false => assert_eq!(wrong(&[0], bytes), (7, place)),
    }
}

#[test]
fn predicate_counts() {
    for code in [AND, OR] {
        for (count, fits) in [(0, false), (1, false), (2, true), (32, true), (33, false)] {
            reads_or_seven(&counted(code, &truth(true), count), fits, 0);
        }
    }
}

#[test]
fn expression_counts() {
    for code in [PLUS, TIMES, UNION, INTERSECTION, EXTENSION] {
        let operand = if code == UNION || code == INTERSECTION { leaf(EMPTY) } else { x() };
        let numeric = code == PLUS || code == TIMES;
        let (relation, right) = if numeric { (LESS, x()) } else { (SUBSET, leaf(EMPTY)) };
        for (count, fits) in [(0, false), (1, code == EXTENSION), (2, true), (32, true), (33, false)] {
            let bytes = [vec![relation], counted(code, &operand, count), right.bytes()].concat();
            reads_or_seven(&bytes, fits, 1);
        }
    }
}

#[test]
fn variable_counts() {
    for (count, fits) in [(0, false), (1, true), (8, true), (9, false), (33, false)] {
        reads_or_seven(&[FORALL, count, 1], fits, 0);
        reads_or_seven(&[EXISTS, count, 1], fits, 0);
        reads_or_seven(&[SUBSET, EMPTY, COMPREHENSION, count, 1, BOUND, 0], fits, 2);
    }
}

#[test]
fn indices_are_enclosed() {
    let inside = |variables: usize, index: i64| {
        binder(FORALL, variables, vec![two(LESS, &bound(index), &literal(0))]).bytes()
    };
    assert!(formula(&[], &inside(8, 7)).is_ok());
    assert_eq!(wrong(&[], &inside(8, 8)), (7, 3));
    // A comprehension encloses its guard and its value, and nothing after it.
    let set = binder(COMPREHENSION, 2, vec![two(LESS, &bound(1), &bound(0)), bound(1)]);
    assert!(formula(&[], &two(IN, &literal(1), &set).bytes()).is_ok());
    let after = node(UNION, vec![set, node(EXTENSION, vec![bound(0)])]);
    assert_eq!(wrong(&[], &two(SUBSET, &leaf(EMPTY), &after).bytes()), (7, 15));
    assert_eq!(wrong(&[0], &two(LESS, &y(), &x()).bytes()), (7, 1));
}

/// A file of exactly so many bytes, all hypotheses within their limits.
fn file_of(length: usize) -> Vec<u8> {
    let mut hypotheses: Vec<(u8, Tree)> = (0..58).map(|n| (0, numbered(n, 1020))).collect();
    let without = file(&[0], &hypotheses, &truth(true)).len();
    hypotheses.push((0, numbered(58, length - without - 1)));
    file(&[0], &hypotheses, &truth(true))
}

#[test]
fn file_lengths() {
    assert_eq!(refused("read", &[b"SQT\x01\x00\x00\x00"], &[]), (1, 7));
    assert_eq!(refused("read", &[b"SQT\x01\x00\x00\x00\x00"], &[]), (1, 8));
    assert!(reads(b"SQT\x01\x00\x00\x00\x00\x01"));
    assert_eq!(file_of(60_000).len(), 60_000);
    assert!(reads(&file_of(60_000)));
    assert_eq!(refused("read", &[&file_of(60_001)], &[]), (1, 60_001));
    assert_eq!(refused("read", &[&[]], &[]), (1, 0));
}

#[test]
fn results_of_60000_and_60001_bytes() {
    let full = file_of(59_980);
    let no_list = list(&[]);
    let add = |size: usize| list(&[numbered(99, size)]);
    let answer = changed("modify", &[&full, &add(19), &no_list, &no_list]);
    assert_eq!(answer.1.len(), 60_000);
    let buffers: [&[u8]; 4] = [&full, &add(20), &no_list, &no_list];
    assert_eq!(refused("modify", &buffers, &[100_000]), (14, 0));
}

#[test]
fn rooms_are_exact() {
    let before = file(&[0], &[(0, equals(&x(), 1))], &truth(false));
    let formula = equals(&x(), 1).bytes();
    for act in ["select", "deselect", "hide", "show"] {
        assert!(answer(act, &[&before, &formula], &[before.len()]).is_ok());
        assert_eq!(refused(act, &[&before, &formula], &[before.len() - 1]), (14, 0));
    }
    let m1 = unhex("53 51 54 01 00 01 01 00 00 02 15 20 00 25 15 20 00 24");
    assert!(answer("genmp", &[&m1], &[15, 4]).is_ok());
    assert_eq!(refused("genmp", &[&m1], &[14, 4]), (14, 0));
    assert_eq!(refused("genmp", &[&m1], &[15, 3]), (14, 0));
    let m12 = binder(FORALL, 1, vec![not(&equals(&bound(0), 5))]).bytes();
    assert!(answer("onepoint", &[&[], &m12], &[1, 9]).is_ok());
    assert_eq!(refused("onepoint", &[&[], &m12], &[0, 9]), (14, 0));
    assert_eq!(refused("onepoint", &[&[], &m12], &[1, 8]), (14, 0));
}

#[test]
fn list_counts() {
    let nothing = file(&[0], &[], &truth(true));
    let lists = |count: usize| list(&vec![truth(true); count]);
    assert!(answer("forward", &[&nothing, &lists(0), &lists(64)], &[ROOM]).is_ok());
    assert_eq!(refused("forward", &[&nothing, &lists(0), &lists(65)], &[ROOM]), (7, 0));
    let goals = |count: usize| answer("modify", &[&nothing, &lists(0), &lists(0), &lists(count)], &[ROOM]);
    assert!(goals(0).is_ok() && goals(1).is_ok());
    assert_eq!(goals(2), Err(answers::Refusal { number: 7, place: 0 }));
}

/// The limit of 60,000 bytes is the sequent's alone.
#[test]
fn a_lent_list_may_be_longer_than_a_file() {
    let nothing = file(&[0], &[], &truth(true));
    let long = list(&(0..64).map(|n| numbered(n, 1024)).collect::<Vec<_>>());
    assert_eq!(long.len(), 1 + 64 * 1024);
    // A source is absent, so nothing changes.
    assert_eq!(changed("forward", &[&nothing, &long, &long]), (false, nothing));
}

#[test]
fn type_bytes_of_one_point() {
    let m12 = binder(FORALL, 1, vec![not(&equals(&bound(0), 5))]).bytes();
    let over = |types: &[u8]| answer("onepoint", &[types, &m12], &[ROOM, ROOM]);
    assert!(over(&[]).is_ok());
    assert!(over(&[2; 64]).is_ok());
    assert_eq!(over(&[3; 65]), Err(answers::Refusal { number: 4, place: 64 }));
    assert_eq!(over(&[0, 2, 3, 4]), Err(answers::Refusal { number: 5, place: 2 }));
}
