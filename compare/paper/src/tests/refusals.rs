//! The order of refusals, and their places.

use super::*;
use crate::tree::{binder, bound, leaf, truth};

fn wrong(types: &[u8], bytes: &[u8]) -> (u8, usize) {
    refused("formula", &[types, bytes], &[])
}

fn reading(bytes: &[u8]) -> (u8, usize) {
    refused("read", &[bytes], &[])
}

#[test]
fn the_header_is_asked_in_order() {
    assert_eq!(reading(b"XXXXXXX"), (1, 7));
    assert_eq!(reading(b"SQX\x02\x00\xff\xff\xff"), (2, 0));
    assert_eq!(reading(b"SQT\x02\x00\xff\xff\xff"), (3, 3));
    assert_eq!(reading(b"SQT\x01\x01\xff\xff\xff"), (3, 3));
    assert_eq!(reading(b"SQT\x01\x00\x41\x00\x00"), (4, 5));
    assert_eq!(reading(b"SQT\x01\x00\x00\x41\x00"), (4, 5));
    assert_eq!(reading(b"SQT\x01\x00\x00\x00\x01"), (4, 5));
    assert_eq!(reading(b"SQT\x01\x00\x40\x40\x00"), (1, 8));
}

#[test]
fn types_and_flags_go_byte_by_byte() {
    assert_eq!(reading(b"SQT\x01\x00\x03\x00\x00\x02\x03"), (5, 9));
    assert_eq!(reading(b"SQT\x01\x00\x03\x00\x00\x02\x02"), (1, 10));
    assert_eq!(reading(b"SQT\x01\x00\x00\x01\x00"), (1, 8));
    assert_eq!(reading(b"SQT\x01\x00\x00\x01\x00\x03"), (6, 8));
    assert_eq!(reading(b"SQT\x01\x00\x00\x01\x00\x02"), (1, 9));
    assert_eq!(reading(b"SQT\x01\x00\x00\x01\x00\x02\x01"), (1, 10));
    assert_eq!(reading(b"SQT\x01\x00\x00\x01\x00\x02\x01\x02\x00"), (11, 11));
}

#[test]
fn hypotheses_are_asked_one_by_one() {
    let header = unhex("53 51 54 01 00 01 02 00 00");
    let then = |rest: &str| reading(&[header.clone(), unhex(rest)].concat());
    // A type error of the first comes before a bad flag of the second.
    assert_eq!(then("00 16 20 00 23 07 01"), (8, 10));
    // A repeat comes before a fault of the goal, and its place is after the flag.
    assert_eq!(then("00 01 02 01 ff"), (10, 12));
    assert_eq!(then("00 01 03 01 ff"), (6, 11));
    assert_eq!(then("00 01 02 02 ff"), (7, 13));
    // The goal may equal a hypothesis.
    assert_eq!(then("00 01 02 02 01 01"), (11, 14));
}

#[test]
fn at_one_node_the_lower_number_wins() {
    // A known code of the other sort whose own bytes are cut off is 1.
    assert_eq!(wrong(&[], &unhex("22 00")), (1, 2));
    assert_eq!(wrong(&[], &unhex("03 20")), (1, 2));
    assert_eq!(wrong(&[], &unhex("23")), (7, 0));
    assert_eq!(wrong(&[], &unhex("2f")), (7, 0));
    // An unknown code is 7 even as the last byte.
    for code in [0x00, 0x0a, 0x0f, 0x18, 0x1f, 0x33, 0xff] {
        assert_eq!(wrong(&[], &[code]), (7, 0));
        assert_eq!(wrong(&[], &[3, code]), (7, 1));
    }
    assert_eq!(wrong(&[], &[]), (1, 0));
    assert_eq!(wrong(&[], &unhex("04")), (1, 1));
    assert_eq!(wrong(&[], &unhex("04 21")), (7, 0));
    assert_eq!(wrong(&[], &unhex("10 01")), (7, 1));
}

#[test]
fn reading_order_comes_before_numbers() {
    // 9 at an earlier node comes before 7 and 1 at later ones.
    assert_eq!(wrong(&[], &[[3].repeat(33), vec![0xff]].concat()), (9, 32));
    // 7 at an earlier node comes before 1 at a later one.
    assert_eq!(wrong(&[], &unhex("04 02 ff")), (7, 2));
    // Any of 1, 7, 9 comes before 8.
    assert_eq!(wrong(&[0], &unhex("04 02 16 20 00 20 00 ff")), (7, 7));
    assert_eq!(wrong(&[0], &unhex("04 02 16 20 00 20 00")), (1, 7));
    assert_eq!(wrong(&[0], &unhex("04 02 16 20 00 20 00 01")), (8, 2));
}

fn type_error(formula: &Tree) -> usize {
    let (number, place) = wrong(&[0, 0, 2, 1], &formula.bytes());
    assert_eq!(number, 8);
    place
}

#[test]
fn types_are_asked_by_the_direct_operand_in_prefix_order() {
    let (set, boolean) = (identifier(2), identifier(3));
    assert_eq!(type_error(&two(LESS, &set, &x())), 0);
    assert_eq!(type_error(&two(EQUAL, &x(), &set)), 0);
    assert_eq!(type_error(&two(EQUAL, &boolean, &set)), 0);
    assert_eq!(type_error(&two(IN, &set, &set)), 0);
    assert_eq!(type_error(&two(IN, &x(), &x())), 0);
    assert_eq!(type_error(&two(SUBSET, &set, &leaf(NATURAL))), 0);
    // The outer node is right by its operands' codes, so the inner one is told.
    let sum = node(PLUS, vec![x(), set.clone()]);
    assert_eq!(type_error(&two(LESS, &sum, &x())), 1);
    assert_eq!(type_error(&two(LESS, &sum, &set)), 0);
    assert_eq!(type_error(&crate::tree::not(&two(LESS, &x(), &sum))), 4);
    assert_eq!(type_error(&two(SUBSET, &set, &node(EXTENSION, vec![x(), set.clone()]))), 3);
    // A wrong left operand comes before a wrong right one.
    assert_eq!(type_error(&two(LESS, &sum, &sum)), 1);
}

#[test]
fn a_comprehension_s_value_comes_before_its_guard() {
    let wrong_guard = two(LESS, &identifier(2), &bound(0));
    let set = |guard: &Tree, value: &Tree| binder(COMPREHENSION, 1, vec![guard.clone(), value.clone()]);
    let within = |set: Tree| two(IN, &x(), &set);
    assert_eq!(type_error(&within(set(&wrong_guard, &identifier(2)))), 3);
    assert_eq!(type_error(&within(set(&wrong_guard, &bound(0)))), 5);
}

#[test]
fn naturals_stand_to_the_right_of_in_alone() {
    let (n, n1) = (leaf(NATURAL), leaf(NATURAL1));
    let pair = |left: &Tree, right: &Tree| two(MAPLET, left, right);
    assert_eq!(type_error(&two(EQUAL, &n, &n)), 0);
    assert_eq!(type_error(&two(EQUAL, &n1, &n1)), 0);
    assert_eq!(type_error(&two(EQUAL, &pair(&n, &x()), &pair(&n, &x()))), 1);
    assert_eq!(type_error(&two(EQUAL, &pair(&n, &x()), &pair(&n1, &x()))), 0);
    assert_eq!(type_error(&two(EQUAL, &pair(&x(), &n), &pair(&x(), &n))), 1);
    assert_eq!(type_error(&two(EQUAL, &n, &identifier(2))), 0);
    assert_eq!(type_error(&two(IN, &n, &n)), 0);
    assert_eq!(type_error(&two(SUBSET_EQUAL, &n, &n)), 0);
}

#[test]
fn pairs_are_equal_by_shape() {
    let pair = |left: &Tree, right: &Tree| two(MAPLET, left, right);
    let nested = pair(&pair(&x(), &identifier(2)), &identifier(3));
    let good = two(EQUAL, &nested, &nested).bytes();
    assert!(answer("formula", &[&[0, 0, 2, 1], &good], &[]).is_ok());
    let other = pair(&x(), &pair(&identifier(2), &identifier(3)));
    assert_eq!(type_error(&two(EQUAL, &nested, &other)), 0);
    assert_eq!(type_error(&two(EQUAL, &nested, &x())), 0);
    assert_eq!(type_error(&two(IN, &nested, &identifier(2))), 0);
}

#[test]
fn a_formula_does_not_look_further() {
    assert_eq!(answer("formula", &[&[], &unhex("03 01 ff ff")], &[]), Ok(vec![Part::Number(2)]));
}

#[test]
fn sequents_come_before_lent_formulas() {
    let good = file(&[0], &[(0, equals(&x(), 1))], &truth(true));
    assert_eq!(refused("select", &[b"SQT", &[]], &[0]), (1, 3));
    assert_eq!(refused("select", &[&good, &[]], &[0]), (1, 0));
    assert_eq!(refused("select", &[&good, &unhex("01 01")], &[0]), (11, 1));
    assert_eq!(refused("select", &[&good, &unhex("03 ff")], &[0]), (7, 1));
    assert_eq!(refused("select", &[&good, &unhex("11 20 00 20 01")], &[0]), (7, 3));
    assert_eq!(refused("select", &[&good, &unhex("16 20 00 20 00")], &[0]), (8, 0));
    assert_eq!(refused("select", &[&good, &unhex("01")], &[0]), (14, 0));
}

#[test]
fn lent_lists_are_read_to_their_ends_in_order() {
    let good = file(&[0], &[], &truth(true));
    let (one, bad_count, left_over) = (unhex("01 01"), unhex("41 ff"), unhex("01 01 02"));
    let modify = |added: &[u8], unselected: &[u8], goal: &[u8]| {
        refused("modify", &[&good, added, unselected, goal], &[0])
    };
    assert_eq!(modify(&left_over, &bad_count, &[]), (11, 2));
    assert_eq!(modify(&one, &bad_count, &[]), (7, 0));
    assert_eq!(modify(&one, &unhex("02 01"), &[]), (1, 2));
    assert_eq!(modify(&one, &unhex("00"), &[]), (1, 0));
    assert_eq!(modify(&one, &unhex("00"), &unhex("02 01 01")), (7, 0));
    assert_eq!(modify(&one, &unhex("01 02"), &unhex("01 ff")), (7, 1));
    // 18 comes after all lists, 14 after 18.
    assert_eq!(modify(&one, &unhex("01 02"), &unhex("00")), (18, 0));
    assert_eq!(modify(&one, &unhex("01 01"), &unhex("00")), (14, 0));
    assert_eq!(modify(&unhex("02 01 01"), &unhex("02 01 01"), &unhex("00")), (14, 0));
}

#[test]
fn rewrite_reads_three_lists() {
    let good = file(&[0], &[], &truth(true));
    let no_list = unhex("00");
    assert_eq!(refused("rewrite", &[&good, &no_list, &no_list, &[]], &[ROOM]), (1, 0));
    assert_eq!(refused("rewrite", &[&good, &no_list, &unhex("01 03"), &[]], &[ROOM]), (1, 2));
    assert_eq!(refused("rewrite", &[&good, &unhex("00 00"), &[], &[]], &[ROOM]), (11, 1));
}

#[test]
fn thirteen_comes_before_fourteen() {
    let still = file(&[0], &[], &truth(true));
    assert_eq!(refused("genmp", &[&still], &[0, 0]), (13, 0));
}

#[test]
fn one_point_refuses_in_order() {
    let refusal = |types: &[u8], predicate: &[u8]| refused("onepoint", &[types, predicate], &[0, 0]);
    assert_eq!(refusal(&[3], &[]), (5, 0));
    assert_eq!(refusal(&[], &[]), (1, 0));
    assert_eq!(refusal(&[], &unhex("01 01")), (11, 1));
    assert_eq!(refusal(&[], &unhex("11 21 00 21 00")), (7, 1));
    assert_eq!(refusal(&[], &unhex("01")), (15, 0));
    assert_eq!(refusal(&[], &unhex("08 01 01")), (16, 0));
    let unlike = unhex("09 02 04 02 10 21 00 21 01 08 01 01");
    assert_eq!(refusal(&[], &unlike), (17, 0));
    let found = unhex("09 01 10 21 00 22 05 00 00 00 00 00 00 00");
    assert_eq!(refusal(&[], &found), (14, 0));
}
