//! One-point inference beyond the marked examples.

use super::*;
use crate::one_point::infer;
use crate::tree::{binder, bound, leaf, not, truth};

fn forall(variables: usize, body: Tree) -> Tree {
    binder(FORALL, variables, vec![body])
}

fn exists(variables: usize, body: Tree) -> Tree {
    binder(EXISTS, variables, vec![body])
}

fn result(predicate: Tree) -> Tree {
    infer(&predicate).expect("a find").result
}

fn refusal(predicate: Tree) -> u8 {
    infer(&predicate).expect_err("a refusal").number
}

/// The find x=5, where x is the innermost variable.
fn find() -> Tree {
    equals(&bound(0), 5)
}

fn q() -> Tree {
    two(LESS, &x(), &y())
}

fn r() -> Tree {
    two(LESS, &y(), &x())
}

#[test]
fn the_scan_follows_the_polarity() {
    assert_eq!(result(exists(1, find())), truth(true));
    assert_eq!(result(exists(1, and(&[q(), find(), r()]))), and(&[q(), r()]));
    assert_eq!(refusal(exists(1, or(&[q(), find()]))), 16);
    assert_eq!(refusal(exists(1, not(&find()))), 16);
    assert_eq!(result(exists(1, not(&or(&[q(), not(&find())])))), not(&q()));
    assert_eq!(result(exists(1, not(&implies(&find(), &q())))), not(&q()));
    assert_eq!(refusal(exists(1, implies(&find(), &q()))), 16);
    assert_eq!(refusal(forall(1, find())), 16);
    assert_eq!(result(forall(1, implies(&find(), &q()))), q());
    assert_eq!(result(forall(1, implies(&and(&[find(), q()]), &r()))), implies(&q(), &r()));
    assert_eq!(result(forall(1, or(&[q(), not(&find())]))), q());
    assert_eq!(refusal(forall(1, two(IFF, &find(), &q()))), 16);
    assert_eq!(refusal(exists(1, exists(1, equals(&bound(0), 5)))), 16);
}

#[test]
fn a_closing_negation_strips_one() {
    assert_eq!(result(forall(1, not(&and(&[find(), not(&q())])))), q());
    assert_eq!(result(forall(1, not(&and(&[find(), not(&not(&q()))])))), not(&q()));
    assert_eq!(result(forall(1, implies(&not(&q()), &not(&find())))), q());
    assert_eq!(result(forall(1, implies(&q(), &not(&find())))), not(&q()));
}

#[test]
fn double_negations_vanish_before_the_find_and_stay_after_it() {
    let twice = not(&not(&q()));
    assert_eq!(result(exists(1, and(&[twice.clone(), find(), twice.clone()]))), and(&[q(), twice.clone()]));
    assert_eq!(result(exists(1, and(&[not(&twice), find(), r()]))), and(&[not(&q()), r()]));
    // A part that the scan does not enter keeps them.
    let part = or(&[twice.clone(), r()]);
    assert_eq!(result(exists(1, and(&[part.clone(), find()]))), part);
    // Each closing ¬ strips one ¬ of what is left, also of a later part.
    assert_eq!(result(exists(1, not(&not(&and(&[find(), twice]))))), q());
}

#[test]
fn the_first_fitting_equality_is_taken() {
    let second = equals(&bound(0), 6);
    let left = result(exists(1, and(&[find(), second])));
    assert_eq!(left, equals(&literal(5), 6));
    // Not fitting: the replacement mentions the variable or one further in.
    let own = two(EQUAL, &bound(0), &node(PLUS, vec![bound(0), literal(1)]));
    assert_eq!(refusal(exists(1, own.clone())), 16);
    assert_eq!(
        result(exists(1, and(&[own, find()]))),
        two(EQUAL, &literal(5), &node(PLUS, vec![literal(5), literal(1)]))
    );
    let inner = two(EQUAL, &bound(1), &node(PLUS, vec![bound(0), literal(1)]));
    assert_eq!(refusal(exists(2, inner)), 16);
    assert_eq!(refusal(exists(1, two(EQUAL, &bound(0), &bound(0)))), 16);
}

#[test]
fn of_two_variables_the_inner_one_goes() {
    let less = two(LESS, &bound(0), &bound(1));
    for equality in [two(EQUAL, &bound(0), &bound(1)), two(EQUAL, &bound(1), &bound(0))] {
        let inferred = infer(&exists(2, and(&[equality, less.clone()]))).expect("a find");
        assert_eq!(inferred.replacement, bound(1));
        assert_eq!(inferred.result, exists(1, two(LESS, &bound(0), &bound(0))));
    }
}

#[test]
fn an_outer_variable_goes_and_indices_drop() {
    // ∃a,b,c·(b=a+1 ∧ c<b ∧ a<c): b goes; a is 2, b is 1, c is 0.
    let plus = |index: i64| node(PLUS, vec![bound(index), literal(1)]);
    let body = and(&[
        two(EQUAL, &plus(2), &bound(1)),
        two(LESS, &bound(0), &bound(1)),
        two(LESS, &bound(2), &bound(0)),
    ]);
    let inferred = infer(&exists(3, body)).expect("a find");
    assert_eq!(inferred.replacement, plus(2));
    let expected = and(&[two(LESS, &bound(0), &plus(1)), two(LESS, &bound(1), &bound(0))]);
    assert_eq!(inferred.result, exists(2, expected));
}

#[test]
fn a_replacement_is_raised_under_inner_binders() {
    // ∃a,b·(b=a+1 ∧ ∀c,d·b<d ⇔ ⊤): under two variables a is 2.
    let under = two(IFF, &forall(2, two(LESS, &bound(2), &bound(0))), &truth(true));
    let plus = |index: i64| node(PLUS, vec![bound(index), literal(1)]);
    let left = result(exists(2, and(&[two(EQUAL, &bound(0), &plus(1)), under])));
    let expected = two(IFF, &forall(2, two(LESS, &plus(2), &bound(0))), &truth(true));
    assert_eq!(left, exists(1, expected));
}

#[test]
fn inner_binders_keep_their_own_variables() {
    // {c · c<limit ∣ c}
    let below = |limit: &Tree| binder(COMPREHENSION, 1, vec![two(LESS, &bound(0), limit), bound(0)]);
    let flag = |member: &Tree, limit: &Tree| {
        two(EQUAL, &node(BOOL, vec![two(IN, member, &below(limit))]), &leaf(TRUE))
    };
    let body = and(&[equals(&bound(1), 7), flag(&bound(0), &bound(2))]);
    assert_eq!(result(exists(2, body)), exists(1, flag(&bound(0), &literal(7))));
}

#[test]
fn like_blocks_join_only_at_index_zero() {
    let inner = |kind: u8, variables: usize| binder(kind, variables, vec![two(LESS, &bound(0), &x())]);
    assert_eq!(result(exists(2, and(&[find(), inner(EXISTS, 3)]))), inner(EXISTS, 4));
    assert_eq!(refusal(exists(2, and(&[find(), inner(FORALL, 3)]))), 17);
    assert_eq!(result(exists(1, and(&[find(), inner(FORALL, 3)]))), inner(FORALL, 3));
    assert_eq!(result(exists(1, and(&[find(), inner(EXISTS, 3)]))), inner(EXISTS, 3));
    let outer_find = equals(&bound(1), 5);
    assert_eq!(result(exists(2, and(&[outer_find.clone(), inner(EXISTS, 3)]))), exists(1, inner(EXISTS, 3)));
    assert_eq!(result(exists(2, and(&[outer_find, inner(FORALL, 3)]))), exists(1, inner(FORALL, 3)));
}

#[test]
fn what_joins_is_one_quantifier_alone_within_eight_variables() {
    let inner = |kind: u8, variables: usize| binder(kind, variables, vec![two(LESS, &bound(0), &x())]);
    // Two parts left are no quantifier.
    let both = and(&[inner(FORALL, 1), q()]);
    assert_eq!(result(exists(2, and(&[find(), inner(FORALL, 1), q()]))), exists(1, both));
    // Eight variables of one block are allowed, nine are not; unlike blocks come first.
    assert_eq!(result(exists(5, and(&[find(), inner(EXISTS, 4)]))), inner(EXISTS, 8));
    assert_eq!(refusal(exists(6, and(&[find(), inner(EXISTS, 4)]))), 14);
    assert_eq!(refusal(exists(6, and(&[find(), inner(FORALL, 4)]))), 17);
    assert_eq!(result(forall(2, implies(&find(), &inner(FORALL, 2)))), inner(FORALL, 3));
}

fn pair(left: &Tree, right: &Tree) -> Tree {
    two(MAPLET, left, right)
}

fn same(left: &Tree, right: &Tree) -> Tree {
    two(EQUAL, left, right)
}

#[test]
fn maplet_equalities_split() {
    let equality = same(&pair(&x(), &bound(0)), &pair(&y(), &literal(5)));
    assert_eq!(result(exists(1, equality.clone())), same(&x(), &y()));
    // Three leaves, two of them left, as an ∧ of its own.
    let deep = same(&pair(&pair(&x(), &bound(0)), &y()), &pair(&pair(&y(), &literal(5)), &x()));
    let rest = and(&[same(&x(), &y()), same(&y(), &x())]);
    assert_eq!(result(exists(1, deep.clone())), rest);
    assert_eq!(result(exists(1, and(&[q(), deep.clone(), r()]))), and(&[q(), rest.clone(), r()]));
    // One without a find is split too, but not after the find.
    let other = same(&pair(&x(), &y()), &pair(&y(), &x()));
    assert_eq!(result(exists(1, and(&[other.clone(), find()]))), rest);
    assert_eq!(result(exists(1, and(&[find(), other.clone()]))), other);
    // At the other polarity it is not looked into.
    assert_eq!(result(forall(1, or(&[other.clone(), not(&find())]))), other);
    assert_eq!(refusal(forall(1, deep)), 16);
    assert_eq!(result(forall(1, implies(&and(&[other, find()]), &q()))), implies(&rest, &q()));
}

/// A maplet equality of so many leaves; the first is the find if asked.
fn wide(leaves: usize, with_find: bool) -> Tree {
    let left_leaf = if with_find { bound(0) } else { literal(0) };
    let mut left = left_leaf;
    let mut right = literal(5);
    for _ in 1..leaves.min(8) {
        left = pair(&left, &x());
        right = pair(&right, &x());
    }
    // Chains of eight leaves hang together to stay within the levels.
    let mut rest = leaves.saturating_sub(8);
    while rest > 0 {
        let size = rest.min(8);
        let chain = (1..size).fold(x(), |chain, _| pair(&chain, &x()));
        left = pair(&left, &chain);
        right = pair(&right, &chain);
        rest -= size;
    }
    same(&left, &right)
}

#[test]
fn limits_are_asked_of_the_result_alone() {
    assert_eq!(result(exists(1, wide(33, true))).operands.len(), 32);
    assert_eq!(refusal(exists(1, wide(34, true))), 14);
    assert_eq!(result(exists(1, and(&[wide(32, false), find()]))).operands.len(), 32);
    assert_eq!(refusal(exists(1, and(&[wide(33, false), find()]))), 14);
    // After the find it stays whole.
    assert_eq!(result(exists(1, and(&[find(), wide(33, false)]))), wide(33, false));
}

#[test]
fn results_of_1024_bytes_and_32_levels() {
    // x<y∧filler, with x put in as nine bytes in place of two.
    let of = |size: usize| exists(1, and(&[find(), two(LESS, &bound(0), &x()), filler(size)]));
    // The result is ∧ of two: 2 + 1 + 9 + 2 + size.
    assert_eq!(result(of(1010)).size(), 1024);
    assert_eq!(refusal(of(1011)), 14);
    let chain = |count: usize, end: Tree| (0..count).fold(end, |tree, _| node(NEGATIVE, vec![tree]));
    let deep = |inside: usize, below: usize| {
        let replaced = two(EQUAL, &bound(0), &chain(below, literal(1)));
        exists(1, and(&[replaced, two(LESS, &chain(inside, bound(0)), &x())]))
    };
    // < is level 1, then the two chains, then the literal.
    assert_eq!(result(deep(15, 15)).levels(), 32);
    assert_eq!(refusal(deep(15, 16)), 14);
}
