//! The four lists of substitutes, key by key.

use super::*;
use crate::tree::{bound, leaf, not, truth};
use crate::variations::substitutes;

const TYPES: [u8; 6] = [0, 0, 2, 2, 1, 1];

fn s() -> Tree {
    identifier(2)
}

fn t() -> Tree {
    identifier(3)
}

/// The code, whether the operands are in the source's order, and the value of a first entry.
type Key = (u8, bool, bool);

/// The first entries of a relation of l and r are these, in this order.
fn check(code: u8, l: Tree, r: Tree, starts: bool, expected: &[Key]) {
    let mut found: Vec<(Tree, bool)> = Vec::new();
    for substitute in substitutes(&two(code, &l, &r), starts, &TYPES) {
        if !found.iter().any(|(key, _)| *key == substitute.key) {
            found.push((substitute.key, substitute.value));
        }
    }
    let tree = |key: &Key| if key.1 { two(key.0, &l, &r) } else { two(key.0, &r, &l) };
    let expected: Vec<(Tree, bool)> = expected.iter().map(|key| (tree(key), key.2)).collect();
    assert_eq!(found, expected);
}

const T: bool = true;
const F: bool = false;

#[test]
fn equal_integers() {
    check(
        EQUAL,
        x(),
        y(),
        T,
        &[
            (EQUAL, T, T),
            (EQUAL, F, T),
            (LESS_EQUAL, T, T),
            (GREATER_EQUAL, F, T),
            (LESS_EQUAL, F, T),
            (GREATER_EQUAL, T, T),
            (LESS, T, F),
            (GREATER, F, F),
            (LESS, F, F),
            (GREATER, T, F),
        ],
    );
    check(EQUAL, x(), y(), F, &[(EQUAL, T, F), (EQUAL, F, F)]);
}

#[test]
fn equal_sets() {
    check(
        EQUAL,
        s(),
        t(),
        T,
        &[
            (EQUAL, T, T),
            (EQUAL, F, T),
            (SUBSET_EQUAL, T, T),
            (SUBSET_EQUAL, F, T),
            (SUBSET, T, F),
            (SUBSET, F, F),
        ],
    );
    check(EQUAL, s(), t(), F, &[(EQUAL, T, F), (EQUAL, F, F)]);
}

#[test]
fn equal_truth_values_and_pairs() {
    let (a, b) = (identifier(4), identifier(5));
    check(EQUAL, a.clone(), b.clone(), T, &[(EQUAL, T, T), (EQUAL, F, T)]);
    check(EQUAL, leaf(TRUE), a.clone(), T, &[(EQUAL, T, T), (EQUAL, F, T)]);
    let (left, right) = (two(MAPLET, &x(), &s()), two(MAPLET, &y(), &t()));
    check(EQUAL, left, right, T, &[(EQUAL, T, T), (EQUAL, F, T)]);
}

#[test]
fn strict_orders() {
    check(
        LESS,
        x(),
        y(),
        T,
        &[
            (LESS, T, T),
            (GREATER, F, T),
            (LESS_EQUAL, T, T),
            (GREATER_EQUAL, F, T),
            (EQUAL, T, F),
            (EQUAL, F, F),
            (GREATER_EQUAL, T, F),
            (LESS_EQUAL, F, F),
            (GREATER, T, F),
            (LESS, F, F),
        ],
    );
    check(LESS, x(), y(), F, &[(LESS, T, F), (GREATER, F, F), (GREATER_EQUAL, T, T), (LESS_EQUAL, F, T)]);
}

#[test]
fn weak_orders() {
    check(
        LESS_EQUAL,
        x(),
        y(),
        T,
        &[(LESS_EQUAL, T, T), (GREATER_EQUAL, F, T), (GREATER, T, F), (LESS, F, F)],
    );
    check(
        LESS_EQUAL,
        x(),
        y(),
        F,
        &[
            (LESS_EQUAL, T, F),
            (GREATER_EQUAL, F, F),
            (LESS, T, F),
            (GREATER, F, F),
            (EQUAL, T, F),
            (EQUAL, F, F),
            (GREATER, T, T),
            (LESS, F, T),
            (GREATER_EQUAL, T, T),
            (LESS_EQUAL, F, T),
        ],
    );
}

#[test]
fn greater_is_less_turned_round() {
    for starts in [T, F] {
        let of = |code: u8, l: Tree, r: Tree| substitutes(&two(code, &l, &r), starts, &TYPES);
        assert_eq!(of(GREATER, x(), y()), of(LESS, y(), x()));
        assert_eq!(of(GREATER_EQUAL, x(), y()), of(LESS_EQUAL, y(), x()));
    }
}

#[test]
fn strict_inclusions() {
    check(
        SUBSET,
        s(),
        t(),
        T,
        &[
            (SUBSET, T, T),
            (SUBSET_EQUAL, T, T),
            (EQUAL, T, F),
            (EQUAL, F, F),
            (SUBSET, F, F),
            (SUBSET_EQUAL, F, F),
        ],
    );
    check(SUBSET, s(), t(), F, &[(SUBSET, T, F)]);
}

#[test]
fn weak_inclusions_and_members() {
    check(SUBSET_EQUAL, s(), t(), T, &[(SUBSET_EQUAL, T, T), (SUBSET, F, F)]);
    check(SUBSET_EQUAL, s(), t(), F, &[(SUBSET_EQUAL, T, F), (SUBSET, T, F), (EQUAL, T, F), (EQUAL, F, F)]);
    check(IN, x(), s(), T, &[(IN, T, T)]);
    check(IN, x(), s(), F, &[(IN, T, F)]);
}

/// The first entries of a source, in order.
fn first_entries(source: &Tree, starts: bool) -> Vec<(Tree, bool)> {
    let mut found: Vec<(Tree, bool)> = Vec::new();
    for substitute in substitutes(source, starts, &TYPES) {
        if !found.iter().any(|(key, _)| *key == substitute.key) {
            found.push((substitute.key, substitute.value));
        }
    }
    found
}

/// A relation of x and 0, `x` first or not, or x in ℕ or ℕ1.
fn zero(code: u8, x_first: bool) -> Tree {
    if x_first {
        two(code, &x(), &literal(0))
    } else {
        two(code, &literal(0), &x())
    }
}

fn natural() -> Tree {
    two(IN, &x(), &leaf(NATURAL))
}

fn natural1() -> Tree {
    two(IN, &x(), &leaf(NATURAL1))
}

#[test]
fn naturals() {
    assert_eq!(
        first_entries(&natural(), T),
        vec![
            (natural(), T),
            (zero(LESS_EQUAL, F), T),
            (zero(GREATER_EQUAL, T), T),
            (zero(GREATER, F), F),
            (zero(LESS, T), F),
        ]
    );
    assert_eq!(
        first_entries(&natural(), F),
        vec![
            (natural(), F),
            (zero(LESS_EQUAL, F), F),
            (zero(GREATER_EQUAL, T), F),
            (natural1(), F),
            (zero(LESS, F), F),
            (zero(GREATER, T), F),
            (zero(GREATER, F), T),
            (zero(LESS, T), T),
            (zero(GREATER_EQUAL, F), T),
            (zero(LESS_EQUAL, T), T),
            (zero(EQUAL, T), F),
            (zero(EQUAL, F), F),
        ]
    );
}

#[test]
fn positive_naturals() {
    assert_eq!(
        first_entries(&natural1(), T),
        vec![
            (natural1(), T),
            (zero(LESS, F), T),
            (zero(GREATER, T), T),
            (natural(), T),
            (zero(LESS_EQUAL, F), T),
            (zero(GREATER_EQUAL, T), T),
            (zero(EQUAL, T), F),
            (zero(EQUAL, F), F),
            (zero(GREATER_EQUAL, F), F),
            (zero(LESS_EQUAL, T), F),
            (zero(GREATER, F), F),
            (zero(LESS, T), F),
        ]
    );
    assert_eq!(
        first_entries(&natural1(), F),
        vec![
            (natural1(), F),
            (zero(LESS, F), F),
            (zero(GREATER, T), F),
            (zero(GREATER_EQUAL, F), T),
            (zero(LESS_EQUAL, T), T),
        ]
    );
}

fn has(source: &Tree, starts: bool, key: &Tree) -> Option<bool> {
    first_entries(source, starts).into_iter().find(|entry| entry.0 == *key).map(|entry| entry.1)
}

#[test]
fn literals_say_more() {
    // Equal to 0 is not in ℕ1, on either side.
    for source in [zero(EQUAL, T), zero(EQUAL, F)] {
        assert_eq!(has(&source, T, &natural1()), Some(F));
        assert_eq!(has(&source, T, &natural()), None);
    }
    for code in [LESS, LESS_EQUAL] {
        let from = |value: i64| two(code, &literal(value), &x());
        assert_eq!(has(&from(1), T, &natural()), Some(T));
        assert_eq!(has(&from(1), T, &natural1()), Some(T));
        assert_eq!(has(&from(i64::MAX), T, &zero(LESS, F)), Some(T));
        assert_eq!(has(&from(0), T, &natural()), None);
        assert_eq!(has(&from(0), T, &natural1()), None);
        assert_eq!(has(&from(-1), F, &natural()), Some(F));
        assert_eq!(has(&from(i64::MIN), F, &natural1()), Some(F));
        assert_eq!(has(&from(0), F, &natural()), None);
        assert_eq!(has(&from(-1), T, &natural()), None);
        assert_eq!(has(&from(1), F, &natural()), None);
    }
    // A unary minus over a literal is none itself.
    let negative = node(NEGATIVE, vec![literal(1)]);
    assert_eq!(has(&two(LESS, &negative, &x()), F, &natural()), None);
}

#[test]
fn the_cut_lists_do_not_count_by_ones() {
    let less = two(LESS, &x(), &literal(1));
    assert_eq!(has(&less, T, &two(LESS_EQUAL, &x(), &literal(0))), None);
    assert_eq!(has(&two(LESS_EQUAL, &literal(1), &x()), T, &two(LESS, &x(), &literal(0))), None);
    let is_true = two(EQUAL, &identifier(4), &leaf(TRUE));
    assert_eq!(has(&is_true, T, &two(EQUAL, &identifier(4), &leaf(FALSE))), None);
}

#[test]
fn sources_lose_their_negations() {
    let twice = not(&not(&equals(&x(), 1)));
    assert_eq!(substitutes(&twice, T, &TYPES), substitutes(&equals(&x(), 1), T, &TYPES));
    assert_eq!(substitutes(&not(&twice), T, &TYPES), substitutes(&equals(&x(), 1), F, &TYPES));
}

#[test]
fn other_sources_give_themselves() {
    let quantified = crate::tree::binder(FORALL, 1, vec![two(LESS, &bound(0), &x())]);
    assert_eq!(first_entries(&quantified, T), vec![(quantified.clone(), T)]);
    assert_eq!(first_entries(&not(&quantified), T), vec![(quantified.clone(), F)]);
    assert_eq!(first_entries(&quantified, F), vec![(quantified.clone(), F)]);
    for literal in [truth(true), truth(false), not(&truth(true))] {
        assert_eq!(first_entries(&literal, T), vec![]);
        assert_eq!(first_entries(&literal, F), vec![]);
    }
}

/// Where both sides are one expression, the list of the source's own value decides.
#[test]
fn like_sides_take_the_first_list() {
    let (same, strict) = (two(LESS_EQUAL, &x(), &x()), two(LESS, &x(), &x()));
    assert_eq!(has(&strict, T, &strict), Some(T));
    assert_eq!(has(&strict, T, &same), Some(T));
    assert_eq!(has(&strict, T, &two(EQUAL, &x(), &x())), Some(F));
    assert_eq!(has(&same, F, &same), Some(F));
    assert_eq!(has(&same, F, &two(GREATER, &x(), &x())), Some(F));
    assert_eq!(has(&same, F, &two(EQUAL, &x(), &x())), Some(F));
}
