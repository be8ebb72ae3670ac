//! The type rules: each operand of each code, pairs by shape, the first wrong node.

use paper::codes::{Operands, Row, Sort, COMPREHENSION, EQUAL, MAPLET, TABLE};

use crate::parts::*;
use crate::Cases;

/// An expression of each type.
const EACH_TYPE: [&[u8]; 6] = [INTEGER, TRUE, SET, PAIR, NATURAL, NATURAL1];

pub fn print(cases: &mut Cases) {
    each_operand(cases);
    types_of_nodes(cases);
    flat_pairs(cases);
    deep_pairs(cases);
    wide_pairs(cases);
    naturals_in_pairs(cases);
    first_wrong(cases);
}

fn takes_expressions(row: &Row) -> bool {
    match row.operands {
        Operands::Fixed(sorts) => sorts.contains(&Sort::Expression),
        Operands::Counted(sort) => sort == Sort::Expression,
    }
}

fn asked(cases: &mut Cases, row: &Row, bytes: &[u8]) {
    match row.sort {
        Sort::Predicate => cases.formula(bytes),
        Sort::Expression => {
            cases.expression(bytes);
            cases.formula(&around(row, bytes));
        }
    }
}

/// Every two types side by side, and each type alone in a longer row.
fn each_operand(cases: &mut Cases) {
    for row in TABLE.iter().filter(|row| takes_expressions(row)) {
        for left in EACH_TYPE {
            match row.operands {
                Operands::Fixed(sorts) if sorts.len() == 1 => {
                    asked(cases, row, &cat(&[&[row.code], left]));
                    continue;
                }
                Operands::Counted(_) => among_many(cases, row, left),
                _ => {}
            }
            for right in EACH_TYPE {
                let front = match row.operands {
                    Operands::Counted(_) => vec![row.code, 2],
                    _ => vec![row.code],
                };
                if row.code != COMPREHENSION {
                    asked(cases, row, &cat(&[&front, left, right]));
                }
            }
            if row.code == COMPREHENSION {
                asked(cases, row, &cat(&[&[row.code, 1], TOP, left]));
            }
        }
    }
}

/// One operand of this type as the first, the middle and the last of several.
fn among_many(cases: &mut Cases, row: &Row, operand: &[u8]) {
    let good = good_operand(row, 0);
    asked(cases, row, &cat(&[&[row.code, 1], operand]));
    asked(cases, row, &cat(&[&[row.code, 3], operand, good, good]));
    asked(cases, row, &cat(&[&[row.code, 3], good, operand, good]));
    asked(cases, row, &cat(&[&[row.code, 3], good, good, operand]));
    asked(cases, row, &cat(&[&[row.code, 32], &good.repeat(31), operand]));
}

/// Each expression code on both sides of =, and each identifier's type.
fn types_of_nodes(cases: &mut Cases) {
    let mut expressions: Vec<Vec<u8>> =
        TABLE.iter().filter(|row| row.sort == Sort::Expression).map(smallest).collect();
    expressions.extend([vec![0x20, 1], vec![0x20, 2], PAIR.to_vec()]);
    for left in &expressions {
        for right in EACH_TYPE {
            cases.formula(&cat(&[&[8, 1, EQUAL], left, right]));
            cases.formula(&cat(&[&[8, 1, EQUAL], right, left]));
        }
        for front in [&[0x11u8][..], &[0x15, 0x20, 0], &[0x16], &[0x15]] {
            cases.formula(&cat(&[&[9, 1], front, left, SET]));
        }
    }
}

fn pair(left: &[u8], right: &[u8]) -> Vec<u8> {
    cat(&[&[MAPLET], left, right])
}

fn equality(cases: &mut Cases, left: &[u8], right: &[u8]) {
    cases.formula(&cat(&[&[EQUAL], left, right]));
}

/// Pairs of two and three parts, of other sizes but of one type or not.
fn flat_pairs(cases: &mut Cases) {
    let sum = cat(&[&[0x26, 2], INTEGER, LITERAL]);
    let union = [0x2a, 2, 0x23, 0x20, 2];
    let truth = [0x2e, 3, 1];
    let parts: [&[u8]; 6] = [INTEGER, &sum, SET, &union, TRUE, &truth];
    for a in parts {
        for b in parts {
            equality(cases, &pair(a, b), &pair(INTEGER, SET));
            equality(cases, &pair(INTEGER, SET), &pair(a, b));
            equality(cases, &pair(&pair(a, TRUE), b), &pair(&pair(INTEGER, TRUE), SET));
            equality(cases, &pair(&pair(a, TRUE), b), &pair(INTEGER, &pair(TRUE, SET)));
            equality(cases, &pair(a, &pair(b, TRUE)), &pair(INTEGER, &pair(SET, TRUE)));
        }
        equality(cases, &pair(a, INTEGER), a);
        equality(cases, a, &pair(a, INTEGER));
        equality(cases, &pair(a, &pair(a, a)), &pair(&pair(a, a), a));
    }
    wrong_halves(cases);
}

/// A pair's type is read off its halves, whether or not their own operands are right.
fn wrong_halves(cases: &mut Cases) {
    let wrong_sum = [0x26, 2, 0x31, 0x31];
    let wrong_union = [0x2a, 2, 0x31, 0x23];
    equality(cases, &pair(&wrong_sum, SET), &pair(INTEGER, SET));
    equality(cases, &pair(INTEGER, SET), &pair(&wrong_sum, SET));
    equality(cases, &pair(&wrong_sum, SET), &pair(TRUE, SET));
    equality(cases, &pair(INTEGER, &wrong_union), &pair(&wrong_sum, SET));
    equality(cases, &pair(INTEGER, &wrong_union), &pair(&wrong_sum, INTEGER));
}

/// Chains of pairs down to level 32, with the deepest part changed.
fn deep_pairs(cases: &mut Cases) {
    for depth in [1, 2, 5, 29, 30] {
        for last in EACH_TYPE {
            if depth == 30 && last == PAIR {
                continue;
            }
            let left = |deepest: &[u8]| cat(&[&chain(&[MAPLET], depth, deepest), &TRUE.repeat(depth)]);
            let right = |deepest: &[u8]| chain(&[MAPLET, 0x31], depth, deepest);
            equality(cases, &left(last), &left(INTEGER));
            equality(cases, &left(SET), &left(last));
            equality(cases, &right(last), &right(INTEGER));
            equality(cases, &right(SET), &right(last));
            equality(cases, &left(last), &right(last));
            equality(cases, &left(last), &left(last));
        }
    }
    deepest_chain_too_deep(cases);
}

fn deepest_chain_too_deep(cases: &mut Cases) {
    let left = cat(&[&chain(&[MAPLET], 31, TRUE), &TRUE.repeat(31)]);
    equality(cases, &left, &left);
    equality(cases, &chain(&[MAPLET, 0x31], 31, TRUE), &left);
}

/// A full tree of pairs with this bottom.
fn full(levels: usize, bottom: &[u8]) -> Vec<u8> {
    match levels {
        0 => bottom.to_vec(),
        _ => pair(&full(levels - 1, bottom), &full(levels - 1, bottom)),
    }
}

/// Full trees of pairs, as large as a formula can hold, with one part changed.
fn wide_pairs(cases: &mut Cases) {
    for levels in [3, 5, 8] {
        let tree = full(levels, TRUE);
        equality(cases, &tree, &tree);
        let last_changed = |to: &[u8]| cat(&[&tree[..tree.len() - 1], to]);
        let first_changed = |to: &[u8]| cat(&[&tree[..levels], to, &tree[levels + 1..]]);
        equality(cases, &tree, &last_changed(SET));
        equality(cases, &last_changed(SET), &tree);
        equality(cases, &last_changed(SET), &last_changed(SET));
        equality(cases, &first_changed(SET), &tree);
        equality(cases, &tree, &first_changed(NATURAL));
        equality(cases, &tree[1..], &tree);
    }
    // 1,024 bytes, the last part being an integer on one side.
    let tree = full(8, TRUE);
    equality(cases, &tree, &cat(&[&tree[..tree.len() - 1], INTEGER]));
    equality(cases, &cat(&[&tree[..tree.len() - 1], &[0x29, 0x20, 0]]), &tree);
}

/// ℕ and ℕ1 are two types here, and stand in no pair.
fn naturals_in_pairs(cases: &mut Cases) {
    for a in [NATURAL, NATURAL1, INTEGER] {
        for b in [NATURAL, NATURAL1, INTEGER] {
            equality(cases, a, b);
            equality(cases, &pair(a, INTEGER), &pair(b, INTEGER));
            equality(cases, &pair(INTEGER, a), &pair(INTEGER, b));
            equality(cases, &pair(&pair(INTEGER, a), SET), &pair(&pair(INTEGER, b), SET));
            equality(cases, &pair(SET, &pair(a, TRUE)), &pair(SET, &pair(b, TRUE)));
            equality(cases, &pair(a, b), &pair(a, b));
            equality(cases, &pair(a, b), &pair(b, a));
            equality(cases, &pair(a, b), a);
            cases.expression(&pair(a, b));
            cases.formula(&cat(&[&[4, 2, EQUAL], a, b, &[0x15], INTEGER, b]));
        }
    }
}

/// 8 is said of the outermost wrong node that comes first.
fn first_wrong(cases: &mut Cases) {
    let order = [0x11, 0x31, 0x31];
    cases.formula(&cat(&[&[4, 2], &order, &order]));
    cases.formula(&cat(&[&[4, 3, 1], &order, &[0x16, 0x20, 0, 0x23]]));
    cases.formula(&cat(&[&[6, 3], &order, &[0x15, 0x23, 0x23]]));
    cases.formula(&cat(&[&[8, 1, 7, 1], &order]));
    // The outer node's second operand is wrong, and its first has a wrong node inside.
    cases.formula(&[0x11, 0x26, 2, 0x31, 0x31, 0x31]);
    cases.formula(&[0x11, 0x26, 2, 0x31, 0x31, 0x20, 0]);
    cases.formula(&[0x11, 0x20, 0, 0x27, 2, 0x20, 0, 0x31]);
    cases.formula(&[0x11, 0x29, 0x31, 0x29, 0x23]);
    cases.formula(&[0x26, 3, 0x29, 0x31, 0x29, 0x31, 0x31]);
    cases.formula(&[0x11, 0x26, 3, 0x29, 0x31, 0x29, 0x31, 0x31, 0x20, 0]);
    cases.formula(&[0x11, 0x26, 3, 0x20, 0, 0x29, 0x31, 0x29, 0x31, 0x20, 0]);
    cases.formula(&[0x10, 0x2e, 0x11, 0x31, 0x31, 0x23]);
    cases.formula(&[0x10, 0x2e, 0x11, 0x31, 0x31, 0x31]);
    cases.formula(&[0x10, 0x31, 0x2e, 0x11, 0x31, 0x31]);
    guards(cases);
}

/// A comprehension's wrong value comes before a wrong node in its guard.
fn guards(cases: &mut Cases) {
    for guard in [&[0x11u8, 0x31, 0x31][..], &[3, 0x16, 0x20, 0, 0x23], &[0x10, 0x24, 0x24], TOP] {
        for value in [&[0x31u8][..], &[0x24], &[0x21, 0], &[0x29, 0x31], &[0x2f, 0x21, 0, 0x21, 0]] {
            let set = cat(&[&[0x30, 1], guard, value]);
            cases.expression(&set);
            cases.formula(&cat(&[&[0x16], &set, SET]));
            cases.formula(&cat(&[&[0x16], &set, TRUE]));
            cases.formula(&cat(&[&[0x17], SET, &set]));
            cases.formula(&cat(&[&[0x15], INTEGER, &set]));
            cases.formula(&cat(&[&[0x15], &set, &set]));
        }
    }
}
