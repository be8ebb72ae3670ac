//! Substitutes: the level-1 variations of a source, each with a truth value.

use crate::codes::*;
use crate::tree::{leaf, literal, not, truth, two, Tree};
use crate::types::{type_of, Type};

/// A predicate and the truth value that stands for it.
#[derive(Clone, PartialEq, Eq, Debug)]
pub struct Substitute {
    pub key: Tree,
    pub value: bool,
}

/// The substitutes of a source in order; hypotheses start true, goals false.
pub fn substitutes(source: &Tree, starts: bool, types: &[u8]) -> Vec<Substitute> {
    let (stripped, holds) = strip(source, starts);
    let (first, second) = if holds {
        (weaker(&stripped, types), refuted_by(&stripped, types))
    } else {
        (stronger(&stripped), implied_by_falsity(&stripped))
    };
    let mut out = Vec::new();
    // The list of the source's own value comes first.
    add_keys(&mut out, first, holds);
    add_keys(&mut out, second, !holds);
    out
}

/// Strips all ¬, flipping each time.
fn strip(source: &Tree, holds: bool) -> (Tree, bool) {
    if source.code == NOT {
        strip(&source.operands[0], !holds)
    } else {
        (source.clone(), holds)
    }
}

/// A key under ¬ loses it and its value flips; literals never are keys.
fn add_keys(out: &mut Vec<Substitute>, list: Vec<Tree>, value: bool) {
    for predicate in list {
        let (key, value) =
            if predicate.code == NOT { (predicate.operands[0].clone(), !value) } else { (predicate, value) };
        if key != truth(true) && key != truth(false) {
            out.push(Substitute { key, value });
        }
    }
}

/// A relation reduced to =, <, ≤, ∈, ⊂ or ⊆.
struct Relation {
    code: u8,
    left: Tree,
    right: Tree,
}

/// l≥r is treated as r≤l, l>r as r<l; none for a predicate that is no relation.
fn relation(predicate: &Tree) -> Option<Relation> {
    if !predicate.is_relation() {
        return None;
    }
    let (left, right) = (predicate.operands[0].clone(), predicate.operands[1].clone());
    Some(match predicate.code {
        GREATER => Relation { code: LESS, left: right, right: left },
        GREATER_EQUAL => Relation { code: LESS_EQUAL, left: right, right: left },
        code => Relation { code, left, right },
    })
}

fn is_literal(expression: &Tree, fits: impl Fn(i64) -> bool) -> bool {
    expression.code == LITERAL && fits(expression.number)
}

/// E+: the relation and what is the same as it.
fn equivalent(code: u8, l: &Tree, r: &Tree) -> Vec<Tree> {
    let zero = literal(0);
    let mut out = vec![two(code, l, r)];
    match (code, r.code) {
        (EQUAL, _) => out.push(two(EQUAL, r, l)),
        (LESS, _) => out.push(two(GREATER, r, l)),
        (LESS_EQUAL, _) => out.push(two(GREATER_EQUAL, r, l)),
        (IN, NATURAL) => out.extend([two(LESS_EQUAL, &zero, l), two(GREATER_EQUAL, l, &zero)]),
        (IN, NATURAL1) => out.extend([two(LESS, &zero, l), two(GREATER, l, &zero)]),
        _ => {}
    }
    out
}

/// E−: what is the same as the relation's negation.
fn negated(code: u8, l: &Tree, r: &Tree) -> Vec<Tree> {
    let zero = literal(0);
    let mut out = vec![not(&two(code, l, r))];
    match (code, r.code) {
        (EQUAL, _) => out.push(not(&two(EQUAL, r, l))),
        (LESS, _) => out.extend([two(GREATER_EQUAL, l, r), two(LESS_EQUAL, r, l)]),
        (LESS_EQUAL, _) => out.extend([two(GREATER, l, r), two(LESS, r, l)]),
        (IN, NATURAL) => out.extend([two(GREATER, &zero, l), two(LESS, l, &zero)]),
        (IN, NATURAL1) => out.extend([two(GREATER_EQUAL, &zero, l), two(LESS_EQUAL, l, &zero)]),
        _ => {}
    }
    out
}

/// Source true, the ⊤ list: what follows from the source.
fn weaker(source: &Tree, types: &[u8]) -> Vec<Tree> {
    let Some(Relation { code, left: l, right: r }) = relation(source) else {
        return vec![source.clone()];
    };
    let mut out = equivalent(code, &l, &r);
    match code {
        EQUAL => out.extend(weaker_than_equal(&l, &r, types)),
        LESS => out.extend([
            two(LESS_EQUAL, &l, &r),
            two(GREATER_EQUAL, &r, &l),
            not(&two(EQUAL, &l, &r)),
            not(&two(EQUAL, &r, &l)),
        ]),
        SUBSET => out.extend([
            two(SUBSET_EQUAL, &l, &r),
            not(&two(EQUAL, &l, &r)),
            not(&two(EQUAL, &r, &l)),
            not(&two(SUBSET, &r, &l)),
            not(&two(SUBSET_EQUAL, &r, &l)),
        ]),
        SUBSET_EQUAL => out.push(not(&two(SUBSET, &r, &l))),
        _ => {}
    }
    out.extend(weaker_by_number(code, &l, &r));
    out
}

fn weaker_than_equal(l: &Tree, r: &Tree, types: &[u8]) -> Vec<Tree> {
    match type_of(r, types) {
        Type::Set => vec![
            two(SUBSET_EQUAL, l, r),
            two(SUBSET_EQUAL, r, l),
            not(&two(SUBSET, l, r)),
            not(&two(SUBSET, r, l)),
        ],
        Type::Integer => vec![
            two(LESS_EQUAL, l, r),
            two(GREATER_EQUAL, r, l),
            two(LESS_EQUAL, r, l),
            two(GREATER_EQUAL, l, r),
        ],
        _ => Vec::new(),
    }
}

/// What follows because of a literal, or of ℕ1.
fn weaker_by_number(code: u8, l: &Tree, r: &Tree) -> Vec<Tree> {
    let mut out = Vec::new();
    match code {
        EQUAL => {
            if is_literal(r, |value| value == 0) {
                out.extend(negated(IN, l, &leaf(NATURAL1)));
            }
            if is_literal(l, |value| value == 0) {
                out.extend(negated(IN, r, &leaf(NATURAL1)));
            }
        }
        LESS | LESS_EQUAL if is_literal(l, |value| value > 0) => {
            out.extend(equivalent(IN, r, &leaf(NATURAL)));
            out.extend(equivalent(IN, r, &leaf(NATURAL1)));
        }
        IN if r.code == NATURAL1 => {
            out.extend(equivalent(IN, l, &leaf(NATURAL)));
            out.extend(negated(EQUAL, l, &literal(0)));
        }
        _ => {}
    }
    out
}

/// Source true, the ⊥ list: what cannot hold beside the source.
fn refuted_by(source: &Tree, types: &[u8]) -> Vec<Tree> {
    let Some(Relation { code, left: l, right: r }) = relation(source) else {
        return Vec::new();
    };
    let zero = literal(0);
    let mut out = negated(code, &l, &r);
    match code {
        EQUAL => out.extend(refuted_by_equal(&l, &r, types)),
        LESS => out.extend([two(GREATER, &l, &r), two(LESS, &r, &l), two(EQUAL, &l, &r), two(EQUAL, &r, &l)]),
        SUBSET => out.extend([
            two(SUBSET, &r, &l),
            two(SUBSET_EQUAL, &r, &l),
            two(EQUAL, &l, &r),
            two(EQUAL, &r, &l),
        ]),
        SUBSET_EQUAL => out.push(two(SUBSET, &r, &l)),
        IN if r.code == NATURAL1 => out.extend([
            two(EQUAL, &l, &zero),
            two(EQUAL, &zero, &l),
            two(GREATER, &zero, &l),
            two(LESS, &l, &zero),
        ]),
        _ => {}
    }
    out
}

fn refuted_by_equal(l: &Tree, r: &Tree, types: &[u8]) -> Vec<Tree> {
    match type_of(r, types) {
        Type::Integer => vec![two(LESS, l, r), two(GREATER, r, l), two(LESS, r, l), two(GREATER, l, r)],
        Type::Set => vec![two(SUBSET, l, r), two(SUBSET, r, l)],
        _ => Vec::new(),
    }
}

/// Source false, the ⊥ list: what the source follows from.
fn stronger(source: &Tree) -> Vec<Tree> {
    let Some(Relation { code, left: l, right: r }) = relation(source) else {
        return vec![source.clone()];
    };
    let mut out = equivalent(code, &l, &r);
    match code {
        LESS_EQUAL => {
            out.extend([two(LESS, &l, &r), two(GREATER, &r, &l), two(EQUAL, &l, &r), two(EQUAL, &r, &l)])
        }
        SUBSET_EQUAL => out.extend([two(SUBSET, &l, &r), two(EQUAL, &l, &r), two(EQUAL, &r, &l)]),
        _ => {}
    }
    match code {
        LESS | LESS_EQUAL if is_literal(&l, |value| value < 0) => {
            out.extend(equivalent(IN, &r, &leaf(NATURAL)));
            out.extend(equivalent(IN, &r, &leaf(NATURAL1)));
        }
        IN if r.code == NATURAL => out.extend(equivalent(IN, &l, &leaf(NATURAL1))),
        _ => {}
    }
    out
}

/// Source false, the ⊤ list: what follows from the source's negation.
fn implied_by_falsity(source: &Tree) -> Vec<Tree> {
    let Some(Relation { code, left: l, right: r }) = relation(source) else {
        return Vec::new();
    };
    let zero = literal(0);
    let mut out = negated(code, &l, &r);
    match code {
        LESS_EQUAL => out.extend([
            two(GREATER_EQUAL, &l, &r),
            two(LESS_EQUAL, &r, &l),
            not(&two(EQUAL, &l, &r)),
            not(&two(EQUAL, &r, &l)),
        ]),
        SUBSET_EQUAL => {
            out.extend([not(&two(SUBSET, &l, &r)), not(&two(EQUAL, &l, &r)), not(&two(EQUAL, &r, &l))])
        }
        IN if r.code == NATURAL => out.extend([
            two(GREATER_EQUAL, &zero, &l),
            two(LESS_EQUAL, &l, &zero),
            not(&two(IN, &l, &leaf(NATURAL1))),
            not(&two(EQUAL, &l, &zero)),
            not(&two(EQUAL, &zero, &l)),
        ]),
        _ => {}
    }
    out
}
