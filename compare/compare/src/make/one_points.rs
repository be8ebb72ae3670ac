//! Random quantified predicates in which one-point inference has a good chance to find something.

use paper::codes::*;
use paper::tree::{Tree, binder, bound, node, not, two};

use super::formulas::Writer;

/// A closed predicate, nearly always a quantifier.
pub fn predicate(writer: &mut Writer) -> Tree {
    if writer.dice.once_in(40) {
        return writer.predicate(2, 0);
    }
    let code = writer.dice.pick(&[FORALL, EXISTS]);
    let variables =
        if writer.dice.once_in(12) { writer.dice.between(1, 8) } else { writer.dice.between(1, 3) };
    let body = match writer.dice.under(4) {
        0 => joining(writer, code, variables),
        1 => {
            let depth = writer.dice.between(0, 2);
            scanned(writer, depth, variables)
        }
        _ => at_polarity(writer, code, variables),
    };
    binder(code, variables, vec![body])
}

fn equality(writer: &mut Writer, variables: usize) -> Tree {
    let variable = bound(writer.dice.under(variables) as i64);
    let other = writer.number(1, variables);
    if writer.dice.once_in(2) { two(EQUAL, &variable, &other) } else { two(EQUAL, &other, &variable) }
}

/// An equality of maplets, with a variable on one of its leaves.
fn maplets(writer: &mut Writer, depth: usize, variables: usize) -> Tree {
    let (left, right) = sides(writer, depth, variables);
    two(EQUAL, &left, &right)
}

fn sides(writer: &mut Writer, depth: usize, variables: usize) -> (Tree, Tree) {
    if depth == 0 {
        let variable = bound(writer.dice.under(variables) as i64);
        let other = writer.number(1, variables);
        return if writer.dice.once_in(3) { (variable, other) } else { (other.clone(), other) };
    }
    let (a, b) = sides(writer, depth - 1, variables);
    let deeper = if writer.dice.once_in(2) { depth - 1 } else { 0 };
    let (c, d) = sides(writer, deeper, variables);
    (two(MAPLET, &a, &c), two(MAPLET, &b, &d))
}

/// What the scan goes into: ∧ and = where it looks for what holds, ∨ and ⇒ for what does not.
fn at_polarity(writer: &mut Writer, code: u8, variables: usize) -> Tree {
    let depth = writer.dice.under(3);
    let find = match writer.dice.under(3) {
        0 => maplets(writer, depth, variables),
        _ => equality(writer, variables),
    };
    let mut other = writer.predicate(2, variables);
    if writer.dice.once_in(4) {
        other = not(&not(&other));
    }
    if code == EXISTS {
        let mut parts = vec![other, find];
        if writer.dice.once_in(2) {
            parts.swap(0, 1);
        }
        return node(AND, parts);
    }
    match writer.dice.under(4) {
        0 => node(OR, vec![other, not(&find)]),
        1 => not(&node(AND, vec![other, find])),
        2 => two(IMPLIES, &other, &not(&find)),
        _ => two(IMPLIES, &find, &other),
    }
}

/// A body that leaves a quantifier alone once its find is gone.
fn joining(writer: &mut Writer, code: u8, variables: usize) -> Tree {
    let kind = writer.dice.pick(&[code, FORALL, EXISTS]);
    let inner = if writer.dice.once_in(6) { writer.dice.between(1, 8) } else { 1 };
    let block = binder(kind, inner, vec![writer.predicate(2, variables + inner)]);
    let other = writer.number(1, variables);
    let find = two(EQUAL, &bound(0), &other);
    if code == EXISTS { node(AND, vec![block, find]) } else { two(IMPLIES, &find, &block) }
}

/// A body of connectives at either polarity, with equalities as leaves.
fn scanned(writer: &mut Writer, depth: usize, variables: usize) -> Tree {
    if depth == 0 {
        return match writer.dice.under(3) {
            0 => equality(writer, variables),
            1 => maplets(writer, 1, variables),
            _ => writer.predicate(1, variables),
        };
    }
    let first = scanned(writer, depth - 1, variables);
    let second = scanned(writer, depth - 1, variables);
    match writer.dice.under(6) {
        0 => not(&first),
        1 => node(AND, vec![first, second]),
        2 => node(OR, vec![first, second]),
        3 => two(IMPLIES, &first, &second),
        4 => not(&not(&second)),
        _ => binder(writer.dice.pick(&[FORALL, EXISTS]), 1, vec![writer.predicate(1, variables + 1)]),
    }
}
