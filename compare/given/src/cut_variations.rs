//! Document 01's lists (section "Substitutes"), in its order, behind the interface of variations.rs.
//! genmp.rs has stripped every ¬ from the source before it asks.

use crate::big_int::BigInt;
use crate::formula::tag::{AtomicOp, RelationalOp};
use crate::formula::{Expression, ExpressionKind, FormulaFactory, Predicate, PredicateKind, Type};
use RelationalOp::{Equal, Ge, Gt, In, Le, Lt, Subset, SubsetEq};

/// A relational source as the lists see it: `l≥r` is `r≤l`, `l>r` is `r<l`.
fn relation(pred: &Predicate) -> Option<(RelationalOp, &Expression, &Expression)> {
    let PredicateKind::Relational { op, left, right } = pred.kind() else {
        return None;
    };
    Some(match op {
        Ge => (Le, right, left),
        Gt => (Lt, right, left),
        _ => (*op, left, right),
    })
}

/// Source true, the ⊤ list: `weaker_positive_relational` as given, over E+ and E−.
pub(crate) fn weaker_positive(pred: &Predicate) -> Vec<Predicate> {
    let Some((op, l, r)) = relation(pred) else {
        return vec![pred.clone()];
    };
    let mut list = equivalent_positive(op, l, r);
    list.extend(weaker(op, l, r));
    match op {
        Equal => {
            if is_zero(r) {
                list.extend(equivalent_negative(In, l, &naturals1()));
            }
            if is_zero(l) {
                list.extend(equivalent_negative(In, r, &naturals1()));
            }
        }
        Le | Lt if is_positive(l) => {
            list.extend(equivalent_positive(In, r, &naturals()));
            list.extend(equivalent_positive(In, r, &naturals1()));
        }
        In if is_atomic(r, AtomicOp::Natural1) => {
            list.extend(equivalent_positive(In, l, &naturals()));
            list.extend(equivalent_negative(Equal, l, &zero()));
        }
        _ => {}
    }
    list
}

/// What a true relation implies between its own two sides.
fn weaker(op: RelationalOp, l: &Expression, r: &Expression) -> Vec<Predicate> {
    match op {
        Equal if is_set(r) => vec![rel(SubsetEq, l, r), rel(SubsetEq, r, l), not(Subset, l, r), not(Subset, r, l)],
        Equal if is_integer(r) => vec![rel(Le, l, r), rel(Ge, r, l), rel(Le, r, l), rel(Ge, l, r)],
        Lt => vec![rel(Le, l, r), rel(Ge, r, l), not(Equal, l, r), not(Equal, r, l)],
        Subset => vec![rel(SubsetEq, l, r), not(Equal, l, r), not(Equal, r, l), not(Subset, r, l), not(SubsetEq, r, l)],
        SubsetEq => vec![not(Subset, r, l)],
        _ => Vec::new(),
    }
}

/// Source true, the ⊥ list.
pub(crate) fn stronger_negative(pred: &Predicate) -> Vec<Predicate> {
    let Some((op, l, r)) = relation(pred) else {
        return Vec::new();
    };
    let mut list = equivalent_negative(op, l, r);
    list.extend(match op {
        Equal if is_integer(r) => vec![rel(Lt, l, r), rel(Gt, r, l), rel(Lt, r, l), rel(Gt, l, r)],
        Equal if is_set(r) => vec![rel(Subset, l, r), rel(Subset, r, l)],
        Lt => vec![rel(Gt, l, r), rel(Lt, r, l), rel(Equal, l, r), rel(Equal, r, l)],
        Subset => vec![rel(Subset, r, l), rel(SubsetEq, r, l), rel(Equal, l, r), rel(Equal, r, l)],
        SubsetEq => vec![rel(Subset, r, l)],
        In if is_atomic(r, AtomicOp::Natural1) => {
            vec![rel(Equal, l, &zero()), rel(Equal, &zero(), l), rel(Gt, &zero(), l), rel(Lt, l, &zero())]
        }
        _ => Vec::new(),
    });
    list
}

/// Source false, the ⊥ list: `stronger_positive_relational` as given, over E+.
pub(crate) fn stronger_positive(pred: &Predicate) -> Vec<Predicate> {
    let Some((op, l, r)) = relation(pred) else {
        return vec![pred.clone()];
    };
    let mut list = equivalent_positive(op, l, r);
    match op {
        Le => list.extend([rel(Lt, l, r), rel(Gt, r, l), rel(Equal, l, r), rel(Equal, r, l)]),
        SubsetEq => list.extend([rel(Subset, l, r), rel(Equal, l, r), rel(Equal, r, l)]),
        _ => {}
    }
    match op {
        Le | Lt if is_negative(l) => {
            list.extend(equivalent_positive(In, r, &naturals()));
            list.extend(equivalent_positive(In, r, &naturals1()));
        }
        In if is_atomic(r, AtomicOp::Natural) => list.extend(equivalent_positive(In, l, &naturals1())),
        _ => {}
    }
    list
}

/// Source false, the ⊤ list.
pub(crate) fn weaker_negative(pred: &Predicate) -> Vec<Predicate> {
    let Some((op, l, r)) = relation(pred) else {
        return Vec::new();
    };
    let mut list = equivalent_negative(op, l, r);
    list.extend(match op {
        Le => vec![rel(Ge, l, r), rel(Le, r, l), not(Equal, l, r), not(Equal, r, l)],
        SubsetEq => vec![not(Subset, l, r), not(Equal, l, r), not(Equal, r, l)],
        In if is_atomic(r, AtomicOp::Natural) => vec![
            rel(Ge, &zero(), l),
            rel(Le, l, &zero()),
            not(In, l, &naturals1()),
            not(Equal, l, &zero()),
            not(Equal, &zero(), l),
        ],
        _ => Vec::new(),
    });
    list
}

/// E+.
fn equivalent_positive(op: RelationalOp, l: &Expression, r: &Expression) -> Vec<Predicate> {
    let mut list = vec![rel(op, l, r)];
    match op {
        Equal => list.push(rel(Equal, r, l)),
        Lt => list.push(rel(Gt, r, l)),
        Le => list.push(rel(Ge, r, l)),
        Gt => list.push(rel(Lt, r, l)),
        Ge => list.push(rel(Le, r, l)),
        In if is_atomic(r, AtomicOp::Natural) => list.extend([rel(Le, &zero(), l), rel(Ge, l, &zero())]),
        In if is_atomic(r, AtomicOp::Natural1) => list.extend([rel(Lt, &zero(), l), rel(Gt, l, &zero())]),
        _ => {}
    }
    list
}

/// E−; the lists ask it of `=`, `<`, `≤` and `∈` after the orders were turned round, and of sets.
fn equivalent_negative(op: RelationalOp, l: &Expression, r: &Expression) -> Vec<Predicate> {
    let mut list = vec![not(op, l, r)];
    match op {
        Equal => list.push(not(Equal, r, l)),
        Lt => list.extend([rel(Ge, l, r), rel(Le, r, l)]),
        Le => list.extend([rel(Gt, l, r), rel(Lt, r, l)]),
        In if is_atomic(r, AtomicOp::Natural) => list.extend([rel(Gt, &zero(), l), rel(Lt, l, &zero())]),
        In if is_atomic(r, AtomicOp::Natural1) => list.extend([rel(Ge, &zero(), l), rel(Le, l, &zero())]),
        _ => {}
    }
    list
}

fn rel(op: RelationalOp, l: &Expression, r: &Expression) -> Predicate {
    FormulaFactory.relational_predicate(op, l.clone(), r.clone(), None)
}

fn not(op: RelationalOp, l: &Expression, r: &Expression) -> Predicate {
    FormulaFactory.not_predicate(rel(op, l, r), None)
}

fn zero() -> Expression {
    FormulaFactory.integer_literal(BigInt::ZERO, None)
}

fn naturals() -> Expression {
    FormulaFactory.atomic_expression(AtomicOp::Natural, None, None)
}

fn naturals1() -> Expression {
    FormulaFactory.atomic_expression(AtomicOp::Natural1, None, None)
}

fn is_atomic(expr: &Expression, op: AtomicOp) -> bool {
    *expr.kind() == ExpressionKind::Atomic(op)
}

fn is_integer(expr: &Expression) -> bool {
    expr.ty() == Some(&Type::Int)
}

fn is_set(expr: &Expression) -> bool {
    matches!(expr.ty(), Some(Type::Pow(_)))
}

/// Only a literal node has a value here; a unary minus over one has none.
fn literal(expr: &Expression) -> Option<BigInt> {
    match expr.kind() {
        ExpressionKind::IntegerLiteral(value) => Some(*value),
        _ => None,
    }
}

fn is_zero(expr: &Expression) -> bool {
    literal(expr) == Some(BigInt::ZERO)
}

fn is_positive(expr: &Expression) -> bool {
    literal(expr).is_some_and(|value| value > BigInt::ZERO)
}

fn is_negative(expr: &Expression) -> bool {
    literal(expr).is_some_and(|value| value < BigInt::ZERO)
}
