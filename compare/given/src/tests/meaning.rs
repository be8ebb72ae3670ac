//! Document 01's meaning of formulas, to tell which side of a difference is sound.

use std::collections::BTreeSet;

use crate::formula::tag::*;
use crate::formula::{Expression, ExpressionKind, Predicate, PredicateKind};

#[derive(Clone, PartialEq, Eq, Debug)]
pub(super) enum Value {
    Integer(i128),
    Truth(bool),
    Set(BTreeSet<i128>),
    Pair(Box<Value>, Box<Value>),
    Naturals(i128),
}

/// The interval of bound variables, the identifiers' values, and the variables chosen so far.
#[derive(Clone)]
pub(super) struct Valuation {
    pub(super) low: i128,
    pub(super) high: i128,
    pub(super) identifiers: Vec<Value>,
    pub(super) chosen: Vec<i128>,
}

impl Valuation {
    /// Every choice of `n` more variables.
    pub(super) fn choices(&self, n: usize) -> Vec<Valuation> {
        let mut all = vec![self.clone()];
        for _ in 0..n {
            let widen = |v: Valuation| {
                (v.low..=v.high).map(move |i| Valuation { chosen: [v.chosen.clone(), vec![i]].concat(), ..v.clone() })
            };
            all = all.into_iter().flat_map(widen).collect();
        }
        all
    }

    pub(super) fn holds(&self, pred: &Predicate) -> bool {
        match pred.kind() {
            PredicateKind::Literal(op) => *op == LiteralPredOp::BTrue,
            PredicateKind::Not(child) => !self.holds(child),
            PredicateKind::Binary { op: BinaryPredOp::LImp, left, right } => !self.holds(left) || self.holds(right),
            PredicateKind::Binary { op: BinaryPredOp::LEqv, left, right } => self.holds(left) == self.holds(right),
            PredicateKind::Associative { op: AssocPredOp::LAnd, children } => children.iter().all(|c| self.holds(c)),
            PredicateKind::Associative { op: AssocPredOp::LOr, children } => children.iter().any(|c| self.holds(c)),
            PredicateKind::Quantified { op: QuantPredOp::ForAll, decls, pred } => {
                self.choices(decls.len()).iter().all(|v| v.holds(pred))
            }
            PredicateKind::Quantified { op: QuantPredOp::Exists, decls, pred } => {
                self.choices(decls.len()).iter().any(|v| v.holds(pred))
            }
            PredicateKind::Relational { op, left, right } => relation(*op, self.value(left), self.value(right)),
            other => panic!("not in document 01: {other:?}"),
        }
    }

    fn integer(&self, expr: &Expression) -> i128 {
        match self.value(expr) {
            Value::Integer(n) => n,
            other => panic!("no integer: {other:?}"),
        }
    }

    fn set(&self, expr: &Expression) -> BTreeSet<i128> {
        match self.value(expr) {
            Value::Set(set) => set,
            other => panic!("no set: {other:?}"),
        }
    }

    pub(super) fn value(&self, expr: &Expression) -> Value {
        match expr.kind() {
            ExpressionKind::FreeIdentifier(name) => self.identifiers[name[1..].parse::<usize>().unwrap()].clone(),
            ExpressionKind::BoundIdentifier(i) => Value::Integer(self.chosen[self.chosen.len() - 1 - *i as usize]),
            ExpressionKind::IntegerLiteral(value) => Value::Integer(value.value()),
            ExpressionKind::Atomic(op) => atomic(*op),
            ExpressionKind::SetExtension(members) => Value::Set(members.iter().map(|m| self.integer(m)).collect()),
            ExpressionKind::Bool(pred) => Value::Truth(self.holds(pred)),
            ExpressionKind::Binary { op: BinaryExprOp::Minus, left, right } => {
                Value::Integer(self.integer(left) - self.integer(right))
            }
            ExpressionKind::Binary { op: BinaryExprOp::SetMinus, left, right } => {
                Value::Set(&self.set(left) - &self.set(right))
            }
            ExpressionKind::Binary { op: BinaryExprOp::Mapsto, left, right } => {
                Value::Pair(Box::new(self.value(left)), Box::new(self.value(right)))
            }
            ExpressionKind::Associative { op, children } => self.associative(*op, children),
            ExpressionKind::Unary { op: UnaryExprOp::UnMinus, child } => Value::Integer(-self.integer(child)),
            ExpressionKind::Quantified { decls, pred, expr, .. } => {
                let fitting = self.choices(decls.len()).into_iter().filter(|v| v.holds(pred));
                Value::Set(fitting.map(|v| v.integer(expr)).collect())
            }
        }
    }

    fn associative(&self, op: AssocExprOp, children: &[Expression]) -> Value {
        let sets = || children.iter().map(|c| self.set(c));
        match op {
            AssocExprOp::Plus => Value::Integer(children.iter().map(|c| self.integer(c)).sum()),
            AssocExprOp::Mul => Value::Integer(children.iter().map(|c| self.integer(c)).product()),
            AssocExprOp::BUnion => Value::Set(sets().reduce(|a, b| &a | &b).unwrap()),
            AssocExprOp::BInter => Value::Set(sets().reduce(|a, b| &a & &b).unwrap()),
        }
    }
}

fn atomic(op: AtomicOp) -> Value {
    match op {
        AtomicOp::EmptySet => Value::Set(BTreeSet::new()),
        AtomicOp::Natural => Value::Naturals(0),
        AtomicOp::Natural1 => Value::Naturals(1),
        AtomicOp::True => Value::Truth(true),
        AtomicOp::False => Value::Truth(false),
    }
}

fn relation(op: RelationalOp, left: Value, right: Value) -> bool {
    use RelationalOp::*;
    match (op, left, right) {
        (Equal, l, r) => l == r,
        (Lt, Value::Integer(l), Value::Integer(r)) => l < r,
        (Le, Value::Integer(l), Value::Integer(r)) => l <= r,
        (Gt, Value::Integer(l), Value::Integer(r)) => l > r,
        (Ge, Value::Integer(l), Value::Integer(r)) => l >= r,
        (In, Value::Integer(l), Value::Set(r)) => r.contains(&l),
        (In, Value::Integer(l), Value::Naturals(least)) => l >= least,
        (Subset, Value::Set(l), Value::Set(r)) => l != r && l.is_subset(&r),
        (SubsetEq, Value::Set(l), Value::Set(r)) => l.is_subset(&r),
        (op, l, r) => panic!("ill-typed {op:?}: {l:?} {r:?}"),
    }
}
