//! Document 01's types of expressions, and whether a predicate's operands fit.

use super::node::{Expression, ExpressionKind, PredicateKind};
use super::tag::{AssocExprOp, AtomicOp, BinaryExprOp, RelationalOp};
use super::types::Type;

fn is_integer(expr: &Expression) -> bool {
    expr.ty() == Some(&Type::Int)
}

fn is_set(expr: &Expression) -> bool {
    matches!(expr.ty(), Some(Type::Pow(_)))
}

/// The type of a node that does not carry one of its own; none where an operand is wrong.
pub(super) fn expression_type(kind: &ExpressionKind) -> Option<Type> {
    match kind {
        ExpressionKind::FreeIdentifier(_) => None,
        ExpressionKind::BoundIdentifier(_) | ExpressionKind::IntegerLiteral(_) => Some(Type::Int),
        ExpressionKind::Atomic(op) => Some(atomic_type(*op)),
        ExpressionKind::SetExtension(members) => members.iter().all(is_integer).then(Type::integer_set),
        ExpressionKind::Bool(_) => Some(Type::Bool),
        ExpressionKind::Binary { op, left, right } => binary_type(*op, left, right),
        ExpressionKind::Associative { op, children } => associative_type(*op, children),
        ExpressionKind::Unary { child, .. } => is_integer(child).then_some(Type::Int),
        ExpressionKind::Quantified { expr, .. } => is_integer(expr).then(Type::integer_set),
    }
}

fn atomic_type(op: AtomicOp) -> Type {
    match op {
        AtomicOp::EmptySet | AtomicOp::Natural | AtomicOp::Natural1 => Type::integer_set(),
        AtomicOp::True | AtomicOp::False => Type::Bool,
    }
}

fn binary_type(op: BinaryExprOp, left: &Expression, right: &Expression) -> Option<Type> {
    match op {
        BinaryExprOp::Minus => (is_integer(left) && is_integer(right)).then_some(Type::Int),
        BinaryExprOp::SetMinus => (is_set(left) && is_set(right)).then(Type::integer_set),
        BinaryExprOp::Mapsto => Some(Type::Prod(Box::new(left.ty()?.clone()), Box::new(right.ty()?.clone()))),
    }
}

fn associative_type(op: AssocExprOp, children: &[Expression]) -> Option<Type> {
    match op {
        AssocExprOp::Plus | AssocExprOp::Mul => children.iter().all(is_integer).then_some(Type::Int),
        AssocExprOp::BUnion | AssocExprOp::BInter => children.iter().all(is_set).then(Type::integer_set),
    }
}

pub(super) fn predicate_fits(kind: &PredicateKind) -> bool {
    let PredicateKind::Relational { op, left, right } = kind else {
        return true;
    };
    match op {
        RelationalOp::Equal => left.ty().is_some() && left.ty() == right.ty(),
        RelationalOp::Lt | RelationalOp::Le | RelationalOp::Gt | RelationalOp::Ge => {
            is_integer(left) && is_integer(right)
        }
        RelationalOp::In => is_integer(left) && is_set(right),
        RelationalOp::Subset | RelationalOp::SubsetEq => is_set(left) && is_set(right),
    }
}
