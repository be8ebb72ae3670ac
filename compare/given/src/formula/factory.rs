//! Makes nodes. The given files pass a place in a source text, always none, so its type is empty.

use std::sync::Arc;

use super::node::{BoundIdentDecl, Expression, ExpressionKind, Predicate, PredicateKind};
use super::tag::*;
use super::types::Type;
use super::typing::expression_type;
use crate::big_int::BigInt;

/// A place in a source text; there is no text.
pub enum Span {}

type Place = Option<Span>;

#[derive(Clone, Debug)]
pub struct FormulaFactory;

fn typed(kind: ExpressionKind) -> Expression {
    let ty = expression_type(&kind);
    Expression::make(kind, ty)
}

impl FormulaFactory {
    pub fn literal_predicate(&self, op: LiteralPredOp, _: Place) -> Predicate {
        Predicate::make(PredicateKind::Literal(op))
    }

    pub fn not_predicate(&self, child: Predicate, _: Place) -> Predicate {
        Predicate::make(PredicateKind::Not(child))
    }

    pub fn binary_predicate(&self, op: BinaryPredOp, left: Predicate, right: Predicate, _: Place) -> Predicate {
        Predicate::make(PredicateKind::Binary { op, left, right })
    }

    pub fn associative_predicate(&self, op: AssocPredOp, children: Vec<Predicate>, _: Place) -> Predicate {
        Predicate::make(PredicateKind::Associative { op, children })
    }

    pub fn quantified_predicate(
        &self,
        op: QuantPredOp,
        decls: Vec<BoundIdentDecl>,
        pred: Predicate,
        _: Place,
    ) -> Predicate {
        Predicate::make(PredicateKind::Quantified { op, decls, pred })
    }

    pub fn relational_predicate(&self, op: RelationalOp, left: Expression, right: Expression, _: Place) -> Predicate {
        Predicate::make(PredicateKind::Relational { op, left, right })
    }

    pub fn simple_predicate(&self, child: Expression, _: Place) -> Predicate {
        Predicate::make(PredicateKind::Simple(child))
    }

    pub fn multiple_predicate(&self, children: Vec<Expression>, _: Place) -> Predicate {
        Predicate::make(PredicateKind::Multiple(children))
    }

    pub fn free_identifier(&self, name: &str, _: Place, ty: Option<Type>) -> Expression {
        Expression::make(ExpressionKind::FreeIdentifier(Arc::from(name)), ty)
    }

    pub fn bound_identifier(&self, index: u32, _: Place, ty: Option<Type>) -> Expression {
        Expression::make(ExpressionKind::BoundIdentifier(index), ty)
    }

    pub fn integer_literal(&self, value: BigInt, _: Place) -> Expression {
        typed(ExpressionKind::IntegerLiteral(value))
    }

    pub fn atomic_expression(&self, op: AtomicOp, _: Place, _: Option<Type>) -> Expression {
        typed(ExpressionKind::Atomic(op))
    }

    pub fn set_extension(&self, members: Vec<Expression>, _: Place) -> Expression {
        typed(ExpressionKind::SetExtension(members))
    }

    pub fn bool_expression(&self, pred: Predicate, _: Place) -> Expression {
        typed(ExpressionKind::Bool(pred))
    }

    pub fn binary_expression(&self, op: BinaryExprOp, left: Expression, right: Expression, _: Place) -> Expression {
        typed(ExpressionKind::Binary { op, left, right })
    }

    pub fn associative_expression(&self, op: AssocExprOp, children: Vec<Expression>, _: Place) -> Expression {
        typed(ExpressionKind::Associative { op, children })
    }

    pub fn unary_expression(&self, op: UnaryExprOp, child: Expression, _: Place) -> Expression {
        typed(ExpressionKind::Unary { op, child })
    }

    pub fn quantified_expression(
        &self,
        op: QuantExprOp,
        decls: Vec<BoundIdentDecl>,
        pred: Predicate,
        expr: Expression,
        _: Place,
        form: QuantExprForm,
    ) -> Expression {
        typed(ExpressionKind::Quantified { op, decls, pred, expr, form })
    }
}
