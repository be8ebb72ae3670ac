//! The stand-in's formulas back to document 01's bytes; none for what has no such bytes.

use crate::formula::tag::*;
use crate::formula::{BoundIdentDecl, Expression, ExpressionKind, Predicate, PredicateKind};

pub(crate) fn predicate(pred: &Predicate) -> Option<Vec<u8>> {
    let mut out = Vec::new();
    put_predicate(pred, &mut out)?;
    Some(out)
}

pub(crate) fn expression(expr: &Expression) -> Option<Vec<u8>> {
    let mut out = Vec::new();
    put_expression(expr, &mut out)?;
    Some(out)
}

/// A number that takes one byte.
pub(crate) fn byte(n: usize) -> Option<u8> {
    u8::try_from(n).ok()
}

fn put_predicates(code: u8, children: &[Predicate], out: &mut Vec<u8>) -> Option<()> {
    out.extend([code, byte(children.len())?]);
    children.iter().try_for_each(|child| put_predicate(child, out))
}

fn put_expressions(code: u8, children: &[Expression], out: &mut Vec<u8>) -> Option<()> {
    out.extend([code, byte(children.len())?]);
    children.iter().try_for_each(|child| put_expression(child, out))
}

fn put_block(code: u8, decls: &[BoundIdentDecl], body: &Predicate, out: &mut Vec<u8>) -> Option<()> {
    out.extend([code, byte(decls.len())?]);
    put_predicate(body, out)
}

fn put_predicate(pred: &Predicate, out: &mut Vec<u8>) -> Option<()> {
    match pred.kind() {
        PredicateKind::Literal(LiteralPredOp::BTrue) => out.push(0x01),
        PredicateKind::Literal(LiteralPredOp::BFalse) => out.push(0x02),
        PredicateKind::Not(child) => {
            out.push(0x03);
            put_predicate(child, out)?;
        }
        PredicateKind::Associative { op, children } => {
            let code = if *op == AssocPredOp::LAnd { 0x04 } else { 0x05 };
            put_predicates(code, children, out)?;
        }
        PredicateKind::Binary { op, left, right } => {
            out.push(if *op == BinaryPredOp::LImp { 0x06 } else { 0x07 });
            put_predicate(left, out)?;
            put_predicate(right, out)?;
        }
        PredicateKind::Quantified { op, decls, pred } => {
            let code = if *op == QuantPredOp::ForAll { 0x08 } else { 0x09 };
            put_block(code, decls, pred, out)?;
        }
        PredicateKind::Relational { op, left, right } => {
            out.push(relational_code(*op));
            put_expression(left, out)?;
            put_expression(right, out)?;
        }
        _ => return None,
    }
    Some(())
}

fn put_expression(expr: &Expression, out: &mut Vec<u8>) -> Option<()> {
    match expr.kind() {
        ExpressionKind::FreeIdentifier(name) => out.extend([0x20, name.strip_prefix('v')?.parse().ok()?]),
        ExpressionKind::BoundIdentifier(index) => out.extend([0x21, u8::try_from(*index).ok()?]),
        ExpressionKind::IntegerLiteral(value) => {
            out.push(0x22);
            out.extend(value.to_i64()?.to_le_bytes());
        }
        ExpressionKind::Atomic(op) => out.push(atomic_code(*op)),
        ExpressionKind::Associative { op, children } => put_expressions(associative_code(*op), children, out)?,
        ExpressionKind::Binary { op, left, right } => {
            out.push(binary_code(*op));
            put_expression(left, out)?;
            put_expression(right, out)?;
        }
        ExpressionKind::Unary { op: UnaryExprOp::UnMinus, child } => {
            out.push(0x29);
            put_expression(child, out)?;
        }
        ExpressionKind::SetExtension(members) => put_expressions(0x2d, members, out)?,
        ExpressionKind::Bool(pred) => {
            out.push(0x2e);
            put_predicate(pred, out)?;
        }
        ExpressionKind::Quantified { op: QuantExprOp::CSet, decls, pred, expr, .. } => {
            put_block(0x30, decls, pred, out)?;
            put_expression(expr, out)?;
        }
    }
    Some(())
}

fn relational_code(op: RelationalOp) -> u8 {
    match op {
        RelationalOp::Equal => 0x10,
        RelationalOp::Lt => 0x11,
        RelationalOp::Le => 0x12,
        RelationalOp::Gt => 0x13,
        RelationalOp::Ge => 0x14,
        RelationalOp::In => 0x15,
        RelationalOp::Subset => 0x16,
        RelationalOp::SubsetEq => 0x17,
    }
}

fn atomic_code(op: AtomicOp) -> u8 {
    match op {
        AtomicOp::EmptySet => 0x23,
        AtomicOp::Natural => 0x24,
        AtomicOp::Natural1 => 0x25,
        AtomicOp::True => 0x31,
        AtomicOp::False => 0x32,
    }
}

fn associative_code(op: AssocExprOp) -> u8 {
    match op {
        AssocExprOp::Plus => 0x26,
        AssocExprOp::Mul => 0x27,
        AssocExprOp::BUnion => 0x2a,
        AssocExprOp::BInter => 0x2b,
    }
}

fn binary_code(op: BinaryExprOp) -> u8 {
    match op {
        BinaryExprOp::Minus => 0x28,
        BinaryExprOp::SetMinus => 0x2c,
        BinaryExprOp::Mapsto => 0x2f,
    }
}
