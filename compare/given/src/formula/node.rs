//! Predicates and expressions. Equality is that of the trees; a cached hash makes it quick.

use std::collections::hash_map::DefaultHasher;
use std::fmt;
use std::hash::{Hash, Hasher};
use std::sync::Arc;

use super::factory::FormulaFactory;
use super::tag::*;
use super::types::Type;
use super::typing;
use crate::big_int::BigInt;

/// A declared variable; document 01's are nameless integers.
#[derive(Clone, Debug, PartialEq, Eq, Hash)]
pub struct BoundIdentDecl;

/// Those kinds that document 01 leaves out stand here because genmp.rs names them; none is made.
#[derive(Clone, Debug, PartialEq, Eq, Hash)]
pub enum PredicateKind {
    Literal(LiteralPredOp),
    #[allow(dead_code)]
    PredicateVariable(Arc<str>),
    #[allow(dead_code)]
    Application {},
    #[allow(dead_code)]
    Extended {},
    Not(Predicate),
    Binary {
        op: BinaryPredOp,
        left: Predicate,
        right: Predicate,
    },
    Associative {
        op: AssocPredOp,
        children: Vec<Predicate>,
    },
    Quantified {
        op: QuantPredOp,
        decls: Vec<BoundIdentDecl>,
        pred: Predicate,
    },
    Relational {
        op: RelationalOp,
        left: Expression,
        right: Expression,
    },
    Simple(Expression),
    Multiple(Vec<Expression>),
}

#[derive(Clone, Debug, PartialEq, Eq, Hash)]
pub enum ExpressionKind {
    FreeIdentifier(Arc<str>),
    BoundIdentifier(u32),
    IntegerLiteral(BigInt),
    Atomic(AtomicOp),
    SetExtension(Vec<Expression>),
    Bool(Predicate),
    Binary { op: BinaryExprOp, left: Expression, right: Expression },
    Associative { op: AssocExprOp, children: Vec<Expression> },
    Unary { op: UnaryExprOp, child: Expression },
    Quantified { op: QuantExprOp, decls: Vec<BoundIdentDecl>, pred: Predicate, expr: Expression, form: QuantExprForm },
}

/// A node with what is worked out once, when it is made.
struct Node<K> {
    kind: K,
    hash: u64,
    /// Indices that point outside the formula, from 0 for the nearest binder; sorted, no repeats.
    outward: Vec<u32>,
    /// Whether this node and all below it fit their operators.
    checked: bool,
    ty: Option<Type>,
}

#[derive(Clone)]
pub struct Predicate(Arc<Node<PredicateKind>>);

#[derive(Clone)]
pub struct Expression(Arc<Node<ExpressionKind>>);

/// A subformula of either sort.
#[derive(Clone, Copy)]
pub enum FormulaRef<'a> {
    Pred(&'a Predicate),
    Expr(&'a Expression),
}

impl FormulaRef<'_> {
    fn outward(&self) -> &[u32] {
        match self {
            FormulaRef::Pred(pred) => pred.dangling_bound_indices(),
            FormulaRef::Expr(expr) => expr.dangling_bound_indices(),
        }
    }

    fn is_type_checked(&self) -> bool {
        match self {
            FormulaRef::Pred(pred) => pred.is_type_checked(),
            FormulaRef::Expr(expr) => expr.0.checked,
        }
    }
}

fn hash_of(kind: &impl Hash) -> u64 {
    let mut hasher = DefaultHasher::new();
    kind.hash(&mut hasher);
    hasher.finish()
}

/// The parts' outward indices, seen from outside a binder of `bound` variables.
fn outward_of(parts: &[FormulaRef<'_>], bound: u32) -> Vec<u32> {
    let all = parts.iter().flat_map(|part| part.outward().iter());
    let mut outward: Vec<u32> = all.filter(|&&i| i >= bound).map(|i| i - bound).collect();
    outward.sort_unstable();
    outward.dedup();
    outward
}

impl PredicateKind {
    fn parts(&self) -> Vec<FormulaRef<'_>> {
        match self {
            PredicateKind::Not(child) => vec![FormulaRef::Pred(child)],
            PredicateKind::Binary { left, right, .. } => vec![FormulaRef::Pred(left), FormulaRef::Pred(right)],
            PredicateKind::Associative { children, .. } => children.iter().map(FormulaRef::Pred).collect(),
            PredicateKind::Quantified { pred, .. } => vec![FormulaRef::Pred(pred)],
            PredicateKind::Relational { left, right, .. } => vec![FormulaRef::Expr(left), FormulaRef::Expr(right)],
            PredicateKind::Simple(child) => vec![FormulaRef::Expr(child)],
            PredicateKind::Multiple(children) => children.iter().map(FormulaRef::Expr).collect(),
            _ => Vec::new(),
        }
    }

    fn declared(&self) -> usize {
        match self {
            PredicateKind::Quantified { decls, .. } => decls.len(),
            _ => 0,
        }
    }
}

impl ExpressionKind {
    fn parts(&self) -> Vec<FormulaRef<'_>> {
        match self {
            ExpressionKind::SetExtension(members) => members.iter().map(FormulaRef::Expr).collect(),
            ExpressionKind::Bool(pred) => vec![FormulaRef::Pred(pred)],
            ExpressionKind::Binary { left, right, .. } => vec![FormulaRef::Expr(left), FormulaRef::Expr(right)],
            ExpressionKind::Associative { children, .. } => children.iter().map(FormulaRef::Expr).collect(),
            ExpressionKind::Unary { child, .. } => vec![FormulaRef::Expr(child)],
            ExpressionKind::Quantified { pred, expr, .. } => vec![FormulaRef::Pred(pred), FormulaRef::Expr(expr)],
            _ => Vec::new(),
        }
    }

    /// The index that this node itself is.
    fn own_index(&self) -> Option<u32> {
        match self {
            ExpressionKind::BoundIdentifier(index) => Some(*index),
            _ => None,
        }
    }

    fn declared(&self) -> usize {
        match self {
            ExpressionKind::Quantified { decls, .. } => decls.len(),
            _ => 0,
        }
    }
}

impl Predicate {
    pub(super) fn make(kind: PredicateKind) -> Predicate {
        let parts = kind.parts();
        let outward = outward_of(&parts, kind.declared() as u32);
        let checked = typing::predicate_fits(&kind) && parts.iter().all(FormulaRef::is_type_checked);
        let hash = hash_of(&kind);
        Predicate(Arc::new(Node { hash, outward, checked, ty: None, kind }))
    }

    pub fn kind(&self) -> &PredicateKind {
        &self.0.kind
    }

    pub fn factory(&self) -> &FormulaFactory {
        &FormulaFactory
    }

    pub fn dangling_bound_indices(&self) -> &[u32] {
        &self.0.outward
    }

    pub fn is_type_checked(&self) -> bool {
        self.0.checked
    }

    /// Shows every subformula to `visit`; the given files use nothing of the answer.
    pub fn positions(&self, visit: &mut dyn FnMut(FormulaRef<'_>) -> bool) {
        walk(FormulaRef::Pred(self), visit);
    }
}

fn walk(formula: FormulaRef<'_>, visit: &mut dyn FnMut(FormulaRef<'_>) -> bool) {
    visit(formula);
    let parts = match formula {
        FormulaRef::Pred(pred) => pred.kind().parts(),
        FormulaRef::Expr(expr) => expr.kind().parts(),
    };
    for part in parts {
        walk(part, visit);
    }
}

impl Expression {
    pub(super) fn make(kind: ExpressionKind, ty: Option<Type>) -> Expression {
        let parts = kind.parts();
        let mut outward = outward_of(&parts, kind.declared() as u32);
        outward.extend(kind.own_index());
        let checked = ty.is_some() && parts.iter().all(FormulaRef::is_type_checked);
        let hash = hash_of(&kind);
        Expression(Arc::new(Node { hash, outward, checked, ty, kind }))
    }

    pub fn kind(&self) -> &ExpressionKind {
        &self.0.kind
    }

    pub fn factory(&self) -> &FormulaFactory {
        &FormulaFactory
    }

    pub fn ty(&self) -> Option<&Type> {
        self.0.ty.as_ref()
    }

    pub fn dangling_bound_indices(&self) -> &[u32] {
        &self.0.outward
    }
}

impl PartialEq for Predicate {
    fn eq(&self, other: &Predicate) -> bool {
        Arc::ptr_eq(&self.0, &other.0) || (self.0.hash == other.0.hash && self.0.kind == other.0.kind)
    }
}

impl Eq for Predicate {}

impl Hash for Predicate {
    fn hash<H: Hasher>(&self, state: &mut H) {
        state.write_u64(self.0.hash);
    }
}

impl fmt::Debug for Predicate {
    fn fmt(&self, f: &mut fmt::Formatter<'_>) -> fmt::Result {
        self.0.kind.fmt(f)
    }
}

impl PartialEq for Expression {
    fn eq(&self, other: &Expression) -> bool {
        Arc::ptr_eq(&self.0, &other.0) || (self.0.hash == other.0.hash && self.0.kind == other.0.kind)
    }
}

impl Eq for Expression {}

impl Hash for Expression {
    fn hash<H: Hasher>(&self, state: &mut H) {
        state.write_u64(self.0.hash);
    }
}

impl fmt::Debug for Expression {
    fn fmt(&self, f: &mut fmt::Formatter<'_>) -> fmt::Result {
        self.0.kind.fmt(f)
    }
}
