//! Moving bound indices: `shift_bound_identifiers` and `instantiate`.

use super::node::{BoundIdentDecl, Expression, ExpressionKind, Predicate, PredicateKind};
use super::types::Type;

/// What an index that points `outward` beyond the start becomes, `depth` variables below it.
type Change<'a> = &'a dyn Fn(u32, u32) -> Expression;

fn bound(index: i64) -> Expression {
    let index = u32::try_from(index).expect("a shifted index stays in range");
    super::FormulaFactory.bound_identifier(index, None, Some(Type::Int))
}

/// Nothing in a formula whose indices all stay below `depth` has to change.
fn is_closed_below(outward: &[u32], depth: u32) -> bool {
    outward.last().is_none_or(|&greatest| greatest < depth)
}

impl Predicate {
    fn with_outward(&self, depth: u32, change: Change<'_>) -> Predicate {
        if is_closed_below(self.dangling_bound_indices(), depth) {
            return self.clone();
        }
        let pred = |p: &Predicate| p.with_outward(depth, change);
        let expr = |e: &Expression| e.with_outward(depth, change);
        let kind = match self.kind().clone() {
            PredicateKind::Not(child) => PredicateKind::Not(pred(&child)),
            PredicateKind::Binary { op, left, right } => {
                PredicateKind::Binary { op, left: pred(&left), right: pred(&right) }
            }
            PredicateKind::Associative { op, children } => {
                PredicateKind::Associative { op, children: children.iter().map(pred).collect() }
            }
            PredicateKind::Quantified { op, decls, pred } => {
                let pred = pred.with_outward(depth + decls.len() as u32, change);
                PredicateKind::Quantified { op, decls, pred }
            }
            PredicateKind::Relational { op, left, right } => {
                PredicateKind::Relational { op, left: expr(&left), right: expr(&right) }
            }
            PredicateKind::Simple(child) => PredicateKind::Simple(expr(&child)),
            PredicateKind::Multiple(children) => PredicateKind::Multiple(children.iter().map(expr).collect()),
            leaf => leaf,
        };
        Predicate::make(kind)
    }

    /// The body of this quantified predicate with each variable that has a replacement replaced;
    /// the others stay quantified. Replacements are written outside the quantifier.
    pub fn instantiate(&self, replacements: &[Option<Expression>]) -> Predicate {
        let PredicateKind::Quantified { op, decls, pred } = self.kind() else {
            panic!("only a quantified predicate can be instantiated");
        };
        assert_eq!(decls.len(), replacements.len(), "one replacement slot for each variable");
        let kept: Vec<BoundIdentDecl> =
            decls.iter().zip(replacements).filter(|(_, r)| r.is_none()).map(|(d, _)| d.clone()).collect();
        let body = pred.with_outward(0, &|outward, depth| instance_of(outward, depth, replacements));
        if kept.is_empty() { body } else { self.factory().quantified_predicate(*op, kept, body, None) }
    }
}

/// Index 0 is the variable declared last.
fn instance_of(outward: u32, depth: u32, replacements: &[Option<Expression>]) -> Expression {
    let free_slots = |slots: &[Option<Expression>]| slots.iter().filter(|slot| slot.is_none()).count() as i64;
    let kept = free_slots(replacements);
    let declared = replacements.len();
    let depth_i = i64::from(depth);
    if outward as usize >= declared {
        return bound(i64::from(outward) - declared as i64 + kept + depth_i);
    }
    let position = declared - 1 - outward as usize;
    match &replacements[position] {
        Some(replacement) => replacement.shift_bound_identifiers((kept + depth_i) as i32),
        None => bound(free_slots(&replacements[position + 1..]) + depth_i),
    }
}

impl Expression {
    fn with_outward(&self, depth: u32, change: Change<'_>) -> Expression {
        if is_closed_below(self.dangling_bound_indices(), depth) {
            return self.clone();
        }
        let expr = |e: &Expression| e.with_outward(depth, change);
        let kind = match self.kind().clone() {
            ExpressionKind::BoundIdentifier(index) => return change(index - depth, depth),
            ExpressionKind::SetExtension(members) => ExpressionKind::SetExtension(members.iter().map(expr).collect()),
            ExpressionKind::Bool(pred) => ExpressionKind::Bool(pred.with_outward(depth, change)),
            ExpressionKind::Binary { op, left, right } => {
                ExpressionKind::Binary { op, left: expr(&left), right: expr(&right) }
            }
            ExpressionKind::Associative { op, children } => {
                ExpressionKind::Associative { op, children: children.iter().map(expr).collect() }
            }
            ExpressionKind::Unary { op, child } => ExpressionKind::Unary { op, child: expr(&child) },
            ExpressionKind::Quantified { op, decls, pred, expr, form } => {
                let below = depth + decls.len() as u32;
                let (pred, expr) = (pred.with_outward(below, change), expr.with_outward(below, change));
                ExpressionKind::Quantified { op, decls, pred, expr, form }
            }
            leaf => leaf,
        };
        Expression::make(kind, self.ty().cloned())
    }

    /// Every index that points outside moves by `offset`.
    pub fn shift_bound_identifiers(&self, offset: i32) -> Expression {
        let least = self.dangling_bound_indices().first().map_or(0, |&i| i64::from(i));
        assert!(
            least + i64::from(offset) >= 0 || self.dangling_bound_indices().is_empty(),
            "an index would leave its binder"
        );
        self.with_outward(0, &|outward, depth| bound(i64::from(outward) + i64::from(offset) + i64::from(depth)))
    }
}
