//! Stands in for `rossi::formula`: shared trees with cached hash, typing and outward indices.
//! The factory makes exactly the node it is asked for: nothing is flattened or normalised.

mod bound;
mod factory;
mod node;
pub mod tag;
mod types;
mod typing;

pub use factory::FormulaFactory;
pub use node::{BoundIdentDecl, Expression, ExpressionKind, FormulaRef, Predicate, PredicateKind};
pub use types::{SealedTypeEnvironment, Type};
