//! Stands in for builder.rs, whose proof trees are left out: genmp.rs needs the trait alone.

use crate::rule::Rule;
use crate::sequent::ProverSequent;
use crate::skeleton::StoredRule;

/// Renamings of introduced identifiers; genMP introduces none.
#[derive(Default)]
pub struct ReplayHints;

pub trait Reasoner: Sync {
    fn replay(&self, seq: &ProverSequent, stored: &StoredRule, hints: &ReplayHints) -> Result<Rule, String>;
}
