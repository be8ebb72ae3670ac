//! The buffers lent with an act, each with places of its own.

use answers::Refusal;

use crate::file::{read_types, MOST_HYPOTHESES, MOST_IDENTIFIERS};
use crate::read::{predicate, refuse, short};
use crate::tree::Tree;

/// One predicate and nothing after it.
pub fn formula(bytes: &[u8], types: &[u8]) -> Result<Tree, Refusal> {
    let (tree, end) = predicate(bytes, 0, types)?;
    ended(bytes, end)?;
    Ok(tree)
}

/// A count byte of 0 to 64 and so many predicates; repeats are allowed.
pub fn list(bytes: &[u8], types: &[u8]) -> Result<Vec<Tree>, Refusal> {
    counted(bytes, types, MOST_HYPOTHESES)
}

/// A list of no or one predicate.
pub fn goal(bytes: &[u8], types: &[u8]) -> Result<Option<Tree>, Refusal> {
    Ok(counted(bytes, types, 1)?.pop())
}

fn counted(bytes: &[u8], types: &[u8], most: usize) -> Result<Vec<Tree>, Refusal> {
    let Some(&count) = bytes.first() else {
        return short(bytes);
    };
    if usize::from(count) > most {
        return refuse(7, 0);
    }
    let mut formulas = Vec::new();
    let mut at = 1;
    for _ in 0..count {
        let (tree, end) = predicate(bytes, at, types)?;
        formulas.push(tree);
        at = end;
    }
    ended(bytes, at)?;
    Ok(formulas)
}

/// Bytes left over are 11.
fn ended(bytes: &[u8], end: usize) -> Result<(), Refusal> {
    if end < bytes.len() {
        return refuse(11, end);
    }
    Ok(())
}

/// One-point's buffer of type bytes: its length is asked before any byte.
pub fn types(bytes: &[u8]) -> Result<Vec<u8>, Refusal> {
    if bytes.len() > MOST_IDENTIFIERS {
        return refuse(4, MOST_IDENTIFIERS);
    }
    read_types(bytes, 0, bytes.len())
}
